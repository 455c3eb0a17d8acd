//! Writing with one rule altered.

use super::Wrong;
use crate::check::check;
use crate::numbers::*;
use crate::other::{counted, plain_write};
use crate::ours::{Clock, Counted};

const WORDS: usize = 101;

/// Whether document 01 turns this message away, whatever its clock and the lent words.
fn bad_message(main: &[u8], kind: u32, response: &[u8]) -> bool {
    let nominal = Clock {
        short: 64,
        long: 128,
        sof: 200,
    };
    plain_write(nominal, main, kind, response, &mut [0; WORDS]).number == REFUSED_MESSAGE
}

/// The same words but for an exchange of short and long at one place.
fn exchange(clock: Clock, word: &mut u32) {
    *word = clock.short + clock.long - *word;
}

fn reversed(bytes: &[u8]) -> Vec<u8> {
    bytes.iter().map(|byte| byte.reverse_bits()).collect()
}

/// What is altered before the frame is written; nothing where this variant alters another rule.
fn written_otherwise(
    wrong: Wrong,
    clock: Clock,
    main: &[u8],
    kind: u32,
    response: &[u8],
    words: &mut [u32],
) -> Option<Counted> {
    let eod = 2 + 8 * (main.len() + 1);
    match wrong {
        Wrong::LowBitFirst => Some(plain_write(clock, &reversed(main), kind, response, words)),
        Wrong::ResponseCheckOverBoth if kind == 2 => {
            let both = check(&[main, response].concat());
            let checked = [response, &[both]].concat();
            let answer = plain_write(clock, main, 1, &checked, words);
            exchange(clock, &mut words[eod + 1]);
            Some(answer)
        }
        _ => None,
    }
}

pub fn write(
    wrong: Wrong,
    clock: Clock,
    main: &[u8],
    kind: u32,
    response: &[u8],
    words: &mut [u32],
) -> Counted {
    let before = words.to_vec();
    let right = plain_write(clock, main, kind, response, words);
    let refused = |number| counted(Err(number));
    let eod = 2 + 8 * (main.len() + 1);
    if right.number == DONE {
        let mut again = before.clone();
        if let Some(answer) = written_otherwise(wrong, clock, main, kind, response, &mut again) {
            words.copy_from_slice(&again);
            return answer;
        }
    }
    match (wrong, right.number) {
        (Wrong::NormalizationExchanged, DONE) if kind != 0 => exchange(clock, &mut words[eod + 1]),
        (Wrong::EodLong, DONE) if kind != 0 => words[eod] = clock.long,
        (Wrong::ResponseCounted, DONE) if kind == 0 && main.len() + 1 + response.len() > 12 => {
            words.copy_from_slice(&before);
            return refused(REFUSED_MESSAGE);
        }
        (Wrong::ClosingLeftOut, DONE) => {
            words[right.count - 1] = before[right.count - 1];
            return counted(Ok(right.count - 1));
        }
        (Wrong::HundredEnough, REFUSED_LENT) if words.len() == 100 => {
            let mut more = [before.as_slice(), &[0]].concat();
            let answer = plain_write(clock, main, kind, response, &mut more);
            words.copy_from_slice(&more[..100]);
            return answer;
        }
        (Wrong::ElevenRefused, DONE) if main.len() == 11 => {
            words.copy_from_slice(&before);
            return refused(REFUSED_MESSAGE);
        }
        (Wrong::MessageBeforeClock, REFUSED_CLOCK) if bad_message(main, kind, response) => {
            return refused(REFUSED_MESSAGE)
        }
        (Wrong::WordsBeforeMessage, REFUSED_MESSAGE) if words.len() < WORDS => {
            return refused(REFUSED_LENT)
        }
        (Wrong::WriteRefusalWrites, REFUSED_LENT | REFUSED_CLOCK | REFUSED_MESSAGE)
            if !words.is_empty() =>
        {
            words[0] = !words[0]
        }
        (Wrong::WritePastCleared, DONE) if right.count < words.len() => words[right.count] = 0,
        _ => {}
    }
    right
}
