//! The desk's text with one rule altered. The report is printed here again from the second program's reading; without an
//! alteration it has to agree with the library like the second program's own.

use super::Wrong;
use crate::numbers::*;
use crate::other::plain_read;
use crate::other_row::{before_line, plain_desk, DESK_BYTES, DESK_WORDS};
use crate::ours::{Desk, Read};
use crate::text::order;

/// The input as this variant takes it to be; only what is altered before it is judged.
fn altered(wrong: Wrong, input: &[u8]) -> Vec<u8> {
    let lines = || input.split_inclusive(|byte| *byte == b'\n');
    let each = |alter: fn(&[u8]) -> Vec<u8>| lines().flat_map(alter).collect();
    // A line without the bytes from one place to another, where it begins with a word.
    fn without(line: &[u8], begins: &[u8], cut: usize) -> Vec<u8> {
        if !line.starts_with(begins) {
            return line.to_vec();
        }
        [&line[..begins.len() - cut], &line[begins.len()..]].concat()
    }
    match wrong {
        Wrong::LeadingZeroTaken => each(|line| match line.get(4) {
            Some(b'0'..=b'9') => without(line, b"iv\t0", 1),
            _ => line.to_vec(),
        }),
        Wrong::PlusTaken => each(|line| without(line, b"iv\t+", 1)),
        Wrong::ReturnTaken => each(|line| match line.strip_suffix(b"\r\n") {
            Some(rest) => [rest, b"\n"].concat(),
            None => line.to_vec(),
        }),
        Wrong::WidthWraps => each(|line| match line {
            b"iv\t4294967296\n" => b"iv\t0\n".to_vec(),
            _ => line.to_vec(),
        }),
        Wrong::UpperWordTaken => each(|line| match line.strip_prefix(b"IV\t") {
            Some(rest) => [b"iv\t", rest].concat(),
            None => line.to_vec(),
        }),
        Wrong::LabelOf17Taken => each(|line| match line.len() {
            24 if line.starts_with(b"own\t") => without(line, b"own\tcc", 1),
            _ => line.to_vec(),
        }),
        Wrong::BlankLineSkipped => lines().filter(|l| *l != b"\n").flatten().copied().collect(),
        Wrong::OpenLineTaken if !input.is_empty() && !input.ends_with(b"\n") => {
            [input, b"\n"].concat()
        }
        Wrong::TooManyTaken => lines().take(1 + DESK_WORDS).flatten().copied().collect(),
        _ => input.to_vec(),
    }
}

fn hex(wrong: Wrong, bytes: &[u8]) -> String {
    let one = |byte: &u8| match wrong {
        Wrong::LowerHex => format!("{byte:02x}"),
        _ => format!("{byte:02X}"),
    };
    bytes.iter().map(one).collect()
}

/// The last four columns for an answer that was read from a position.
fn columns(wrong: Wrong, recording: &[u32], from: usize, answer: Read, bytes: &[u8]) -> String {
    let opening = (from..recording.len()).find(|i| i % 2 == 0 && recording[*i] >= 240);
    let at = match (wrong, answer.number) {
        (Wrong::FrameAtClosing, FRAME) => answer.next,
        (Wrong::FaultAtOpening, FAULT_NOISE..) => opening.unwrap_or(from),
        (Wrong::QuietAtTheEnd, QUIET) => recording.len(),
        (Wrong::UnfinishedLineAtPosition, UNFINISHED) => from,
        (_, FRAME) => answer.opening,
        _ => answer.next,
    };
    let (kind, number) = match answer.number {
        FRAME => ("frame", String::new()),
        QUIET => ("quiet", String::new()),
        UNFINISHED => ("unfinished", String::new()),
        fault => ("fault-", fault.to_string()),
    };
    let dash = if wrong == Wrong::NothingForNone {
        ""
    } else {
        "-"
    };
    if answer.number != FRAME {
        return format!("{at}\t{kind}{number}\t{dash}\t{dash}\n");
    }
    let (main, rest) = bytes.split_at(answer.main);
    let main = match wrong {
        Wrong::MainWithoutCheck => &main[..main.len() - 1],
        _ => main,
    };
    let marks = match wrong {
        Wrong::MarksExchanged => ["", "c:", "p:"],
        Wrong::MarksLeftOut => ["", "", ""],
        _ => ["", "p:", "c:"],
    };
    let response = match answer.kind {
        0 => dash.to_string(),
        kind => marks[kind as usize].to_string() + &hex(wrong, &rest[..answer.response]),
    };
    format!("{at}\t{kind}\t{}\t{response}\n", hex(wrong, main))
}

/// The report of a good input: the header, and a line for each answer.
fn report(wrong: Wrong, input: &[u8], recording: &[u32]) -> String {
    let first = String::from_utf8_lossy(input);
    let own: Vec<&str> = first.lines().next().unwrap_or("").split('\t').collect();
    let (customer, vehicle) = match wrong {
        Wrong::LabelsExchanged => (own[2], own[1]),
        _ => (own[1], own[2]),
    };
    let mut page = String::new();
    if wrong != Wrong::HeaderLeftOut {
        page += "customer\tvehicle\tat\tkind\tmain\tresponse\n";
    }
    let mut from = 0;
    loop {
        let mut bytes = [0; 12];
        let answer = plain_read(recording, from, &mut bytes);
        let last = answer.number == QUIET || answer.number == UNFINISHED;
        if !(last && wrong == Wrong::LastAnswerLeftOut) {
            let rest = columns(wrong, recording, from, answer, &bytes);
            page += &format!("{customer}\t{vehicle}\t{rest}");
        }
        if last {
            break;
        }
        from = answer.next;
    }
    if wrong == Wrong::LastNewlineLeftOut {
        page.pop();
    }
    page
}

/// The line and the text of a refusal.
fn refusal(wrong: Wrong, input: &[u8], line: usize) -> (usize, String) {
    let lines = input.split_inclusive(|byte| *byte == b'\n').count();
    let line = match wrong {
        Wrong::LinesFromZero => line - 1,
        Wrong::EmptyIsLineZero if input.is_empty() => 0,
        Wrong::LastLineNamed => lines.max(1),
        _ => line,
    };
    let header = "customer\tvehicle\tat\tkind\tmain\tresponse\n";
    let before = match wrong {
        Wrong::RefusedAfterHeader => header,
        _ => "",
    };
    (line, format!("{before}refused\t{line}\n"))
}

/// What is lent, made longer where this variant takes a word or a byte less for enough.
fn enough(wrong: Wrong, words: &[u32], bytes: &[u8]) -> Option<(Vec<u32>, Vec<u8>)> {
    let few_words = wrong == Wrong::WordLessEnough && words.len() == DESK_WORDS - 1;
    let few_bytes = wrong == Wrong::ByteLessEnough && bytes.len() == DESK_BYTES - 1;
    let longer = ([words, &[0]].concat(), [bytes, &[0]].concat());
    (few_words || few_bytes).then_some(longer)
}

pub fn desk(wrong: Wrong, input: &[u8], words: &mut [u32], bytes: &mut [u8]) -> Desk {
    if let Some((mut more_words, mut more_bytes)) = enough(wrong, words, bytes) {
        let right = plain_desk(input, &mut more_words, &mut more_bytes);
        words.copy_from_slice(&more_words[..words.len()]);
        bytes.copy_from_slice(&more_bytes[..bytes.len()]);
        return right;
    }
    let before = words.to_vec();
    let input = altered(wrong, input);
    let mut right = plain_desk(&input, words, &mut bytes.to_vec());
    let page = match right.number {
        DONE => {
            let recording = order(&input).map_or(Vec::new(), |order| order.recording);
            report(wrong, &input, &recording)
        }
        BAD_INPUT => {
            let (line, page) = refusal(wrong, &input, right.line);
            right.line = line;
            page
        }
        _ => {
            if wrong == Wrong::ShortLentWritten && !bytes.is_empty() {
                bytes[0] = !bytes[0];
            }
            return right;
        }
    };
    right.length = page.len();
    bytes[..page.len()].copy_from_slice(page.as_bytes());
    let written = words.iter().zip(&before).filter(|(a, b)| a != b).count();
    match (wrong, right.number) {
        (Wrong::RefusedWordsLaid, BAD_INPUT) => {
            let widths = order(before_line(&input, right.line)).map_or(Vec::new(), |order| order.recording);
            words[..widths.len()].copy_from_slice(&widths);
        }
        (Wrong::WordPastCleared, _) if written < words.len() => words[written] = 0,
        (Wrong::BytePastCleared, _) if page.len() < bytes.len() => bytes[page.len()] = 0,
        _ => {}
    }
    right
}
