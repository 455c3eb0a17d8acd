//! The second program's bench and text in the shape of the proved calls, as document 01 has them or with one rule altered.

use crate::numbers::*;
use crate::other::second_clock;
use crate::ours::{Called, Clock, Desk, Round, Station, Verdict};
use crate::wrong::{self, Wrong};
use crate::{bench, text};

/// What the desk's call asks for, however short the input (docs/DECISIONS.md).
pub const DESK_WORDS: usize = 16_384;
pub const DESK_BYTES: usize = 442_463;

pub const IDLE: Verdict = Verdict { fared: 0, bit: 0 };

pub fn called(answer: Result<(), u32>) -> Called {
    Called {
        number: answer.err().unwrap_or(0),
    }
}

/// A call by the second program, on the row as it has it.
fn on_row<A>(row: &mut [Station], call: impl FnOnce(&mut [bench::Station]) -> A) -> A {
    let second = |s: &Station| bench::Station {
        clock: second_clock(s.clock),
        bytes: s.bytes,
        len: s.length as usize,
    };
    let mut theirs: Vec<bench::Station> = row.iter().map(second).collect();
    let answer = call(&mut theirs);
    for (station, after) in row.iter_mut().zip(theirs) {
        *station = Station {
            clock: Clock {
                short: after.clock.short,
                long: after.clock.long,
                sof: after.clock.sof,
            },
            bytes: after.bytes,
            length: after.len as u8,
        };
    }
    answer
}

pub fn load(wrong: Wrong, row: &mut [Station], place: usize, message: &[u8]) -> Called {
    if wrong != Wrong::Nothing {
        return wrong::row::load(wrong, row, place, message);
    }
    plain_load(row, place, message)
}

pub fn plain_load(row: &mut [Station], place: usize, message: &[u8]) -> Called {
    called(on_row(row, |theirs| bench::load(theirs, place, message)))
}

pub fn withdraw(wrong: Wrong, row: &mut [Station], place: usize) -> Called {
    if wrong != Wrong::Nothing {
        return wrong::row::withdraw(wrong, row, place);
    }
    plain_withdraw(row, place)
}

pub fn plain_withdraw(row: &mut [Station], place: usize) -> Called {
    called(on_row(row, |theirs| bench::withdraw(theirs, place)))
}

pub fn set_clock(wrong: Wrong, row: &mut [Station], place: usize, clock: Clock) -> Called {
    if wrong != Wrong::Nothing {
        return wrong::row::set_clock(wrong, row, place, clock);
    }
    plain_set_clock(row, place, clock)
}

pub fn plain_set_clock(row: &mut [Station], place: usize, clock: Clock) -> Called {
    let clock = second_clock(clock);
    called(on_row(row, |theirs| bench::set_clock(theirs, place, clock)))
}

/// A round that is turned away: every place is idle, no words, no time.
pub fn turned_away(number: u32) -> Round {
    Round {
        number,
        line_time: 0,
        words: 0,
        verdicts: [IDLE; 32],
    }
}

pub fn round(wrong: Wrong, row: &mut [Station], words: &mut [u32]) -> Round {
    if wrong != Wrong::Nothing {
        return wrong::round::round(wrong, row, words);
    }
    plain_round(row, words)
}

pub fn plain_round(row: &mut [Station], words: &mut [u32]) -> Round {
    match on_row(row, |theirs| bench::round(theirs, words)) {
        Err(number) => turned_away(number),
        Ok(outcome) => Round {
            number: 0,
            line_time: outcome.line_time,
            words: outcome.words,
            verdicts: outcome.verdicts.map(|verdict| match verdict {
                bench::Verdict::Idle => IDLE,
                bench::Verdict::Through => Verdict { fared: 1, bit: 0 },
                bench::Verdict::LostAt(bit) => Verdict { fared: 2, bit },
            }),
        },
    }
}

pub fn desk(wrong: Wrong, input: &[u8], words: &mut [u32], bytes: &mut [u8]) -> Desk {
    if wrong != Wrong::Nothing {
        return wrong::text::desk(wrong, input, words, bytes);
    }
    plain_desk(input, words, bytes)
}

/// The bytes of an input in front of one of its lines, counted from 1.
pub fn before_line(input: &[u8], line: usize) -> &[u8] {
    let lines = input.split_inclusive(|byte| *byte == b'\n');
    &input[..lines.take(line - 1).map(<[u8]>::len).sum()]
}

/// The text by document 01, with what is said here of lent memory: a good input's widths stand first in the words, the text
/// first in the bytes. A bad input leaves the words as they were, and where too little is lent nothing is changed.
pub fn plain_desk(input: &[u8], words: &mut [u32], bytes: &mut [u8]) -> Desk {
    let bare = |number, line, length| Desk {
        number,
        line,
        length,
    };
    if words.len() < DESK_WORDS || bytes.len() < DESK_BYTES {
        return bare(REFUSED_DESK_LENT, 0, 0);
    }
    let bad = match text::order(input) {
        Ok(order) => {
            words[..order.recording.len()].copy_from_slice(&order.recording);
            None
        }
        Err(line) => Some(line),
    };
    let page = text::desk(input);
    bytes[..page.len()].copy_from_slice(&page);
    match bad {
        None => bare(DONE, 0, page.len()),
        Some(line) => bare(BAD_INPUT, line, page.len()),
    }
}
