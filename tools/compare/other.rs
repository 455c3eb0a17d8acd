//! The second program's answers in the shape of the proved calls' ones, as document 01 has them or, to see that a
//! difference is found, with one rule altered (wrong.rs).

use crate::numbers::*;
use crate::ours::{Check, Class, Clock, Counted, Gate, Read, Timed};
use crate::reading::{self, Kind};
use crate::wrong::{self, Wrong};
use crate::{check, symbol, volts, writing};

pub fn second_clock(clock: Clock) -> symbol::Clock {
    symbol::Clock {
        short: clock.short,
        long: clock.long,
        sof: clock.sof,
    }
}

pub fn second_gate(gate: Gate) -> volts::Gate {
    volts::Gate {
        offset: gate.offset,
        active: gate.active,
        passive: gate.passive,
    }
}

pub fn level(active: bool) -> symbol::Level {
    if active {
        symbol::Level::Active
    } else {
        symbol::Level::Passive
    }
}

/// The kind of a number; nothing for a number that is none of the three.
pub fn kind_of(number: u32) -> Option<Kind> {
    [Kind::None, Kind::Plain, Kind::Checked]
        .get(number as usize)
        .copied()
}

pub fn counted(answer: Result<usize, u32>) -> Counted {
    match answer {
        Ok(count) => Counted { number: 0, count },
        Err(number) => Counted { number, count: 0 },
    }
}

pub fn check_byte(wrong: Wrong, bytes: &[u8]) -> Check {
    let right = check::check(bytes);
    Check {
        number: 0,
        check: if wrong == Wrong::CheckNotInverted {
            !right
        } else {
            right
        },
    }
}

pub fn class(wrong: Wrong, active: bool, width: u32) -> Class {
    let shift = wrong == Wrong::EofEdge && width == 281;
    let found = symbol::classify(level(active), width - u32::from(shift));
    let place = symbol::Class::ALL.iter().position(|c| *c == found);
    let symbol = place.expect("a class is one of all") as u32;
    let exchanged = wrong == Wrong::PassiveShortIsOne && !active && found.bit().is_some();
    Class {
        number: 0,
        symbol: if exchanged { 3 - symbol } else { symbol },
    }
}

pub fn good_clock(wrong: Wrong, clock: Clock) -> Timed {
    let mut second = second_clock(clock);
    if wrong == Wrong::ShortOf80 && second.short == 80 {
        second.short = 79;
    }
    Timed {
        number: 0,
        good: symbol::good_clock(second),
    }
}

pub fn intervals(wrong: Wrong, gate: Gate, samples: &[f32], words: &mut [u32]) -> Counted {
    if wrong != Wrong::Nothing {
        return wrong::volts::intervals(wrong, gate, samples, words);
    }
    counted(volts::intervals(second_gate(gate), samples, words))
}

pub fn write(
    wrong: Wrong,
    clock: Clock,
    main: &[u8],
    kind: u32,
    response: &[u8],
    words: &mut [u32],
) -> Counted {
    if wrong != Wrong::Nothing {
        return wrong::writing::write(wrong, clock, main, kind, response, words);
    }
    plain_write(clock, main, kind, response, words)
}

/// Writing by document 01. A kind that is none of the three is what j1850.h says: 37, after 36.
pub fn plain_write(
    clock: Clock,
    main: &[u8],
    kind: u32,
    response: &[u8],
    words: &mut [u32],
) -> Counted {
    let clock = second_clock(clock);
    match kind_of(kind) {
        None if symbol::good_clock(clock) => counted(Err(REFUSED_MESSAGE)),
        None => counted(Err(REFUSED_CLOCK)),
        Some(kind) => {
            let message = writing::Message {
                main,
                kind,
                response,
            };
            counted(writing::write(clock, message, words))
        }
    }
}

pub fn read(wrong: Wrong, intervals: &[u32], from: usize, bytes: &mut [u8]) -> Read {
    if wrong != Wrong::Nothing {
        return wrong::reading::read(wrong, intervals, from, bytes);
    }
    plain_read(intervals, from, bytes)
}

/// Reading by document 01. A value that the answer does not have is 0.
pub fn plain_read(intervals: &[u32], from: usize, bytes: &mut [u8]) -> Read {
    let bare = |number, next, opening| Read {
        number,
        kind: 0,
        next,
        opening,
        main: 0,
        response: 0,
    };
    match reading::read(intervals, from, bytes) {
        Err(number) => bare(number, 0, 0),
        Ok(answer) => match answer.frame {
            Some(frame) => Read {
                number: answer.number,
                kind: frame.kind as u32,
                next: answer.next,
                opening: frame.opening,
                main: frame.main,
                response: frame.response,
            },
            None if answer.number == UNFINISHED => bare(UNFINISHED, answer.next, answer.next),
            None => bare(answer.number, answer.next, 0),
        },
    }
}
