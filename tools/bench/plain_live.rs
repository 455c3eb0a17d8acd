//! Live reading written straight down in Rust, to measure the proved library against.

use crate::ours::{Asked, Heard};
use crate::plain_reading::{class, Phase, Reader, Step, Symbol};

/// A reader that hears one interval after the other, and the frame in which it is, if it is in one.
pub struct Live {
    next: u64,
    full: bool,
    from: u64,
    frame: Option<(u64, Reader)>,
}

/// The number of an interval that was heard and decides nothing yet.
const UNDECIDED: u32 = 63;

fn bare(number: u32, next: u64) -> Heard {
    Heard {
        number,
        kind: 0,
        next,
        opening: 0,
        main: 0,
        response: 0,
    }
}

pub fn start() -> Live {
    Live {
        next: 0,
        full: false,
        from: 0,
        frame: None,
    }
}

/// What an interval decides in a frame, its answer written.
fn judge(reader: &mut Reader, opening: u64, place: u64, symbol: Symbol, bytes: &mut [u8]) -> Heard {
    // An active SOF's width is fault 15 anywhere after the SOF's place.
    if symbol == Symbol::SofOrEod && place % 2 == 1 && reader.phase != Phase::Sof {
        return bare(15, place);
    }
    match reader.step(symbol) {
        Step::Going => bare(UNDECIDED, 0),
        Step::Fault(number) => bare(number, place),
        Step::Closed => {
            bytes[..reader.count].copy_from_slice(&reader.bytes[..reader.count]);
            let (kind, response) = match reader.phase {
                Phase::Plain => (1, reader.count - reader.began),
                Phase::Checked => (2, reader.count - reader.began),
                _ => (0, 0),
            };
            Heard {
                number: 0,
                kind,
                next: place,
                opening,
                main: reader.count - response,
                response,
            }
        }
    }
}

#[inline(never)]
pub fn hear(live: &mut Live, width: u32, bytes: &mut [u8]) -> Heard {
    if live.full {
        return bare(51, 0);
    }
    if bytes.len() < 12 {
        return bare(32, 0);
    }
    let place = live.next;
    match place.checked_add(1) {
        Some(next) => live.next = next,
        None => live.full = true,
    }
    let symbol = class(place % 2 == 1, width);
    let answer = match &mut live.frame {
        None => bare(UNDECIDED, 0),
        Some((opening, reader)) => judge(reader, *opening, place, symbol, bytes),
    };
    if answer.number != UNDECIDED {
        live.from = place;
        live.frame = None;
    }
    if symbol == Symbol::End && live.frame.is_none() {
        live.frame = Some((place, Reader::new()));
    }
    answer
}

#[inline(never)]
pub fn ask(live: &Live) -> Asked {
    match &live.frame {
        Some((opening, _)) if live.full || live.next > opening + 1 => Asked {
            number: 2,
            next: *opening,
            opening: *opening,
        },
        _ => Asked {
            number: 1,
            next: live.from,
            opening: 0,
        },
    }
}
