//! The second program's live reader in the shape of the proved calls, as documents 01 and 02 have it or with one rule
//! altered (wrong_live.rs).

use crate::live::{self, Live};
use crate::numbers::*;
use crate::ours::{Asked, Heard};
use crate::wrong::{self, Wrong};

/// An answer without a frame. A value that the answer does not have is 0.
pub fn bare(number: u32, next: u64) -> Heard {
    Heard {
        number,
        kind: 0,
        next,
        opening: 0,
        main: 0,
        response: 0,
    }
}

pub fn hear(wrong: Wrong, live: &mut Live, width: u32, bytes: &mut [u8]) -> Heard {
    if wrong != Wrong::Nothing {
        return wrong::live::hear(wrong, live, width, bytes);
    }
    plain_hear(live, width, bytes)
}

pub fn ask(wrong: Wrong, live: &mut Live) -> Asked {
    if wrong != Wrong::Nothing {
        return wrong::live::ask(wrong, live);
    }
    plain_ask(live)
}

/// Hearing by the documents.
pub fn plain_hear(live: &mut Live, width: u32, bytes: &mut [u8]) -> Heard {
    match live.hear(width, bytes) {
        Err(number) => bare(number, 0),
        Ok(None) => bare(UNDECIDED, 0),
        Ok(Some(answer)) => match answer.frame {
            None => bare(answer.number, answer.next),
            Some(frame) => Heard {
                number: answer.number,
                kind: frame.kind as u32,
                next: answer.next,
                opening: frame.opening,
                main: frame.main,
                response: frame.response,
            },
        },
    }
}

/// Asking by the documents.
pub fn plain_ask(live: &Live) -> Asked {
    match live.ask() {
        live::Asked::Quiet { next } => Asked {
            number: QUIET,
            next,
            opening: 0,
        },
        live::Asked::Unfinished { opening } => Asked {
            number: UNFINISHED,
            next: opening,
            opening,
        },
    }
}
