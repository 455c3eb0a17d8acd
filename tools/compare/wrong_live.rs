//! Live reading with one rule altered.

use super::Wrong;
use crate::live::{self, Live};
use crate::numbers::*;
use crate::other_live::{bare, plain_ask, plain_hear};
use crate::ours::{Asked, Heard};
use crate::reading::MOST_BYTES;

/// A reader that goes on at the same place and has forgotten the opening.
fn forget(live: &mut Live) {
    if let Some(next) = live.next {
        *live = Live::resumed(next, live.from);
    }
}

/// A width that means at the one level what this width means at the other.
fn exchanged(width: u32) -> u32 {
    match width {
        35..=96 => 128,
        97..=163 => 64,
        _ => width,
    }
}

/// What is altered before an interval is judged; nothing where this variant alters another rule.
fn hear_otherwise(wrong: Wrong, live: &mut Live, width: u32, bytes: &mut [u8]) -> Option<Heard> {
    let few = bytes.len() < MOST_BYTES;
    let odd = live.next.map_or(false, |place| place % 2 == 1);
    match (wrong, live.next) {
        (Wrong::LiveActiveAsPassive, _) if odd => Some(plain_hear(live, exchanged(width), bytes)),
        (Wrong::LiveLastRefused, Some(u64::MAX)) => Some(bare(REFUSED_PAST_PLACES, 0)),
        (Wrong::LiveLentFirst, None) if few => Some(bare(REFUSED_LENT, 0)),
        (Wrong::LivePastTaken, None) => {
            *live = Live::resumed(0, live.from);
            Some(plain_hear(live, width, bytes))
        }
        (Wrong::LiveElevenEnough, Some(_)) if bytes.len() == MOST_BYTES - 1 => {
            let mut more = [&*bytes, &[0]].concat();
            let answer = plain_hear(live, width, &mut more);
            bytes.copy_from_slice(&more[..MOST_BYTES - 1]);
            Some(answer)
        }
        (Wrong::LiveLentAtClosing, Some(_)) if few => {
            let before = live.clone();
            let answer = plain_hear(live, width, &mut [0; MOST_BYTES]);
            let closes = answer.number == FRAME;
            if closes {
                *live = before;
            }
            Some(if closes {
                bare(REFUSED_LENT, 0)
            } else {
                answer
            })
        }
        _ => None,
    }
}

/// The opening of the frame in which a reader is, or would be with one interval more.
fn opening(live: &Live) -> Option<u64> {
    let mut more = live.clone();
    // An active interval of 200 is a SOF, and a passive one opens nothing.
    let heard = more.hear(200, &mut [0; MOST_BYTES]);
    match (live.ask(), more.ask()) {
        (live::Asked::Unfinished { opening }, _) => Some(opening),
        (_, live::Asked::Unfinished { opening }) if heard == Ok(None) => Some(opening),
        _ => None,
    }
}

pub fn hear(wrong: Wrong, live: &mut Live, width: u32, bytes: &mut [u8]) -> Heard {
    if let Some(answer) = hear_otherwise(wrong, live, width, bytes) {
        return answer;
    }
    let opened = opening(live);
    let mut right = plain_hear(live, width, bytes);
    let written = right.main + right.response;
    match (wrong, right.number) {
        (Wrong::LiveClosingSwallowed, FRAME) => forget(live),
        (Wrong::LiveFaultyEndSwallowed, FAULT_NOISE..=FAULT_THIRTEENTH_BYTE) => forget(live),
        (Wrong::LivePlacesIn32, _) => {
            right.next &= u64::from(u32::MAX);
            right.opening &= u64::from(u32::MAX);
        }
        (Wrong::LiveFrameAtClosing, FRAME) => right.opening = right.next,
        (Wrong::LiveFaultAtOpening, FAULT_NOISE..=FAULT_THIRTEENTH_BYTE) => {
            right.next = opened.unwrap_or(right.next)
        }
        (Wrong::LiveUndecidedIsQuiet, UNDECIDED) => right.number = QUIET,
        (Wrong::LiveBytesEarly, UNDECIDED) => {
            let mut early = bytes.to_vec();
            if plain_hear(&mut live.clone(), 300, &mut early).number == FRAME {
                bytes.copy_from_slice(&early);
            }
        }
        (Wrong::LivePastCleared, FRAME) if written < bytes.len() => bytes[written] = 0,
        (Wrong::LiveFaultWrites, FAULT_NOISE..=FAULT_THIRTEENTH_BYTE) => bytes[0] = !bytes[0],
        (Wrong::LiveRefusedHeard, REFUSED_LENT) => {
            plain_hear(live, width, &mut [0; MOST_BYTES]);
        }
        (Wrong::LiveRefusedForgets, REFUSED_LENT) => forget(live),
        (Wrong::LiveRefusalWrites, REFUSED_LENT | REFUSED_PAST_PLACES) if !bytes.is_empty() => {
            bytes[0] = !bytes[0]
        }
        _ => {}
    }
    right
}

pub fn ask(wrong: Wrong, live: &mut Live) -> Asked {
    let mut right = plain_ask(live);
    let told = |number, next, opening| Asked {
        number,
        next,
        opening,
    };
    match (wrong, right.number) {
        (Wrong::LivePlacesIn32, _) => {
            right.next &= u64::from(u32::MAX);
            right.opening &= u64::from(u32::MAX);
        }
        (Wrong::LiveQuietForUnfinished, UNFINISHED) => right = told(QUIET, live.from, 0),
        (Wrong::LiveUnfinishedAtOnce, QUIET) => {
            if let Some(opening) = opening(live) {
                right = told(UNFINISHED, opening, opening);
            }
        }
        (Wrong::LiveQuietAtNext, QUIET) => right.next = live.next.unwrap_or(right.next),
        (Wrong::LiveAskingForgets, UNFINISHED) => forget(live),
        _ => {}
    }
    right
}
