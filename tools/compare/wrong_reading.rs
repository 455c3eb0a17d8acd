//! Reading with one rule altered.

use super::Wrong;
use crate::check::check;
use crate::numbers::*;
use crate::other::plain_read;
use crate::ours::Read;

/// The first end at an even place at or after a position.
fn opening(intervals: &[u32], from: usize) -> Option<usize> {
    (from..intervals.len()).find(|i| i % 2 == 0 && intervals[*i] >= 240)
}

/// The EOD of a frame that opens at a place, if there is one before another place.
fn eod(intervals: &[u32], opening: usize, before: usize) -> Option<usize> {
    (opening + 1..before).find(|i| i % 2 == 0 && (164..=239).contains(&intervals[*i]))
}

/// A recording in which one width is taken for another.
fn taken(intervals: &[u32], width: u32, other: u32) -> Vec<u32> {
    let alter = |w: &u32| if *w == width { other } else { *w };
    intervals.iter().map(alter).collect()
}

/// What is altered before reading; nothing where this variant alters another rule.
fn read_otherwise(wrong: Wrong, intervals: &[u32], from: usize, bytes: &mut [u8]) -> Option<Read> {
    let edge = match wrong {
        Wrong::NoiseEdge => (34, 35),
        Wrong::ShortEdge => (97, 96),
        Wrong::LongEdge => (164, 163),
        Wrong::SofEdge => (240, 239),
        Wrong::StuckEdge => (1_000_000, 999_999),
        Wrong::OddLooksBack if from % 2 == 1 && from <= intervals.len() => {
            return Some(plain_read(intervals, from - 1, bytes));
        }
        _ => return None,
    };
    Some(plain_read(&taken(intervals, edge.0, edge.1), from, bytes))
}

/// Whether the part in which a split byte stands has too few whole bytes as well.
fn few_too(intervals: &[u32], opening: usize, place: usize) -> bool {
    let (first, least) = match eod(intervals, opening, place) {
        None => (opening + 2, 2),
        Some(eod) if intervals[eod + 1] <= 96 => (eod + 2, 1),
        Some(eod) => (eod + 2, 2),
    };
    (place - first) / 8 < least
}

pub fn read(wrong: Wrong, intervals: &[u32], from: usize, bytes: &mut [u8]) -> Read {
    if let Some(answer) = read_otherwise(wrong, intervals, from, bytes) {
        return answer;
    }
    let before = bytes.to_vec();
    let mut right = plain_read(intervals, from, bytes);
    let bare = |number, next| Read {
        number,
        kind: 0,
        next,
        opening: 0,
        main: 0,
        response: 0,
    };
    let opens = if right.number < REFUSED_POSITION {
        opening(intervals, from)
    } else {
        None
    };
    let written = right.main + right.response;
    match (wrong, right.number) {
        (Wrong::ClosingSwallowed, FRAME) => right.next += 1,
        (Wrong::QuietAtOpening, QUIET) => right.next = opens.unwrap_or(from),
        (Wrong::UnfinishedAtPosition, UNFINISHED) => right.next = from,
        (Wrong::JudgedBeforeOpening, FRAME..=FAULT_THIRTEENTH_BYTE) => {
            let past = opens.unwrap_or(intervals.len());
            if let Some(noise) = (from..past).find(|i| intervals[*i] <= 34) {
                bytes.copy_from_slice(&before);
                return bare(FAULT_NOISE, noise);
            }
        }
        (Wrong::FewBeforeSplit, FAULT_SPLIT_BYTE)
            if few_too(intervals, opens.unwrap_or(0), right.next) =>
        {
            right.number = FAULT_FEW_BYTES;
        }
        (Wrong::ResidueZero, FRAME) => {
            bytes.copy_from_slice(&before);
            return bare(FAULT_WRONG_CHECK, right.opening + 2 + 8 * right.main);
        }
        (Wrong::NormalizationCounted, FRAME) if right.kind != 0 => {
            bytes.copy_from_slice(&before);
            return bare(FAULT_SPLIT_BYTE, right.next);
        }
        (Wrong::PlainChecked, FRAME) if right.kind == 1 => {
            let response = &bytes[right.main..written];
            let (last, rest) = response.split_last().expect("a response has bytes");
            if *last != check(rest) {
                bytes.copy_from_slice(&before);
                return bare(FAULT_WRONG_CHECK, right.next);
            }
        }
        (Wrong::LateSofAtNormalization, FAULT_LATE_SOF) => {
            let at_eod = eod(intervals, opens.unwrap_or(0), right.next);
            if at_eod.map_or(false, |eod| eod + 1 == right.next) {
                right.number = FAULT_NO_SOF;
            }
        }
        (Wrong::KindsExchanged, FRAME) if right.kind != 0 => right.kind = 3 - right.kind,
        (Wrong::EndIsPast, QUIET) if from == intervals.len() => return bare(REFUSED_POSITION, 0),
        (Wrong::LentBeforePosition, REFUSED_POSITION) if bytes.len() < 12 => {
            right.number = REFUSED_LENT
        }
        (Wrong::ElevenBytesEnough, REFUSED_LENT) if bytes.len() == 11 => {
            let mut more = [before.as_slice(), &[0]].concat();
            right = plain_read(intervals, from, &mut more);
            bytes.copy_from_slice(&more[..11]);
        }
        (Wrong::ReadPastCleared, FRAME) if written < bytes.len() => bytes[written] = 0,
        (Wrong::FaultWrites, FAULT_NOISE..=FAULT_THIRTEENTH_BYTE) => bytes[0] = !bytes[0],
        _ => {}
    }
    right
}
