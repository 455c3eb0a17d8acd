//! Reading a recording whose intervals come one at a time.
//!
//! There is no machine here that steps from symbol to symbol. The reader keeps the intervals
//! themselves, from the opening on, and judges the newest of them by looking back, just as
//! reading a whole recording does: what it decides follows from what was kept and nothing else.

use crate::reading::{decided, opening_from, Kind, MOST_BYTES};

/// What an interval that decides something answers, its places counted from the first interval heard.
#[derive(Clone, Copy, PartialEq, Eq, Debug)]
pub struct Heard {
    pub number: u32,
    pub next: u64,
    pub frame: Option<Frame>,
}

/// What is told of a good frame: its opening, the lengths of both parts, the response kind.
#[derive(Clone, Copy, PartialEq, Eq, Debug)]
pub struct Frame {
    pub opening: u64,
    pub main: usize,
    pub response: usize,
    pub kind: Kind,
}

/// What asking answers: how reading what was heard so far ends.
#[derive(Clone, Copy, PartialEq, Eq, Debug)]
pub enum Asked {
    Quiet { next: u64 },
    Unfinished { opening: u64 },
}

/// A reader that hears one interval after the other.
#[derive(Clone, PartialEq, Eq, Debug)]
pub struct Live {
    /// The place of the next interval; none after the last place that 64 bits can count.
    pub next: Option<u64>,
    /// The next position of the last answer, 0 before there is one.
    pub from: u64,
    /// The intervals that may still matter, and the place of the first of them, an even one.
    kept: Vec<u32>,
    first: u64,
}

impl Live {
    /// A reader that has heard nothing.
    pub fn start() -> Live {
        Live::resumed(0, 0)
    }

    /// A reader that has heard all intervals before a place and found no opening since a position.
    pub fn resumed(next: u64, from: u64) -> Live {
        // Before an odd place there is a passive interval, and one of width 0 opens nothing.
        let odd = next % 2;
        Live {
            next: Some(next),
            from,
            kept: vec![0; odd as usize],
            first: next - odd,
        }
    }

    /// The opening among the kept intervals.
    fn opening(&self) -> Option<usize> {
        let past = self.from.saturating_sub(self.first);
        opening_from(&self.kept, past as usize)
    }

    /// Drops the kept intervals before one of them, which has to stay, and before the passive one with it.
    fn drop_before(&mut self, index: usize) {
        let even = index - index % 2;
        self.kept.drain(..even);
        self.first += even as u64;
    }

    /// Hears an interval; answers what it decides, or nothing, or a refusal, which changes nothing.
    pub fn hear(&mut self, width: u32, lent: &mut [u8]) -> Result<Option<Heard>, u32> {
        let place = self.next.ok_or(51u32)?;
        if lent.len() < MOST_BYTES {
            return Err(32);
        }
        self.next = place.checked_add(1);
        self.kept.push(width);
        let newest = self.kept.len() - 1;
        let opening = match self.opening() {
            Some(opening) if opening < newest => opening,
            Some(opening) => {
                self.drop_before(opening);
                return Ok(None);
            }
            None => {
                self.drop_before(newest);
                return Ok(None);
            }
        };
        let answer = match decided(&self.kept, opening, newest, lent) {
            Some(answer) => answer,
            None => return Ok(None),
        };
        let frame = answer.frame.map(|frame| Frame {
            opening: self.first + frame.opening as u64,
            main: frame.main,
            response: frame.response,
            kind: frame.kind,
        });
        self.from = place;
        self.drop_before(newest);
        Ok(Some(Heard {
            number: answer.number,
            next: place,
            frame,
        }))
    }

    /// How reading what was heard so far ends.
    pub fn ask(&self) -> Asked {
        match self.opening() {
            Some(opening) if opening + 1 < self.kept.len() => Asked::Unfinished {
                opening: self.first + opening as u64,
            },
            _ => Asked::Quiet { next: self.from },
        }
    }
}
