//! Reading a recording of intervals into frames.
//!
//! No running state is kept: each place after the opening is judged by looking back over
//! everything between the opening and itself, and the earliest place that is at fault or
//! closes the frame decides.

use crate::check::{bytes_of, check};
use crate::symbol::{classify, Class, Level};

/// The most bytes that both parts of a frame have together, checks included.
pub const MOST_BYTES: usize = 12;

/// The kind of a response: none, plain (no check byte) or checked.
#[derive(Clone, Copy, PartialEq, Eq, Debug)]
pub enum Kind {
    None,
    Plain,
    Checked,
}

/// What is told of a good frame: its opening, the lengths of both parts, the response kind.
#[derive(Clone, Copy, PartialEq, Eq, Debug)]
pub struct Frame {
    pub opening: usize,
    pub main: usize,
    pub response: usize,
    pub kind: Kind,
}

/// What reading answers: the number, the next position and, with number 0 only, the frame.
#[derive(Clone, Copy, PartialEq, Eq, Debug)]
pub struct Answer {
    pub number: u32,
    pub next: usize,
    pub frame: Option<Frame>,
}

/// A look at one place, with everything since the opening in view.
struct Look<'a> {
    recording: &'a [u32],
    opening: usize,
    place: usize,
}

impl Look<'_> {
    fn class_at(&self, place: usize) -> Class {
        classify(Level::of_place(place), self.recording[place])
    }

    fn class(&self) -> Class {
        self.class_at(self.place)
    }

    /// The EOD that stands between the opening and this place, if there is one.
    fn eod(&self) -> Option<usize> {
        (self.opening + 1..self.place).find(|i| self.class_at(*i) == Class::Eod)
    }

    fn at_sof(&self) -> bool {
        self.place == self.opening + 1
    }

    fn at_normalization(&self) -> bool {
        self.eod() == Some(self.place.wrapping_sub(1))
    }

    /// The response kind by the active normalization bit: short is plain, long is checked.
    fn kind(&self) -> Kind {
        match self.eod().map(|eod| self.class_at(eod + 1)) {
            None => Kind::None,
            Some(Class::Bit1) => Kind::Plain,
            Some(_) => Kind::Checked,
        }
    }

    fn bits(&self, first: usize, past: usize) -> Vec<bool> {
        (first..past)
            .filter_map(|i| self.class_at(i).bit())
            .collect()
    }

    fn main_bits(&self) -> Vec<bool> {
        self.bits(self.opening + 2, self.eod().unwrap_or(self.place))
    }

    fn response_bits(&self) -> Vec<bool> {
        let past_eod = |eod| self.bits(eod + 2, self.place);
        self.eod().map_or(Vec::new(), past_eod)
    }

    /// The bits so far of the part in which this place lies.
    fn part_bits(&self) -> Vec<bool> {
        match self.eod() {
            None => self.main_bits(),
            Some(_) => self.response_bits(),
        }
    }

    fn part_bytes(&self) -> Vec<u8> {
        bytes_of(&self.part_bits())
    }

    /// An EOD or an end, with which a part stops.
    fn stops(&self) -> bool {
        self.class() == Class::Eod || self.class().is_end()
    }

    fn too_few(&self) -> bool {
        let least = match self.kind() {
            Kind::None | Kind::Checked => 2,
            Kind::Plain => 1,
        };
        self.part_bytes().len() < least
    }

    fn wrong_check(&self) -> bool {
        match self.part_bytes().split_last() {
            Some((last, before)) => self.kind() != Kind::Plain && *last != check(before),
            None => false,
        }
    }

    /// The first bit of a byte that comes after twelve others, both parts counted.
    fn begins_thirteenth(&self) -> bool {
        let before = self.main_bits().len() + self.response_bits().len();
        let data = !self.at_sof() && !self.at_normalization();
        data && self.class().bit().is_some() && before == 8 * MOST_BYTES
    }

    /// The number of the fault at this place, if it is at fault.
    fn fault(&self) -> Option<u32> {
        RULES
            .iter()
            .find(|(_, applies)| applies(self))
            .map(|(number, _)| *number)
    }

    /// Whether this place, not being at fault, closes the frame.
    fn closes(&self) -> bool {
        self.class().is_end()
    }
}

type Rule = (u32, fn(&Look) -> bool);

/// Every fault with the condition for it, in the order that holds at one interval.
const RULES: [Rule; 10] = [
    (11, |look| look.class() == Class::Noise),
    (14, |look| look.class() == Class::Stuck),
    (13, |look| look.class() == Class::Break),
    (12, |look| look.at_sof() && look.class().bit().is_some()),
    (15, |look| !look.at_sof() && look.class() == Class::Sof),
    (16, |look| look.stops() && look.part_bits().len() % 8 != 0),
    (17, |look| look.stops() && look.too_few()),
    (18, |look| look.stops() && look.wrong_check()),
    (19, |look| {
        look.class() == Class::Eod && look.eod().is_some()
    }),
    (20, |look| look.begins_thirteenth()),
];

/// The first end at an even place at or after p.
pub fn opening_from(recording: &[u32], p: usize) -> Option<usize> {
    (p..recording.len()).find(|i| classify(Level::of_place(*i), recording[*i]).is_end())
}

/// The good frame that this place closes, its bytes laid first in the lent ones.
fn take_frame(look: &Look, lent: &mut [u8]) -> Frame {
    let main = bytes_of(&look.main_bits());
    let response = bytes_of(&look.response_bits());
    let all = [main.as_slice(), response.as_slice()].concat();
    lent[..all.len()].copy_from_slice(&all);
    Frame {
        opening: look.opening,
        main: main.len(),
        response: response.len(),
        kind: look.kind(),
    }
}

/// What a place of the frame that begins at an opening decides: a fault, the good frame, or nothing.
/// It is for a place before which nothing is decided.
pub fn decided(recording: &[u32], opening: usize, place: usize, lent: &mut [u8]) -> Option<Answer> {
    let look = Look {
        recording,
        opening,
        place,
    };
    let answer = |number, frame| Answer {
        number,
        next: place,
        frame,
    };
    match look.fault() {
        Some(number) => Some(answer(number, None)),
        None if look.closes() => Some(answer(0, Some(take_frame(&look, lent)))),
        None => None,
    }
}

/// Reads from position p; answers one of the numbers 0 to 20, or a refusal.
pub fn read(recording: &[u32], p: usize, lent: &mut [u8]) -> Result<Answer, u32> {
    if p > recording.len() {
        return Err(31);
    }
    if lent.len() < MOST_BYTES {
        return Err(32);
    }
    let bare = |number, next| Answer {
        number,
        next,
        frame: None,
    };
    let opening = match opening_from(recording, p) {
        Some(opening) if opening + 1 < recording.len() => opening,
        _ => return Ok(bare(1, p)),
    };
    let mut places = opening + 1..recording.len();
    let answer = places.find_map(|place| decided(recording, opening, place, lent));
    Ok(answer.unwrap_or(bare(2, opening)))
}
