//! Calls on a live reader put to both programs: the answers, every lent byte, the library's reader where it may not change
//! and what stands around them have to agree. The two readers cannot be compared with each other: what each keeps shows in
//! what it answers later.

use crate::live;
use crate::numbers::*;
use crate::other_live;
use crate::ours::{self, Asked, Heard, Live};
use crate::trial::{differ, told, Trial, AROUND};
use std::fmt::Debug;

/// The words of the library's reader that cases set: the place of the next interval, where reading goes on, and whether the
/// last place has been heard.
const NEXT: usize = 0;
const FROM: usize = 1;
pub const FULL: usize = 3;

/// A live reader of each program. They have heard the same intervals.
#[derive(Clone)]
pub struct Readers {
    mine: Live,
    theirs: live::Live,
    began: u64,
    heard: Vec<u32>,
}

/// A reader of the library with other words before and after it.
#[repr(C)]
#[derive(Clone, Copy, PartialEq, Debug)]
struct Padded {
    before: [u64; AROUND],
    live: Live,
    after: [u64; AROUND],
}

impl Readers {
    pub fn start() -> Readers {
        Readers {
            mine: ours::live_start(),
            theirs: live::Live::start(),
            began: 0,
            heard: Vec::new(),
        }
    }

    /// Readers that are at a place and have found no opening since a position.
    pub fn resumed(next: u64, from: u64) -> Readers {
        let mut found = Readers::start();
        found.mine.inner[NEXT] = next;
        found.mine.inner[FROM] = from;
        found.theirs = live::Live::resumed(next, from);
        found.began = next;
        found
    }

    fn case(&self) -> [(&'static str, String); 2] {
        let last = self.heard.len().saturating_sub(200);
        [
            ("began", self.began.to_string()),
            ("heard", format!("{last} others, {:?}", &self.heard[last..])),
        ]
    }
}

impl Trial {
    /// The library's reader at another place of the memory.
    fn padded(&mut self, live: Live) -> Padded {
        let mut around = || std::array::from_fn(|_| self.random.next());
        Padded {
            before: around(),
            live,
            after: around(),
        }
    }

    /// Hears an interval; answers what it decides, and the lent bytes.
    pub fn hear(&mut self, readers: &mut Readers, width: u32, lent: usize) -> (Heard, Vec<u8>) {
        let bytes = self.bytes(lent);
        let (mut my_bytes, mut their_bytes) = (bytes.clone(), bytes);
        let before = self.padded(readers.mine);
        let mut padded = before;
        let mine = ours::hear(
            &mut padded.live,
            width,
            &mut my_bytes[AROUND..AROUND + lent],
        );
        let their_lent = &mut their_bytes[AROUND..AROUND + lent];
        let theirs = other_live::hear(self.wrong, &mut readers.theirs, width, their_lent);
        self.tally.count("hear", mine.number);
        if mine.number == REFUSED_PAST_PLACES && lent < 12 {
            self.tally
                .compete("hear", REFUSED_PAST_PLACES, REFUSED_LENT);
        }
        let refused = mine.number == REFUSED_LENT || mine.number == REFUSED_PAST_PLACES;
        let mut wanted = before;
        if !refused {
            wanted.live = padded.live;
        }
        if mine != theirs || my_bytes != their_bytes || padded != wanted {
            let [began, heard] = readers.case();
            let case = [
                began,
                heard,
                ("width", width.to_string()),
                ("lent", lent.to_string()),
                (
                    "reader",
                    format!("before {before:?}, afterwards {padded:?}"),
                ),
            ];
            let found = [
                told(&mine, &my_bytes, &their_bytes),
                told(&theirs, &their_bytes, &my_bytes),
            ];
            differ(self.seed, "hear", &case, found);
        }
        readers.mine = padded.live;
        if !refused {
            readers.heard.push(width);
        }
        (mine, my_bytes[AROUND..AROUND + lent].to_vec())
    }

    pub fn ask(&mut self, readers: &mut Readers) -> Asked {
        let padded = self.padded(readers.mine);
        let mut lent = padded;
        let (mine, theirs) = (
            asked_of(&mut lent),
            other_live::ask(self.wrong, &mut readers.theirs),
        );
        self.tally.count("ask", mine.number);
        if mine != theirs || lent != padded {
            let [began, heard] = readers.case();
            let reader = ("reader", format!("before {padded:?}, afterwards {lent:?}"));
            let found = [format!("{mine:?}"), format!("{theirs:?}")];
            differ(self.seed, "ask", &[began, heard, reader], found);
        }
        mine
    }

    /// A reader that has heard the last place, wherever else it stands: it is refused and stays as it is.
    pub fn hear_full(&mut self, readers: &Readers, full: u64, width: u32, lent: usize) {
        let mut other = readers.clone();
        other.mine.inner[FULL] = full;
        other.theirs.next = None;
        self.hear(&mut other, width, lent);
    }

    /// Hears a recording from a place on, with an interval refused now and then and questions in between. What it answers
    /// is what the library answers on the whole recording.
    pub fn hear_on(&mut self, line: &[u32], began: u64) {
        let mut readers = Readers::resumed(began, began);
        let mut told = Vec::new();
        for width in line {
            if self.random.once_in(16) {
                let few = self.random.below(12);
                self.hear(&mut readers, *width, few);
            }
            if self.random.once_in(64) {
                let (full, lent) = (u64::MAX >> self.random.below(64), self.random.below(14));
                self.hear_full(&readers, full, *width, lent);
            }
            let lent = 12 + self.random.below(20).saturating_sub(15);
            let (answer, bytes) = self.hear(&mut readers, *width, lent);
            if answer.number <= FAULT_THIRTEENTH_BYTE {
                told.push((answer, bytes[..answer.main + answer.response].to_vec()));
            }
            if self.random.once_in(3) {
                self.ask(&mut readers);
            }
        }
        let asked = self.ask(&mut readers);
        let whole = whole(line, began);
        if (&told, asked) != (&whole.0, whole.1) {
            let found = [format!("{told:?}, {asked:?}"), format!("whole: {whole:?}")];
            differ(self.seed, "hear and read", &readers.case(), found);
        }
    }

    /// A reader of any words: there is an answer, it is the same again, it tells of no more than 12 bytes, and nothing but
    /// the reader and the first 12 lent bytes changes. Answers the reader afterwards.
    pub fn hear_anything(&mut self, live: Live, width: u32, lent: usize) -> Live {
        let before = self.bytes(lent);
        let padded = self.padded(live);
        let hear = || {
            let (mut after, mut bytes) = (padded, before.clone());
            let answer = ours::hear(&mut after.live, width, &mut bytes[AROUND..AROUND + lent]);
            (answer, after, bytes)
        };
        let (answer, after, bytes) = hear();
        let mut wanted = (padded, before.clone());
        let number = match (live.inner[FULL], lent) {
            (1.., _) => Some(REFUSED_PAST_PLACES),
            (0, 0..=11) => Some(REFUSED_LENT),
            _ => {
                let first = AROUND..AROUND + 12;
                wanted.0.live = after.live;
                wanted.1[first.clone()].copy_from_slice(&bytes[first]);
                None
            }
        };
        let known = matches!(
            answer.number,
            FRAME | FAULT_NOISE..=FAULT_THIRTEENTH_BYTE | UNDECIDED
        );
        let few = answer.main <= 12 && answer.response <= 12 - answer.main;
        let right = few && number.map_or(known, |number| answer == other_live::bare(number, 0));
        let same = hear() == (answer, after, bytes.clone());
        if !right || !same || (after, bytes.clone()) != wanted {
            let case = [
                ("reader", format!("{live:?}")),
                ("width", width.to_string()),
                ("lent", lent.to_string()),
            ];
            let found = [
                format!("{answer:?}, {after:?}, {bytes:?}, the same again: {same}"),
                format!("at most {wanted:?}"),
            ];
            differ(self.seed, "hear, any reader", &case, found);
        }
        self.tally.note("any reader", answer.number);
        self.ask_anything(padded);
        after.live
    }

    fn ask_anything(&mut self, padded: Padded) {
        let mut lent = padded;
        let answer = asked_of(&mut lent);
        let right = match answer.number {
            QUIET => answer.opening == 0,
            UNFINISHED => answer.opening == answer.next,
            _ => false,
        };
        let same = lent == padded && asked_of(&mut lent) == answer;
        if !right || !same {
            let found = [format!("{answer:?}, {lent:?}"), format!("{padded:?}")];
            differ(self.seed, "ask, any reader", &[], found);
        }
    }
}

/// What the library answers about a reader that it is lent to read. The compiler takes memory lent for reading to stay as it
/// is: through a pointer that is read as volatile it cannot know whose memory this is, so that a comparison afterwards looks
/// at it again.
fn asked_of(padded: &mut Padded) -> Asked {
    let pointer: *const Padded = padded;
    let unknown = unsafe { &*std::ptr::read_volatile(&pointer) };
    ours::ask(&unknown.live)
}

/// What the library answers on a whole recording, its places counted from one on, and with what it ends.
fn whole(line: &[u32], began: u64) -> (Vec<(Heard, Vec<u8>)>, Asked) {
    let mut answers = Vec::new();
    let mut from = 0;
    loop {
        let mut bytes = [0; 12];
        let answer = ours::read(line, from, &mut bytes);
        let place = |index: usize| began + index as u64;
        let (number, next) = (answer.number, place(answer.next));
        let opening = if number == FRAME || number == UNFINISHED {
            place(answer.opening)
        } else {
            0
        };
        if number == QUIET || number == UNFINISHED {
            let asked = Asked {
                number,
                next,
                opening,
            };
            return (answers, asked);
        }
        let heard = Heard {
            number,
            kind: answer.kind,
            next,
            opening,
            main: answer.main,
            response: answer.response,
        };
        answers.push((heard, bytes[..answer.main + answer.response].to_vec()));
        from = answer.next;
    }
}
