//! One call on a lent row put to both programs: the answers, every field of every station, every lent word and what stands
//! around them have to agree.

use crate::numbers::*;
use crate::other_row;
use crate::ours::{self, Called, Clock, Round, Station};
use crate::random::Random;
use crate::trial::{differ, shown, told, Trial, AROUND};
use std::fmt::Debug;

/// Stations that stand before and after a row and may not change. Those after it are enough to lend 33 with any row.
const BEFORE: usize = 2;
const AFTER: usize = 34;

/// A row of stations with others around it, and how many of them are lent to a call.
#[derive(Clone)]
pub struct Row {
    all: Vec<Station>,
    pub lent: usize,
}

impl Row {
    pub fn new(random: &mut Random, stations: &[Station]) -> Row {
        let mut around = |count: usize| -> Vec<Station> {
            let clock = |r: &mut Random| Clock {
                short: r.within(49, 79),
                long: r.within(112, 145),
                sof: r.within(182, 218),
            };
            let one = |_| Station {
                clock: clock(random),
                bytes: std::array::from_fn(|_| random.next() as u8),
                length: random.below(12) as u8,
            };
            (0..count).map(one).collect()
        };
        let (before, after) = (around(BEFORE), around(AFTER));
        Row {
            all: [before.as_slice(), stations, &after].concat(),
            lent: stations.len(),
        }
    }

    pub fn stations(&self) -> &[Station] {
        &self.all[BEFORE..BEFORE + self.lent]
    }

    pub fn lend(&mut self) -> &mut [Station] {
        &mut self.all[BEFORE..BEFORE + self.lent]
    }
}

/// An answer of a call on a row, by document 01's number.
pub trait Numbered: Debug + PartialEq {
    fn number(&self) -> u32;
}

impl Numbered for Called {
    fn number(&self) -> u32 {
        self.number
    }
}

impl Numbered for Round {
    fn number(&self) -> u32 {
        self.number
    }
}

/// The first station in which two rows differ.
fn told_row(mine: &Row, theirs: &Row) -> String {
    let place = (0..mine.all.len()).find(|i| mine.all[*i] != theirs.all[*i]);
    match place {
        None => "the row the same".to_string(),
        Some(i) => {
            let place = i as isize - BEFORE as isize;
            format!("station {place} is {:?}", mine.all[i])
        }
    }
}

impl Trial {
    /// A call by both programs on the same row and the same lent words; answers what it said and the words afterwards.
    fn on_row<A: Numbered>(
        &mut self,
        row: &mut Row,
        lent: usize,
        call: &'static str,
        programs: [&dyn Fn(&mut [Station], &mut [u32]) -> A; 2],
        case: &dyn Fn() -> String,
    ) -> (A, Vec<u32>) {
        let before = self.words(lent);
        let (mut my_words, mut their_words) = (before.clone(), before);
        let (mut my_row, mut their_row) = (row.clone(), row.clone());
        let within = AROUND..AROUND + lent;
        let mine = programs[usize::from(self.alone)](my_row.lend(), &mut my_words[within.clone()]);
        let theirs = programs[1](their_row.lend(), &mut their_words[within.clone()]);
        self.tally.count(call, mine.number());
        if mine != theirs || my_words != their_words || my_row.all != their_row.all {
            let case = [
                ("with", case()),
                ("words", lent.to_string()),
                ("row", shown(row.stations())),
            ];
            let first = told(&mine, &my_words, &their_words);
            let second = told(&theirs, &their_words, &my_words);
            let found = [
                format!("{first}, {}", told_row(&my_row, &their_row)),
                format!("{second}, {}", told_row(&their_row, &my_row)),
            ];
            differ(self.seed, call, &case, found);
        }
        *row = my_row;
        (mine, my_words[within].to_vec())
    }

    pub fn load(&mut self, row: &mut Row, place: usize, message: &[u8]) -> u32 {
        let wrong = self.wrong;
        let mine = |row: &mut [Station], _: &mut [u32]| ours::load(row, place, message);
        let theirs =
            |row: &mut [Station], _: &mut [u32]| other_row::load(wrong, row, place, message);
        let case = || format!("place {place}, message {}", shown(message));
        let (answer, _) = self.on_row(row, 0, "load", [&mine, &theirs], &case);
        answer.number
    }

    pub fn withdraw(&mut self, row: &mut Row, place: usize) -> u32 {
        let wrong = self.wrong;
        let mine = |row: &mut [Station], _: &mut [u32]| ours::withdraw(row, place);
        let theirs = |row: &mut [Station], _: &mut [u32]| other_row::withdraw(wrong, row, place);
        let case = || format!("place {place}");
        let (answer, _) = self.on_row(row, 0, "withdraw", [&mine, &theirs], &case);
        answer.number
    }

    pub fn set_clock(&mut self, row: &mut Row, place: usize, clock: Clock) -> u32 {
        let wrong = self.wrong;
        let mine = |row: &mut [Station], _: &mut [u32]| ours::set_clock(row, place, clock);
        let theirs =
            |row: &mut [Station], _: &mut [u32]| other_row::set_clock(wrong, row, place, clock);
        let case = || format!("place {place}, {clock:?}");
        let (answer, _) = self.on_row(row, 0, "set clock", [&mine, &theirs], &case);
        answer.number
    }

    /// Answers what the round said, and the lent words afterwards.
    pub fn round(&mut self, row: &mut Row, lent: usize) -> (Round, Vec<u32>) {
        let wrong = self.wrong;
        let mine = |row: &mut [Station], words: &mut [u32]| ours::round(row, words);
        let theirs = |row: &mut [Station], words: &mut [u32]| other_row::round(wrong, row, words);
        let case = || "a round".to_string();
        let (answer, words) = self.on_row(row, lent, "round", [&mine, &theirs], &case);
        if answer.number == DONE {
            for verdict in answer.verdicts {
                self.tally.note("verdict", verdict.fared);
            }
        }
        (answer, words)
    }
}
