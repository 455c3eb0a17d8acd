//! One call put to both programs: the answers, every lent word and byte, and the memory around it have to agree.

use crate::numbers::*;
use crate::other;
use crate::ours::{self, Clock, Counted, Gate, Read};
use crate::random::Random;
use crate::tally::Tally;
use crate::wrong::Wrong;
use std::fmt::Debug;

/// Words and bytes that stand before and after the lent ones and may not change.
pub const AROUND: usize = 8;

pub struct Trial {
    pub random: Random,
    pub tally: Tally,
    pub seed: u64,
    pub wrong: Wrong,
    /// The second program stands in for the library too: then only what document 01 says of rounds can fail.
    pub alone: bool,
}

/// Prints a case on which the programs differ, and ends the run.
pub fn differ(seed: u64, call: &str, case: &[(&str, String)], found: [String; 2]) -> ! {
    println!("compare: the programs differ (seed {seed})");
    println!("  call    {call}");
    for (name, value) in case {
        println!("  {name:<7} {value}");
    }
    println!("  proved  {}", found[0]);
    println!("  second  {}", found[1]);
    std::process::exit(1)
}

/// The first values of a list, and how many there are.
pub fn shown<T: Debug>(values: &[T]) -> String {
    let first = &values[..values.len().min(200)];
    format!("{} of {first:?}", values.len())
}

/// An answer and the first lent place at which the two programs' memories differ.
pub fn told<A: Debug, W: Debug + PartialEq>(answer: &A, mine: &[W], theirs: &[W]) -> String {
    let place = (0..mine.len()).find(|i| mine[*i] != theirs[*i]);
    let place = place.map(|i| (i as isize - AROUND as isize, &mine[i]));
    match place {
        None => format!("{answer:?}, lent memory the same"),
        Some((at, value)) => format!("{answer:?}, lent place {at} is {value:?}"),
    }
}

impl Trial {
    pub fn new(seed: u64, wrong: Wrong) -> Trial {
        Trial {
            random: Random::new(seed),
            tally: Tally::default(),
            seed,
            wrong,
            alone: false,
        }
    }

    /// What lent words hold before a call: values that no answer is likely to have there.
    pub fn words(&mut self, lent: usize) -> Vec<u32> {
        let start = self.random.next() as u32;
        let value =
            |i: usize| start.wrapping_add((i as u32).wrapping_mul(0x9E37_79B9)) | 0x8000_0000;
        (0..lent + 2 * AROUND).map(value).collect()
    }

    pub fn bytes(&mut self, lent: usize) -> Vec<u8> {
        let start = self.random.next() as u8;
        let value = |i: usize| start.wrapping_add((i as u8).wrapping_mul(0x3B));
        (0..lent + 2 * AROUND).map(value).collect()
    }

    pub fn check_byte(&mut self, bytes: &[u8]) {
        let (mine, theirs) = (
            ours::check_byte(bytes),
            other::check_byte(self.wrong, bytes),
        );
        self.tally.count("check byte", mine.number);
        if mine != theirs {
            let case = [("bytes", shown(bytes))];
            let found = [format!("{mine:?}"), format!("{theirs:?}")];
            differ(self.seed, "check byte", &case, found);
        }
    }

    pub fn class(&mut self, active: bool, width: u32) {
        let (mine, theirs) = (
            ours::class(active, width),
            other::class(self.wrong, active, width),
        );
        self.tally.count("class", mine.number);
        if mine != theirs {
            let case = [("active", active.to_string()), ("width", width.to_string())];
            let found = [format!("{mine:?}"), format!("{theirs:?}")];
            differ(self.seed, "class", &case, found);
        }
    }

    pub fn good_clock(&mut self, clock: Clock) {
        let (mine, theirs) = (
            ours::good_clock(clock),
            other::good_clock(self.wrong, clock),
        );
        self.tally.count("good clock", mine.number);
        if mine != theirs {
            let case = [("clock", format!("{clock:?}"))];
            let found = [format!("{mine:?}"), format!("{theirs:?}")];
            differ(self.seed, "good clock", &case, found);
        }
    }

    pub fn intervals(&mut self, gate: Gate, samples: &[f32], lent: usize) -> Counted {
        let before = self.words(lent);
        let (mut my_words, mut their_words) = (before.clone(), before);
        let mine = ours::intervals(gate, samples, &mut my_words[AROUND..AROUND + lent]);
        let their_lent = &mut their_words[AROUND..AROUND + lent];
        let theirs = other::intervals(self.wrong, gate, samples, their_lent);
        self.tally.count("intervals", mine.number);
        if mine != theirs || my_words != their_words {
            let bits: Vec<String> = samples
                .iter()
                .map(|s| format!("{:08x}", s.to_bits()))
                .collect();
            let case = [
                ("gate", format!("{gate:?}")),
                ("samples", shown(samples)),
                ("as bits", shown(&bits)),
                ("lent", lent.to_string()),
            ];
            let found = [
                told(&mine, &my_words, &their_words),
                told(&theirs, &their_words, &my_words),
            ];
            differ(self.seed, "intervals", &case, found);
        }
        mine
    }

    pub fn write(
        &mut self,
        clock: Clock,
        main: &[u8],
        kind: u32,
        response: &[u8],
        lent: usize,
    ) -> Vec<u32> {
        let before = self.words(lent);
        let (mut my_words, mut their_words) = (before.clone(), before);
        let my_lent = &mut my_words[AROUND..AROUND + lent];
        let mine = ours::write(clock, main, kind, response, my_lent);
        let their_lent = &mut their_words[AROUND..AROUND + lent];
        let theirs = other::write(self.wrong, clock, main, kind, response, their_lent);
        self.tally.count("write", mine.number);
        if mine != theirs || my_words != their_words {
            let case = [
                ("clock", format!("{clock:?}")),
                ("main", shown(main)),
                ("kind", kind.to_string()),
                ("answer", shown(response)),
                ("lent", lent.to_string()),
            ];
            let found = [
                told(&mine, &my_words, &their_words),
                told(&theirs, &their_words, &my_words),
            ];
            differ(self.seed, "write", &case, found);
        }
        my_words[AROUND..AROUND + mine.count].to_vec()
    }

    /// Answers what was read, and the bytes of the frame.
    pub fn read(&mut self, intervals: &[u32], from: usize, lent: usize) -> (Read, Vec<u8>) {
        let before = self.bytes(lent);
        let (mut my_bytes, mut their_bytes) = (before.clone(), before);
        let mine = ours::read(intervals, from, &mut my_bytes[AROUND..AROUND + lent]);
        let their_lent = &mut their_bytes[AROUND..AROUND + lent];
        let theirs = other::read(self.wrong, intervals, from, their_lent);
        self.tally.count("read", mine.number);
        if mine != theirs || my_bytes != their_bytes {
            let case = [
                ("widths", shown(intervals)),
                ("from", from.to_string()),
                ("lent", lent.to_string()),
            ];
            let found = [
                told(&mine, &my_bytes, &their_bytes),
                told(&theirs, &their_bytes, &my_bytes),
            ];
            differ(self.seed, "read", &case, found);
        }
        let bytes = my_bytes[AROUND..AROUND + mine.main + mine.response].to_vec();
        (mine, bytes)
    }

    /// Reads a recording to its end, each answer from the former one's next position.
    pub fn read_on(&mut self, intervals: &[u32]) {
        let mut from = 0;
        loop {
            let (answer, _) = self.read(intervals, from, 12);
            if answer.number <= UNFINISHED && answer.number != FRAME {
                return;
            }
            if answer.next <= from {
                println!(
                    "compare: reading on from {from} of {} goes nowhere",
                    shown(intervals)
                );
                std::process::exit(1);
            }
            from = answer.next;
        }
    }
}
