//! Recordings for the live reader: short ones in every combination, frames with each interval replaced, each refusal at each
//! moment, the first and last places there are, and readers of any words; then random recordings.

use crate::lines::{damage, push_frame, WIDTHS};
use crate::ours::{self, Live};
use crate::reading_cases::{frame, FEW, LONGEST, SHAPES};
use crate::trial::{differ, Trial};
use crate::trial_live::{Readers, FULL};
use crate::writing_cases::NOMINAL;

/// Places from which recordings are heard: the first, and those where a count of 32 bits or with a sign would show.
const BEGINNINGS: [u64; 6] = [
    0,
    (1 << 31) - 8,
    (1 << 32) - 8,
    1 << 32,
    (1 << 63) - 8,
    1 << 63,
];

pub fn edges(trial: &mut Trial) {
    start(trial);
    short_recordings(trial);
    refusals(trial);
    places(trial);
    last_places(trial);
    replaced(trial);
    long_recordings(trial);
    any_words(trial, 2_000);
    altered(trial, 500);
}

/// A reader that has heard nothing is one of zeros.
fn start(trial: &mut Trial) {
    let (mine, zeros) = (ours::live_start(), Live { inner: [0; 8] });
    trial.tally.count("live start", 0);
    if mine != zeros {
        let found = [format!("{mine:?}"), format!("{zeros:?}")];
        differ(trial.seed, "live start", &[], found);
    }
}

/// Hears an interval and asks before and after it.
fn hear_and_ask(trial: &mut Trial, readers: &mut Readers, width: u32) {
    trial.ask(readers);
    trial.hear(readers, width, 12);
    trial.ask(readers);
}

/// Recordings of 0 to 4 intervals.
fn short_recordings(trial: &mut Trial) {
    let mut readers = vec![Readers::start()];
    for _ in 0..4 {
        let before = std::mem::take(&mut readers);
        for reader in before {
            for width in FEW {
                let mut next = reader.clone();
                hear_and_ask(trial, &mut next, width);
                readers.push(next);
            }
        }
    }
}

/// At each interval of some frames each number of lent bytes that is too few, and more than are asked for; and the same of
/// readers that have heard the last place.
fn refusals(trial: &mut Trial) {
    for shape in SHAPES {
        let line = frame(trial, NOMINAL, shape);
        let mut readers = Readers::start();
        for width in &line {
            for lent in 0..12 {
                trial.hear(&mut readers, *width, lent);
            }
            for full in [1, 1 << 32, 1 << 63, u64::MAX] {
                for lent in [0, 11, 12, 13] {
                    trial.hear_full(&readers, full, *width, lent);
                }
            }
            let lent = trial.random.pick(&[12, 13, 30, 100]);
            trial.hear(&mut readers, *width, lent);
            trial.ask(&mut readers);
        }
    }
}

/// Two frames, the first one's closing end opening the second, from places that 32 bits cannot count.
fn places(trial: &mut Trial) {
    for shape in SHAPES {
        let (first, second) = (frame(trial, NOMINAL, shape), frame(trial, NOMINAL, shape));
        let line = [&first[..first.len() - 1], &second].concat();
        for began in BEGINNINGS {
            trial.hear_on(&line, began);
            // Reading has gone on at the first position all the time.
            let mut readers = Readers::resumed(began, 0);
            for width in &line {
                hear_and_ask(trial, &mut readers, *width);
            }
        }
    }
}

/// Frames that close before the last place, at it or after it, and what follows: the last place is heard, and then no more.
fn last_places(trial: &mut Trial) {
    for shape in SHAPES {
        let mut line = frame(trial, NOMINAL, shape);
        line.extend([200, 64, 64, 128, 300]);
        for left in 1..line.len() as u64 {
            let mut readers = Readers::resumed(u64::MAX - (left - 1), 0);
            // From an odd place on, the recording begins with an active interval.
            for width in line.iter().skip(left as usize % 2).take(left as usize) {
                hear_and_ask(trial, &mut readers, *width);
            }
            for lent in [0, 11, 12, 13] {
                trial.hear(&mut readers, 300, lent);
                trial.ask(&mut readers);
            }
        }
    }
}

/// Each interval of each frame replaced by a width of each window, and a frame after it.
fn replaced(trial: &mut Trial) {
    for shape in SHAPES {
        let first = frame(trial, NOMINAL, shape);
        let second = frame(trial, NOMINAL, SHAPES[0]);
        let mut line = [&first[..first.len() - 1], &second].concat();
        for place in 0..first.len() {
            let right = line[place];
            for width in FEW {
                line[place] = width;
                trial.hear_on(&line, 0);
            }
            line[place] = right;
        }
    }
}

/// The longest recordings of the desk's text: good and damaged frames, and an idle line.
fn long_recordings(trial: &mut Trial) {
    for harm in [0, 4] {
        let mut line = Vec::new();
        while line.len() < LONGEST {
            push_frame(&mut trial.random, &mut line);
        }
        line.truncate(LONGEST);
        for _ in 0..harm * LONGEST / 400 {
            let place = trial.random.below(LONGEST);
            line[place] = trial.random.pick(&WIDTHS);
        }
        trial.hear_on(&line, 0);
    }
    trial.hear_on(&vec![64; LONGEST], 0);
}

/// Readers of any words, large and small.
fn any_words(trial: &mut Trial, times: usize) {
    for turn in 0..times {
        let mut live = Live { inner: [0; 8] };
        for word in &mut live.inner {
            *word = match turn % 3 {
                0 => trial.random.next(),
                1 => trial.random.next() >> trial.random.below(64),
                _ => trial.random.below(16) as u64,
            };
        }
        if turn % 4 != 0 {
            live.inner[FULL] = 0;
        }
        for _ in 0..4 {
            let width = trial.random.pick(&WIDTHS);
            let lent = trial.random.pick(&[0, 11, 12, 12, 12, 13, 40]);
            live = trial.hear_anything(live, width, lent);
        }
    }
}

/// Readers that stand within a frame, with a byte of theirs altered; they hear the rest of it.
fn altered(trial: &mut Trial, times: usize) {
    for _ in 0..times {
        let shape = trial.random.pick(&SHAPES);
        let line = frame(trial, NOMINAL, shape);
        let mut live = ours::live_start();
        let at = trial.random.below(line.len());
        for width in &line[..at] {
            ours::hear(&mut live, *width, &mut [0; 12]);
        }
        for _ in 0..1 + trial.random.below(2) {
            let word = trial.random.below(live.inner.len());
            let byte = trial.random.next() >> trial.random.below(64) & 0xFF;
            live.inner[word] ^= byte << (8 * trial.random.below(8));
        }
        for width in &line[at..] {
            live = trial.hear_anything(live, *width, 12);
        }
    }
}

pub fn random(trial: &mut Trial, times: usize) {
    for turn in 0..times {
        let mut line = Vec::new();
        match turn % 4 {
            0 => {
                let count = trial.random.below(40);
                (0..count).for_each(|_| line.push(trial.random.pick(&WIDTHS)));
            }
            _ => {
                for _ in 0..trial.random.below(turn % 4) {
                    line.push(trial.random.pick(&WIDTHS));
                }
                for _ in 0..1 + trial.random.below(2) {
                    push_frame(&mut trial.random, &mut line);
                }
                for _ in 0..trial.random.below(4) {
                    damage(&mut trial.random, &mut line);
                }
            }
        }
        let began = trial.random.pick(&BEGINNINGS);
        trial.hear_on(&line, began);
    }
    any_words(trial, times / 8);
    altered(trial, times / 8);
}
