//! Recordings: every interval of good frames replaced by every window edge first, then every short recording over the
//! edges, then damaged and random ones.

use crate::lines::{damage, push_frame, WIDTHS};
use crate::ours::Clock;
use crate::trial::Trial;
use crate::writing_cases::NOMINAL;

pub const LONGEST: usize = 16_384;

/// Main bytes, response kind and response bytes of frames of every kind, the shortest and the longest among them.
pub const SHAPES: [(usize, u32, usize); 11] = [
    (1, 0, 0),
    (2, 0, 0),
    (11, 0, 0),
    (1, 1, 1),
    (2, 1, 2),
    (1, 1, 10),
    (10, 1, 1),
    (1, 2, 1),
    (3, 2, 2),
    (1, 2, 9),
    (9, 2, 1),
];

/// One width of each window at least, for recordings of several intervals that are tried in every combination.
pub const FEW: [u32; 11] = [0, 34, 35, 96, 97, 163, 164, 239, 240, 999_999, 1_000_000];

pub fn frame(trial: &mut Trial, clock: Clock, shape: (usize, u32, usize)) -> Vec<u32> {
    let (main, kind, response) = shape;
    let bytes = trial.random.bytes(main + response);
    trial.write(clock, &bytes[..main], kind, &bytes[main..], 101)
}

pub fn edges(trial: &mut Trial) {
    short_recordings(trial);
    positions_and_lent(trial);
    replaced(trial);
    long_recordings(trial);
}

/// Each interval of each frame replaced by each edge.
fn replaced(trial: &mut Trial) {
    for shape in SHAPES {
        let mut line = frame(trial, NOMINAL, shape);
        for place in 0..line.len() {
            let right = line[place];
            for width in WIDTHS {
                line[place] = width;
                trial.read(&line, 0, 12);
            }
            line[place] = right;
        }
    }
}

/// Recordings of 0 to 4 intervals, from every position and past the end.
fn short_recordings(trial: &mut Trial) {
    for from in [0, 1, 2, 3, usize::MAX] {
        trial.read(&[], from, 12);
    }
    for first in WIDTHS {
        (0..4).for_each(|from| {
            trial.read(&[first], from, 12);
        });
        for second in WIDTHS {
            (0..4).for_each(|from| {
                trial.read(&[first, second], from, 12);
            });
        }
    }
    for first in FEW {
        for second in FEW {
            for third in FEW {
                (0..5).for_each(|from| {
                    trial.read(&[first, second, third], from, 12);
                });
                for fourth in FEW {
                    trial.read(&[first, second, third, fourth], 0, 12);
                }
            }
        }
    }
}

/// Every position of some recordings and past their end, with as many lent bytes as are asked for, fewer and more.
fn positions_and_lent(trial: &mut Trial) {
    for shape in SHAPES {
        let first = frame(trial, NOMINAL, shape);
        let second = frame(trial, NOMINAL, shape);
        // The closing end of the first opens the second.
        let line = [&first[..first.len() - 1], &second].concat();
        for from in 0..line.len() + 3 {
            for lent in [11, 12, 13] {
                trial.read(&line, from, lent);
            }
        }
        for from in [0, 1, line.len(), line.len() + 1, usize::MAX] {
            for lent in [0, 1, 11, 12, 13, 100] {
                trial.read(&line, from, lent);
            }
        }
    }
}

/// The longest recordings of the desk's text: good and damaged frames read on to the end, and others.
fn long_recordings(trial: &mut Trial) {
    let mut lines = Vec::new();
    for harm in [0, 1, 4] {
        let mut line = Vec::new();
        while line.len() < LONGEST {
            push_frame(&mut trial.random, &mut line);
        }
        line.truncate(LONGEST);
        for _ in 0..harm * LONGEST / 400 {
            let place = trial.random.below(LONGEST);
            line[place] = trial.random.pick(&WIDTHS);
        }
        lines.push(line);
    }
    for line in &lines {
        trial.read_on(line);
    }
    lines.push(vec![64; LONGEST]);
    lines.push(vec![0; LONGEST]);
    for end in [LONGEST - 4, LONGEST - 3, LONGEST - 2, LONGEST - 1] {
        let mut line = vec![64; LONGEST];
        line[end] = 300;
        lines.push(line);
    }
    for line in &lines {
        for from in [
            0,
            1,
            LONGEST / 2,
            LONGEST - 2,
            LONGEST - 1,
            LONGEST,
            LONGEST + 1,
        ] {
            for lent in [11, 12, 20] {
                trial.read(line, from, lent);
            }
        }
    }
}

pub fn random(trial: &mut Trial, times: usize) {
    for turn in 0..times {
        let mut line = Vec::new();
        match turn % 4 {
            0 => {
                let count = trial.random.below(40);
                (0..count).for_each(|_| line.push(trial.random.pick(&WIDTHS)));
            }
            _ => {
                for _ in 0..trial.random.below(turn % 4) {
                    line.push(trial.random.pick(&WIDTHS));
                }
                push_frame(&mut trial.random, &mut line);
                if trial.random.once_in(4) {
                    push_frame(&mut trial.random, &mut line);
                }
                for _ in 0..trial.random.below(3) {
                    damage(&mut trial.random, &mut line);
                }
            }
        }
        if trial.random.once_in(8) {
            let from = trial.random.below(line.len() + 3);
            let lent = trial.random.pick(&[11, 12, 13, 30]);
            trial.read(&line, from, lent);
        } else {
            trial.read_on(&line);
        }
    }
}
