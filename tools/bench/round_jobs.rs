//! The jobs on a row: rounds of 1 to 32 stations that hold 11 bytes each.

use crate::job::{job, Job};
use crate::ours::{self, Clock, Round, Station};
use crate::plain_round;
use crate::random::Random;
use std::cell::RefCell;
use std::hint::black_box;

/// Rows that one pass plays a round on, and the row and the words that are lent.
struct Rows {
    rows: Vec<Vec<Station>>,
    lent: RefCell<(Vec<Station>, [u32; 101])>,
}

const ROWS: usize = 16;

fn station(random: &mut Random, message: [u8; 11]) -> Station {
    Station {
        clock: Clock {
            short: random.within(49, 79),
            long: random.within(112, 145),
            sof: random.within(182, 218),
        },
        bytes: message,
        length: 11,
    }
}

fn message(random: &mut Random) -> [u8; 11] {
    std::array::from_fn(|_| random.next() as u8)
}

/// Rows of so many stations: each with a message of its own, or all with the same one.
fn rows(stations: usize, equal: bool) -> Rows {
    let mut random = Random::new(6);
    let mut row = || -> Vec<Station> {
        let same = message(&mut random);
        let one = |_| {
            let own = message(&mut random);
            station(&mut random, if equal { same } else { own })
        };
        (0..stations).map(one).collect()
    };
    let rows: Vec<Vec<Station>> = (0..ROWS).map(|_| row()).collect();
    let lent = RefCell::new((rows[0].clone(), [0; 101]));
    Rows { rows, lent }
}

type Plays = fn(&mut [Station], &mut [u32]) -> Round;

/// A round on each row, from what it holds at first.
fn pass(round: Plays, rows: &Rows) -> usize {
    let (row, words) = &mut *rows.lent.borrow_mut();
    let mut sum = 0;
    for first in black_box(&rows.rows) {
        row.copy_from_slice(first);
        let answer = round(row, words);
        let verdicts = answer.verdicts.iter();
        let places = verdicts.fold(0, |all, v| all * 3 % 1_000_003 + v.bit + v.fared as usize);
        let left: usize = row.iter().map(|s| s.length as usize).sum();
        sum = (sum * 31 + places + left + answer.words + answer.line_time as usize) % (1 << 40);
        sum += words[answer.words - 2] as usize;
    }
    sum
}

pub fn jobs() -> Vec<Job> {
    let one = |name: String, rows: Rows| {
        job(name, "round", ROWS, rows, |proved, rows| {
            pass(
                if proved {
                    ours::round
                } else {
                    plain_round::round
                },
                rows,
            )
        })
    };
    let sizes = [1, 2, 4, 8, 16, 32].into_iter();
    let mut found: Vec<Job> = sizes
        .map(|n| one(format!("round-{n}"), rows(n, false)))
        .collect();
    found.push(one("round-equal".into(), rows(32, true)));
    found
}
