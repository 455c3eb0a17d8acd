//! Histories: hundreds of calls on one row, taken and turned away, each compared when it is made, and document 01's words
//! on rounds and on waiting watched over all of them.

use crate::check::with_check;
use crate::numbers::*;
use crate::ours::{Clock, Station};
use crate::random::Random;
use crate::row_cases::{station, WORDS};
use crate::trial::Trial;
use crate::trial_row::Row;
use crate::waiting::Watch;
use crate::writing_cases::{bad_clocks, corner_clocks};

const CALLS: usize = 300;

/// A row with what is known of it, and the messages that its stations like to send.
struct History {
    row: Row,
    watch: Watch,
    liked: Vec<Vec<u8>>,
    /// How many of a hundred calls are loadings: few, so that rounds find nobody, or many, so that the row is full.
    loadings: usize,
    /// Nothing is loaded or withdrawn until nobody waits.
    draining: bool,
}

/// A call that is yet to be made.
enum Call {
    Load(usize, Vec<u8>),
    Withdraw(usize),
    SetClock(usize, Clock),
    Round(usize),
}

fn clock(random: &mut Random) -> Clock {
    if random.once_in(2) {
        return random.pick(&corner_clocks());
    }
    Clock {
        short: random.within(49, 79),
        long: random.within(112, 145),
        sof: random.within(182, 218),
    }
}

/// A message that is like another: the same, its beginning, itself with its check byte after it, one bit away from it.
fn like(random: &mut Random, other: &[u8]) -> Vec<u8> {
    let mut message = other.to_vec();
    match random.below(6) {
        0 => message.truncate(1 + random.below(other.len())),
        1 => message = with_check(&message),
        2 => message[random.below(other.len())] ^= 1 << random.below(8),
        3 => {
            let more = random.below(4);
            message.extend(random.bytes(more));
        }
        _ => {}
    }
    message.truncate(11);
    message
}

fn liked(random: &mut Random) -> Vec<Vec<u8>> {
    let first: &[u8] = random.pick(&[&[0xFF], &[0x00], &[0xFF, 0x01], &[0xAA, 0x55, 0xAA]]);
    let length = 1 + random.below(11);
    let mut found = vec![first.to_vec(), random.bytes(length)];
    for _ in 0..random.below(8) {
        let other = random.below(found.len());
        let other = found[other].clone();
        found.push(like(random, &other));
    }
    found
}

/// How many stations: every number from 1 to 32, the ends more often.
fn size(random: &mut Random) -> usize {
    match random.below(5) {
        0 => 32,
        1 => 1 + random.below(4),
        _ => 1 + random.below(32),
    }
}

impl History {
    fn new(trial: &mut Trial) -> History {
        let liked = liked(&mut trial.random);
        let count = size(&mut trial.random);
        let one = |_| {
            let clock = clock(&mut trial.random);
            let other = trial.random.below(liked.len());
            let mut one = station(trial, clock, &liked[other]);
            if !trial.random.once_in(3) {
                one.length = 0;
            }
            one
        };
        let stations: Vec<Station> = (0..count).map(one).collect();
        History {
            watch: Watch::over(&stations),
            row: Row::new(&mut trial.random, &stations),
            liked,
            loadings: trial.random.pick(&[15, 35, 60]),
            draining: false,
        }
    }

    /// A place of the row, or now and then one that there is not.
    fn place(&self, random: &mut Random) -> usize {
        let count = self.row.lent;
        if random.once_in(16) {
            return random.pick(&[count, count + 1, 32, 33, usize::MAX]);
        }
        random.below(count)
    }

    /// Where a message is loaded: an empty place more often than not.
    fn empty_place(&self, random: &mut Random) -> usize {
        let empty = |i: &usize| self.row.stations()[*i].length == 0;
        let empty: Vec<usize> = (0..self.row.lent).filter(empty).collect();
        if empty.is_empty() || random.once_in(4) {
            return self.place(random);
        }
        random.pick(&empty)
    }

    fn call(&self, random: &mut Random) -> Call {
        if !self.draining && random.below(100) < self.loadings {
            return Call::Load(self.empty_place(random), message(random, &self.liked));
        }
        let choice = if self.draining { 95 } else { random.below(100) };
        match choice {
            0..=14 => Call::Withdraw(self.place(random)),
            15..=34 => {
                let bad = random.once_in(6);
                let clock = if bad {
                    random.pick(&bad_clocks())
                } else {
                    clock(random)
                };
                Call::SetClock(self.place(random), clock)
            }
            _ => Call::Round(if random.once_in(16) {
                random.pick(&[0, 1, 99, 100])
            } else {
                WORDS + random.below(4)
            }),
        }
    }

    fn make(&mut self, trial: &mut Trial, call: &Call) {
        match call {
            Call::Load(place, message) => {
                if trial.load(&mut self.row, *place, message) == 0 {
                    self.watch.loaded(*place, message);
                }
            }
            Call::Withdraw(place) => {
                if trial.withdraw(&mut self.row, *place) == 0 {
                    self.watch.withdrawn(*place);
                }
            }
            Call::SetClock(place, clock) => {
                trial.set_clock(&mut self.row, *place, *clock);
            }
            Call::Round(lent) => {
                let (answer, words) = trial.round(&mut self.row, *lent);
                if answer.number == DONE {
                    self.watch.played(&mut trial.tally, &answer, &words);
                }
                self.draining &= answer.number != REFUSED_NOTHING;
            }
        }
    }

    /// The same call on a row that is spoilt for its time, and so is turned away; then the row is as it was.
    fn spoilt(&mut self, trial: &mut Trial, call: &Call) {
        let (kept, place) = (self.row.clone(), trial.random.below(self.row.lent));
        match trial.random.below(4) {
            0 => self.row.lent = 0,
            1 => self.row.lent = 33 + trial.random.below(2),
            2 => self.row.lend()[place].clock = trial.random.pick(&bad_clocks()),
            _ => self.row.lend()[place].length = trial.random.pick(&[12, 13, 128, u8::MAX]),
        }
        let before = self.row.clone();
        self.make(trial, call);
        assert_eq!(
            before.stations(),
            self.row.stations(),
            "a call on a spoilt row"
        );
        self.row = kept;
    }
}

fn message(random: &mut Random, liked: &[Vec<u8>]) -> Vec<u8> {
    match random.below(24) {
        0 => Vec::new(),
        1 => {
            let length = 12 + random.below(8);
            random.bytes(length)
        }
        2..=7 => {
            let length = 1 + random.below(11);
            random.bytes(length)
        }
        _ => {
            let other = random.below(liked.len());
            like(random, &liked[other])
        }
    }
}

pub fn random(trial: &mut Trial, times: usize) {
    for _ in 0..times {
        let mut history = History::new(trial);
        for _ in 0..CALLS {
            history.draining |= trial.random.once_in(40);
            let call = history.call(&mut trial.random);
            if trial.random.once_in(12) {
                history.spoilt(trial, &call);
            } else {
                history.make(trial, &call);
            }
        }
    }
}
