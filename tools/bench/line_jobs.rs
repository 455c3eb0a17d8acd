//! The jobs on a trace, on messages and on recordings.

use crate::job::{job, Job};
use crate::ours::{self, Asked, Clock, Counted, Gate, Heard, Read};
use crate::random::Random;
use crate::{lines, plain, plain_live, plain_reading};
use std::cell::RefCell;
use std::hint::black_box;

const LONGEST: usize = 16_384;

const GATE: Gate = Gate {
    offset: 0.25,
    active: 6.25,
    passive: 1.5,
};

const CLOCK: Clock = Clock {
    short: 64,
    long: 128,
    sof: 200,
};

/// A trace of a busy line: stretches of 64 to 200 samples, with slopes and ripple.
fn trace() -> Vec<f32> {
    let mut random = Random::new(3);
    let mut samples = Vec::new();
    let mut active = false;
    while samples.len() < LONGEST {
        let volts = if active { 7.2 } else { 0.4 };
        samples.extend([2.5, 4.0].map(|slope| slope + GATE.offset));
        for _ in 0..random.within(62, 198) {
            samples.push(volts + GATE.offset + random.below(100) as f32 * 1.0e-3);
        }
        active = !active;
    }
    samples.truncate(LONGEST);
    samples
}

type Intervals = fn(Gate, &[f32], &mut [u32]) -> Counted;

fn trace_pass(intervals: Intervals, trace: &(Vec<f32>, RefCell<Vec<u32>>)) -> usize {
    let words = &mut trace.1.borrow_mut()[..];
    let answer = intervals(black_box(GATE), black_box(&trace.0), words);
    answer.count + answer.number as usize + words[answer.count - 1] as usize
}

/// Messages of every length and kind that is admitted.
fn messages() -> Vec<(Vec<u8>, u32, Vec<u8>)> {
    let mut random = Random::new(4);
    let mut found = Vec::new();
    for main in 1..=11 {
        for kind in 0..3 {
            let most = [0, 11 - main, 10usize.saturating_sub(main)][kind as usize];
            let least = usize::from(kind > 0);
            for response in least..=most {
                found.push((random.bytes(main), kind, random.bytes(response)));
            }
        }
    }
    found
}

type Write = fn(Clock, &[u8], u32, &[u8], &mut [u32]) -> Counted;

fn write_pass(write: Write, messages: &[(Vec<u8>, u32, Vec<u8>)]) -> usize {
    let mut words = [0; 101];
    let mut sum = 0;
    for (main, kind, response) in black_box(messages) {
        let answer = write(black_box(CLOCK), main, *kind, response, &mut words);
        sum += answer.count + words[answer.count - 2] as usize;
    }
    sum
}

/// Good and damaged frames, one after the other.
fn recording(length: usize) -> Vec<u32> {
    let mut random = Random::new(5);
    let mut line = Vec::new();
    while line.len() < length {
        lines::push_frame(&mut random, &mut line);
        if random.once_in(6) {
            let last = line.len() - 1;
            line[last - random.below(20)] = random.pick(&lines::WIDTHS);
        }
    }
    line.truncate(length);
    line
}

type Reads = fn(&[u32], usize, &mut [u8]) -> Read;

/// Reads a recording to its end.
fn read_pass(read: Reads, intervals: &[u32]) -> usize {
    let mut bytes = [0; 12];
    let (mut from, mut sum) = (0, 0);
    loop {
        let answer = read(black_box(intervals), from, &mut bytes);
        sum = sum * 31 + answer.next + answer.number as usize + answer.main + usize::from(bytes[0]);
        sum %= 1 << 40;
        if answer.number == 1 || answer.number == 2 {
            return sum;
        }
        from = answer.next;
    }
}

/// Hears a recording interval by interval, and asks at its end.
fn hear_pass<L>(
    mut live: L,
    hear: fn(&mut L, u32, &mut [u8]) -> Heard,
    ask: fn(&L) -> Asked,
    intervals: &[u32],
) -> usize {
    let mut bytes = [0; 12];
    let mut sum = 0;
    for width in black_box(intervals) {
        let answer = hear(&mut live, *width, &mut bytes);
        sum = sum * 31 + answer.next as usize + answer.number as usize + answer.main;
        sum = (sum + usize::from(bytes[0])) % (1 << 40);
    }
    let asked = ask(&live);
    sum + asked.next as usize + asked.number as usize
}

pub fn jobs() -> Vec<Job> {
    let words = RefCell::new(vec![0; LONGEST + 1]);
    let all = messages();
    let count = all.len();
    let mut found = vec![
        job(
            "volts".into(),
            "sample",
            LONGEST,
            (trace(), words),
            |proved, trace| {
                trace_pass(
                    if proved {
                        ours::intervals
                    } else {
                        plain::intervals
                    },
                    trace,
                )
            },
        ),
        job("write".into(), "message", count, all, |proved, messages| {
            write_pass(if proved { ours::write } else { plain::write }, messages)
        }),
    ];
    // The same intervals in recordings of different lengths: a cost that grows with the length would show here.
    let line = recording(LONGEST);
    for length in [1_024, 2_048, 4_096, 8_192, LONGEST] {
        let parts: Vec<Vec<u32>> = line.chunks(length).map(<[u32]>::to_vec).collect();
        found.push(job(
            format!("read-{length}"),
            "interval",
            LONGEST,
            parts,
            |proved, parts| {
                let read = if proved {
                    ours::read
                } else {
                    plain_reading::read
                };
                parts.iter().map(|part| read_pass(read, part)).sum()
            },
        ));
    }
    found.push(job(
        format!("live-{LONGEST}"),
        "interval",
        LONGEST,
        line,
        |proved, line| {
            if proved {
                hear_pass(ours::live_start(), ours::hear, ours::ask, line)
            } else {
                hear_pass(plain_live::start(), plain_live::hear, plain_live::ask, line)
            }
        },
    ));
    found
}
