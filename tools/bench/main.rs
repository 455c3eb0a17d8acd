//! Measures the proved library beside the same jobs written straight down in Rust (plain.rs, plain_reading.rs,
//! plain_live.rs, plain_round.rs), in one process.
//!
//!     bench list                the jobs: name, unit, and how many of these a pass has; after seeing that both answer the same
//!     bench times               times: the two in turn, many rounds; name, and the median of each in nanoseconds a unit
//!     bench JOB WHO TIMES       does a job so often and nothing else, for counting instructions; WHO is proved or plain

#[allow(dead_code)]
#[path = "../second/check.rs"]
mod check;
mod job;
mod line_jobs;
#[allow(dead_code)]
#[path = "../compare/lines.rs"]
mod lines;
#[allow(dead_code)]
#[path = "../compare/ours.rs"]
mod ours;
mod plain;
mod plain_live;
mod plain_reading;
mod plain_round;
#[allow(dead_code)]
#[path = "../compare/random.rs"]
mod random;
mod round_jobs;

use job::Job;
use std::hint::black_box;
use std::time::Instant;

/// How often each program takes its turn, and about how many nanoseconds a turn of the slower one is to take: short enough
/// that a busy machine leaves most turns alone.
const ROUNDS: usize = 301;
const TURN: f64 = 400_000.0;

/// How long some passes take, in nanoseconds.
fn time(pass: &dyn Fn() -> usize, times: usize) -> f64 {
    let start = Instant::now();
    for _ in 0..times {
        black_box(pass());
    }
    start.elapsed().as_nanos() as f64
}

fn median(mut values: Vec<f64>) -> f64 {
    values.sort_by(f64::total_cmp);
    values[values.len() / 2]
}

fn measure(job: &Job) {
    let once = |pass: &dyn Fn() -> usize| median((0..9).map(|_| time(pass, 1)).collect());
    let times = 1 + (TURN / once(&job.plain).max(once(&job.proved))) as usize;
    let (mut proved, mut plain) = (Vec::new(), Vec::new());
    for round in 0..ROUNDS {
        // Whoever comes second may find a warmer or a busier machine: they take turns.
        if round % 2 == 0 {
            proved.push(time(&job.proved, times));
            plain.push(time(&job.plain, times));
        } else {
            plain.push(time(&job.plain, times));
            proved.push(time(&job.proved, times));
        }
    }
    let each = (times * job.units) as f64;
    let (proved, plain) = (median(proved) / each, median(plain) / each);
    println!("{}\t{proved}\t{plain}", job.name);
}

fn main() {
    let mut jobs = line_jobs::jobs();
    jobs.extend(round_jobs::jobs());
    let words: Vec<String> = std::env::args().skip(1).collect();
    if let [name, who, times] = &words[..] {
        let job = jobs
            .iter()
            .find(|job| job.name == *name)
            .expect("a job of this name");
        let pass = if who == "proved" {
            &job.proved
        } else {
            &job.plain
        };
        for _ in 0..times.parse().expect("a number of times") {
            black_box(pass());
        }
        return;
    }
    for job in &jobs {
        if words == ["times"] {
            measure(job);
        } else {
            assert_eq!((job.proved)(), (job.plain)(), "{} answers differ", job.name);
            println!("{}\t{}\t{}", job.name, job.unit, job.units);
        }
    }
}
