//! Traces: edges of the numbers and of the limits first, then random ones.

use crate::numbers::*;
use crate::ours::Gate;
use crate::trial::Trial;

const USUAL: Gate = Gate {
    offset: 0.0,
    active: 6.25,
    passive: 1.5,
};

const MOST: usize = 16_384;

/// NaNs of both signs, quiet and signalling, with several payloads.
const NANS: [u32; 6] = [
    0x7fc0_0000,
    0xffc0_0000,
    0x7f80_0001,
    0xff80_0001,
    0x7fff_ffff,
    0x7fa5_a5a5,
];

/// The least number above a number; the greatest infinity and a NaN stay. As `f32::next_up`, which older compilers lack.
fn next_up(number: f32) -> f32 {
    let bits = number.to_bits();
    if number.is_nan() || number == f32::INFINITY {
        number
    } else if number == 0.0 {
        f32::from_bits(1)
    } else if number > 0.0 {
        f32::from_bits(bits + 1)
    } else {
        f32::from_bits(bits - 1)
    }
}

/// The greatest number below a number, the same way.
fn next_down(number: f32) -> f32 {
    -next_up(-number)
}

/// Both zeros, the edges of the subnormal and of the finite numbers, the usual levels and their neighbours, numbers whose
/// differences are rounded, the infinities and the NaNs.
fn numbers() -> Vec<f32> {
    let least = f32::from_bits(1);
    let most_subnormal = f32::from_bits(0x007f_ffff);
    let mut found = vec![
        0.0,
        -0.0,
        least,
        -least,
        most_subnormal,
        -most_subnormal,
        f32::MIN_POSITIVE,
        -f32::MIN_POSITIVE,
        0.1,
        next_down(1.5),
        1.5,
        next_up(1.5),
        -1.5,
        next_down(6.25),
        6.25,
        next_up(6.25),
        7.0,
        16_777_216.0,
        16_777_218.0,
        -3.0e38,
        f32::MAX,
        f32::MIN,
        f32::INFINITY,
        f32::NEG_INFINITY,
    ];
    found.extend(NANS.map(f32::from_bits));
    found
}

pub fn edges(trial: &mut Trial) {
    worked(trial);
    limits(trial);
    competing(trial);
    let numbers = numbers();
    for offset in &numbers {
        for active in &numbers {
            for passive in &numbers {
                let gate = Gate {
                    offset: *offset,
                    active: *active,
                    passive: *passive,
                };
                let good = trial.intervals(gate, &[0.0], 2).number != REFUSED_GATE;
                if !good {
                    continue;
                }
                for sample in &numbers {
                    trial.intervals(gate, &[*sample], 2);
                }
                let finite = numbers.iter().filter(|n| (**n - *offset).is_finite());
                let there: Vec<f32> = finite.copied().collect();
                let back = there.iter().rev().copied();
                let both: Vec<f32> = there.iter().copied().chain(back).collect();
                trial.intervals(gate, &both, both.len() + 1);
            }
        }
    }
}

/// The paper's own trace, and the first sample at each side of the levels.
fn worked(trial: &mut Trial) {
    trial.intervals(USUAL, &[0.0, 7.0, 3.0, 3.0, 1.0], 6);
    for first in [0.0, 3.0, 7.0] {
        for second in [0.0, 3.0, 7.0] {
            for third in [0.0, 3.0, 7.0] {
                trial.intervals(USUAL, &[first, second, third], 4);
            }
        }
    }
}

/// The most samples and one more, with as many lent words as there are samples, one more, and others.
fn limits(trial: &mut Trial) {
    for count in [0, 1, 2, 3, 100, MOST - 1, MOST, MOST + 1, 20_000] {
        for lent in [
            0,
            1,
            count.saturating_sub(1),
            count,
            count + 1,
            count + 2,
            count + 50,
        ] {
            for shape in 0..4 {
                let sample = |i: usize| match shape {
                    0 => 0.0,
                    1 => 7.0,
                    2 => [0.0, 7.0][i % 2],
                    _ => [7.0, 3.0, 0.0, 3.0][i / 64 % 4],
                };
                let samples: Vec<f32> = (0..count).map(sample).collect();
                trial.intervals(USUAL, &samples, lent);
            }
        }
    }
    for (at, bad) in [
        (0, f32::NAN),
        (MOST / 2, f32::INFINITY),
        (MOST - 1, f32::NEG_INFINITY),
    ] {
        let mut samples = vec![7.0; MOST];
        samples[at] = bad;
        trial.intervals(USUAL, &samples, MOST + 1);
    }
}

/// Every set of refusals that can apply at once, several times over.
fn competing(trial: &mut Trial) {
    let bad_gates = [
        Gate {
            active: 1.5,
            ..USUAL
        },
        Gate {
            offset: f32::NAN,
            ..USUAL
        },
        Gate {
            passive: f32::NEG_INFINITY,
            ..USUAL
        },
        Gate {
            active: f32::INFINITY,
            ..USUAL
        },
        Gate {
            passive: 7.0,
            ..USUAL
        },
    ];
    for set in 0..16 {
        let holds = |rule: usize| set >> rule & 1 == 1;
        for turn in 0..20 {
            let count = if holds(0) { MOST + 1 + turn } else { 1 + turn };
            let gate = if holds(1) { bad_gates[turn % 5] } else { USUAL };
            let lent = if holds(2) {
                count - turn % 2
            } else {
                count + 1
            };
            let mut samples = vec![7.0; count];
            if holds(3) {
                samples[turn % count] = f32::from_bits(NANS[turn % 6]);
            }
            trial.intervals(gate, &samples, lent);
        }
    }
}

/// A number of any size, its bits at random.
fn any_number(trial: &mut Trial) -> f32 {
    loop {
        let number = f32::from_bits(trial.random.next() as u32);
        if number.is_finite() {
            return number;
        }
    }
}

/// A sample and an offset whose difference has to be rounded, and levels at, beside and between what it rounds to.
fn rounded(trial: &mut Trial) {
    let offset = any_number(trial);
    let shift = 1 << trial.random.below(26);
    let near = f32::from_bits((offset.to_bits()).wrapping_add(trial.random.next() as u32 % shift));
    let scale = [1.0, -1.0, 0.5, 3.0, 1.0e-3, 1.0e6];
    let sample = near * trial.random.pick(&scale);
    let volts = sample - offset;
    let (under, over) = (next_down(volts), next_up(volts));
    let levels = [
        (volts, under),
        (over, volts),
        (over, under),
        (under, next_down(under)),
        (next_up(over), over),
    ];
    for (active, passive) in levels {
        let gate = Gate {
            offset,
            active,
            passive,
        };
        let samples = [sample, next_down(sample), sample, next_up(sample), sample];
        trial.intervals(gate, &samples, 6);
    }
}

/// A trace that wanders about the levels, with an unusable sample now and then.
fn wandering(trial: &mut Trial, count: usize) {
    let offset = [0.0, 0.3, -0.7, 1.0e-3, 12.5][trial.random.below(5)];
    let gate = Gate { offset, ..USUAL };
    let mut volts = 0.0f32;
    let mut samples = Vec::with_capacity(count);
    for _ in 0..count {
        if trial.random.once_in(20) {
            volts = trial
                .random
                .pick(&[0.0, 7.0, 3.0, 1.5, 6.25, 1.4999999, 6.2500005]);
        }
        let ripple = (trial.random.below(200) as f32 - 100.0) * 1.0e-3;
        let quiet = trial.random.once_in(2);
        samples.push(if quiet {
            volts + offset
        } else {
            volts + offset + ripple
        });
    }
    if count > 0 && trial.random.once_in(10) {
        let at = trial.random.below(count);
        samples[at] = f32::from_bits(trial.random.pick(&NANS));
    }
    let more = trial.random.below(4);
    let lent = if trial.random.once_in(20) {
        count
    } else {
        count + 1 + more
    };
    trial.intervals(gate, &samples, lent);
}

pub fn random(trial: &mut Trial, times: usize) {
    for _ in 0..times {
        rounded(trial);
        let count = trial.random.below(60);
        wandering(trial, count);
    }
    for _ in 0..times / 1_000 {
        let count = MOST - trial.random.below(40);
        wandering(trial, count);
    }
}
