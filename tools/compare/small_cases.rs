//! Check bytes, width classes and clocks.

use crate::ours::Clock;
use crate::trial::Trial;

/// The sending windows' edges and their neighbours, and numbers far off, for each width of a clock.
const SHORT: [u32; 8] = [0, 48, 49, 64, 79, 80, 128, u32::MAX];
const LONG: [u32; 8] = [0, 111, 112, 128, 145, 146, 200, u32::MAX];
const SOF: [u32; 8] = [0, 181, 182, 200, 218, 219, 64, u32::MAX];

pub fn edges(trial: &mut Trial) {
    trial.check_byte(&[]);
    for byte in 0..=255 {
        trial.check_byte(&[byte]);
        for second in 0..=255 {
            trial.check_byte(&[byte, second]);
        }
    }
    for active in [false, true] {
        (0..2_000).for_each(|width| trial.class(active, width));
        (999_900..1_000_100).for_each(|width| trial.class(active, width));
        (u32::MAX - 3..=u32::MAX).for_each(|width| trial.class(active, width));
    }
    for short in SHORT {
        for long in LONG {
            for sof in SOF {
                trial.good_clock(Clock { short, long, sof });
            }
        }
    }
}

pub fn random(trial: &mut Trial, times: usize) {
    for _ in 0..times {
        let length = trial.random.below(64);
        let bytes = trial.random.bytes(length);
        trial.check_byte(&bytes);
        let (active, width) = (trial.random.once_in(2), trial.random.next() as u32);
        let width = width >> trial.random.below(24);
        trial.class(active, width);
        let clock = Clock {
            short: trial.random.within(40, 90),
            long: trial.random.within(100, 160),
            sof: trial.random.within(170, 230),
        };
        trial.good_clock(clock);
    }
}
