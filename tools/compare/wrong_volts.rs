//! Volts to intervals with one rule altered.

use super::Wrong;
use crate::numbers::*;
use crate::other::{counted, second_gate};
use crate::ours::{Counted, Gate};
use crate::symbol::Level;
use crate::volts::{good_gate, intervals as right_intervals, stretches};

/// The intervals by a judge that says of a sample which level it decides, if it decides one.
fn judged_by(first: Level, samples: &[f32], judge: impl Fn(f32) -> Option<Level>) -> Vec<u32> {
    let mut now = first;
    let level_at = |sample: &f32| {
        now = judge(*sample).unwrap_or(now);
        now
    };
    let levels: Vec<Level> = samples.iter().map(level_at).collect();
    stretches(&levels)
}

/// The level by two tests, the active one first.
fn by_tests(active: bool, passive: bool) -> Option<Level> {
    match (active, passive) {
        (true, _) => Some(Level::Active),
        (false, true) => Some(Level::Passive),
        (false, false) => None,
    }
}

fn flushed(volts: f32) -> f32 {
    if volts.is_subnormal() {
        0.0
    } else {
        volts
    }
}

/// The intervals that an altered judge finds; nothing where this variant alters another rule.
fn judged_wrong(wrong: Wrong, gate: Gate, samples: &[f32]) -> Option<Vec<u32>> {
    let Gate {
        offset,
        active,
        passive,
    } = gate;
    let by = |judge: &dyn Fn(f32) -> Option<Level>| Some(judged_by(Level::Passive, samples, judge));
    match wrong {
        Wrong::Unrounded => by(&|s| {
            let exact = f64::from(s) - f64::from(offset);
            by_tests(exact >= f64::from(active), exact <= f64::from(passive))
        }),
        Wrong::MovedLevels => by(&|s| by_tests(s >= active + offset, s <= passive + offset)),
        Wrong::OffsetAdded => by(&|s| by_tests(s + offset >= active, s + offset <= passive)),
        Wrong::AboveActive => by(&|s| by_tests(s - offset > active, s - offset <= passive)),
        Wrong::BelowPassive => by(&|s| by_tests(s - offset >= active, s - offset < passive)),
        Wrong::BetweenPassive => by(&|s| by_tests(s - offset >= active, true)),
        Wrong::Flushed => by(&|s| {
            let volts = flushed(flushed(s) - flushed(offset));
            by_tests(volts >= flushed(active), volts <= flushed(passive))
        }),
        Wrong::StartsActive => Some(judged_by(Level::Active, samples, |s| {
            by_tests(s - offset >= active, s - offset <= passive)
        })),
        _ => None,
    }
}

/// Writes other intervals over what a call that was done has written.
fn rewritten(found: &[u32], before: &[u32], words: &mut [u32]) -> Counted {
    words.copy_from_slice(before);
    words[..found.len()].copy_from_slice(found);
    counted(Ok(found.len()))
}

fn usable(gate: Gate, sample: f32) -> bool {
    sample.is_finite() && (sample - gate.offset).is_finite()
}

pub fn intervals(wrong: Wrong, gate: Gate, samples: &[f32], words: &mut [u32]) -> Counted {
    let before = words.to_vec();
    let right = counted(right_intervals(second_gate(gate), samples, words));
    if right.number == DONE {
        if let Some(found) = judged_wrong(wrong, gate, samples) {
            return rewritten(&found, &before, words);
        }
    }
    let all_finite = samples.iter().all(|s| s.is_finite());
    let refused = |number| counted(Err(number));
    match (wrong, right.number) {
        (Wrong::FirstZeroDropped, DONE) if right.count > 1 && words[0] == 0 => {
            let found = words[1..right.count].to_vec();
            rewritten(&found, &before, words)
        }
        (Wrong::OverflowUsable, REFUSED_UNUSABLE) if all_finite => {
            let judge = |s| {
                by_tests(
                    s - gate.offset >= gate.active,
                    s - gate.offset <= gate.passive,
                )
            };
            let found = judged_by(Level::Passive, samples, judge);
            rewritten(&found, &before, words)
        }
        (Wrong::LongestRefused, DONE) if samples.len() == 16_384 => {
            words.copy_from_slice(&before);
            refused(REFUSED_SAMPLES)
        }
        (Wrong::WordsAsSamples, REFUSED_LENT) if words.len() == samples.len() => {
            let mut more = before.clone();
            more.push(0);
            let answer = intervals(Wrong::Nothing, gate, samples, &mut more);
            words.copy_from_slice(&more[..words.len()]);
            answer
        }
        (Wrong::GateBeforeLength, REFUSED_SAMPLES) if !good_gate(second_gate(gate)) => {
            refused(REFUSED_GATE)
        }
        (Wrong::WordsBeforeGate, REFUSED_GATE) if words.len() <= samples.len() => {
            refused(REFUSED_LENT)
        }
        (Wrong::SampleBeforeWords, REFUSED_LENT) if !samples.iter().all(|s| usable(gate, *s)) => {
            refused(REFUSED_UNUSABLE)
        }
        (Wrong::TraceRefusalWrites, REFUSED_UNUSABLE) => {
            words[0] = !words[0];
            right
        }
        (Wrong::TracePastCleared, DONE) if right.count < words.len() => {
            words[right.count] = 0;
            right
        }
        _ => right,
    }
}
