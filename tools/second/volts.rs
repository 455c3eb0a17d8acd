//! From volts to intervals.

use crate::symbol::Level;

/// The most samples that one trace may have, one a microsecond.
pub const MOST_SAMPLES: usize = 16_384;

/// A channel's gate, three numbers in volts.
#[derive(Clone, Copy, PartialEq, Debug)]
pub struct Gate {
    pub offset: f32,
    pub active: f32,
    pub passive: f32,
}

/// The usual gate.
pub const USUAL: Gate = Gate {
    offset: 0.0,
    active: 6.25,
    passive: 1.5,
};

/// Whether all three numbers are finite and the passive level is below the active one.
pub fn good_gate(gate: Gate) -> bool {
    let finite = [gate.offset, gate.active, gate.passive]
        .iter()
        .all(|volts| volts.is_finite());
    finite && gate.passive < gate.active
}

/// A sample less the offset, rounded once; nothing if the sample or the difference isn't finite.
fn corrected(gate: Gate, sample: f32) -> Option<f32> {
    let difference: f32 = sample - gate.offset;
    (sample.is_finite() && difference.is_finite()).then_some(difference)
}

/// The level that corrected volts decide by themselves; nothing between the two levels.
fn decided(gate: Gate, volts: f32) -> Option<Level> {
    if volts >= gate.active {
        Some(Level::Active)
    } else if volts <= gate.passive {
        Some(Level::Passive)
    } else {
        None
    }
}

/// The lengths of the stretches of one level, the first being passive and perhaps 0.
pub fn stretches(levels: &[Level]) -> Vec<u32> {
    let mut rest = levels;
    let mut level = Level::Passive;
    let mut found = Vec::new();
    while !rest.is_empty() {
        let length = rest.iter().take_while(|l| **l == level).count();
        found.push(length as u32);
        rest = &rest[length..];
        level = level.other();
    }
    found
}

/// The level at each sample: the last one decided at or before it, passive if none was.
fn levels(gate: Gate, volts: &[f32]) -> Vec<Level> {
    let at = |here: usize| {
        let before = volts[..=here].iter().rev();
        before
            .map(|v| decided(gate, *v))
            .find_map(|level| level)
            .unwrap_or(Level::Passive)
    };
    (0..volts.len()).map(at).collect()
}

/// The intervals of a trace, written into the lent words; answers their number or a refusal.
pub fn intervals(gate: Gate, samples: &[f32], lent: &mut [u32]) -> Result<usize, u32> {
    if samples.len() > MOST_SAMPLES {
        return Err(33);
    }
    if !good_gate(gate) {
        return Err(34);
    }
    if lent.len() < samples.len() + 1 {
        return Err(32);
    }
    let volts: Option<Vec<f32>> = samples.iter().map(|s| corrected(gate, *s)).collect();
    let found = stretches(&levels(gate, &volts.ok_or(35u32)?));
    lent[..found.len()].copy_from_slice(&found);
    Ok(found.len())
}
