//! A round written straight down in Rust, to measure the proved library against. Nothing here is proved, and the comparison
//! does not use it. It does the same work: at each bit every place is asked what it wants, and then hears what came.

use crate::ours::{Clock, Round, Station, Verdict};
use crate::plain::{check, good_clock};

/// A station as it takes part: what it sends, how many bits, and the bit at which it lost, or 0.
#[derive(Clone, Copy)]
struct Lane {
    frame: [u8; 12],
    bits: usize,
    clock: Clock,
    lost: usize,
}

impl Lane {
    fn new(station: &Station) -> Lane {
        let stored = &station.bytes[..station.length as usize];
        let mut frame = [0; 12];
        let mut bits = 0;
        if !stored.is_empty() {
            frame[..stored.len()].copy_from_slice(stored);
            frame[stored.len()] = check(stored);
            bits = 8 * (stored.len() + 1);
        }
        Lane {
            frame,
            bits,
            clock: station.clock,
            lost: 0,
        }
    }

    fn remains(&self) -> bool {
        self.bits > 0 && self.lost == 0
    }

    /// The bit at place j, from 0 on; nothing once the check byte is sent.
    fn bit(&self, j: usize) -> Option<bool> {
        (j < self.bits).then(|| self.frame[j / 8] & (0x80 >> (j % 8)) != 0)
    }

    fn asks(&self, active: bool, j: usize) -> Option<u32> {
        let bit = self.bit(j)?;
        Some(if bit == active {
            self.clock.short
        } else {
            self.clock.long
        })
    }
}

fn turned_away(number: u32) -> Round {
    Round {
        number,
        line_time: 0,
        words: 0,
        verdicts: [Verdict { fared: 0, bit: 0 }; 32],
    }
}

fn refusal(row: &[Station], words: &[u32]) -> Option<u32> {
    if row.is_empty() || row.len() > 32 {
        return Some(38);
    }
    if row.iter().any(|s| s.length > 11 || !good_clock(s.clock)) {
        return Some(39);
    }
    if words.len() < 101 {
        return Some(32);
    }
    row.iter().all(|s| s.length == 0).then_some(42)
}

/// Sends bit after bit until nobody asks; answers how many there were.
fn contend(lanes: &mut [Lane], words: &mut [u32]) -> usize {
    let mut j = 0;
    loop {
        let active = j % 2 == 1;
        let remaining = lanes.iter().filter(|lane| lane.remains());
        let asked = remaining.filter_map(|lane| lane.asks(active, j));
        let width = if active { asked.max() } else { asked.min() };
        let width = match width {
            Some(width) => width,
            None => return j,
        };
        words[j] = width;
        let one = (width <= 96) == active;
        for lane in lanes.iter_mut().filter(|lane| lane.remains()) {
            if lane.bit(j) != Some(one) {
                lane.lost = j + 1;
            }
        }
        j += 1;
    }
}

#[inline(never)]
pub fn round(row: &mut [Station], words: &mut [u32]) -> Round {
    if let Some(number) = refusal(row, words) {
        return turned_away(number);
    }
    let nobody = Lane {
        frame: [0; 12],
        bits: 0,
        clock: row[0].clock,
        lost: 0,
    };
    let mut lanes = [nobody; 32];
    for (lane, station) in lanes.iter_mut().zip(row.iter()) {
        *lane = Lane::new(station);
    }
    let lanes = &mut lanes[..row.len()];
    let holders = row.iter().filter(|s| s.length > 0);
    words[0] = 300;
    words[1] = holders.map(|s| s.clock.sof).max().unwrap_or(0);
    let bits = contend(lanes, &mut words[2..]);
    words[2 + bits] = 300;
    let mut answer = turned_away(0);
    answer.words = bits + 3;
    answer.line_time = words[..bits + 2].iter().sum();
    for (i, lane) in lanes.iter().enumerate().filter(|(_, lane)| lane.bits > 0) {
        let fared = if lane.lost == 0 { 1 } else { 2 };
        answer.verdicts[i] = Verdict {
            fared,
            bit: lane.lost,
        };
        if lane.lost == 0 {
            row[i].length = 0;
        }
    }
    answer
}
