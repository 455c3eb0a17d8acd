//! Volts and writing written straight down in Rust, to measure the proved library against. Nothing here is proved, and
//! the comparison does not use it. It does the same work: the check byte bit by bit, a sample tested by its difference.

use crate::ours::{Clock, Counted, Gate};

fn done(count: usize) -> Counted {
    Counted { number: 0, count }
}

fn refused(number: u32) -> Counted {
    Counted { number, count: 0 }
}

fn good_gate(gate: Gate) -> bool {
    gate.offset.is_finite()
        && gate.active.is_finite()
        && gate.passive.is_finite()
        && gate.passive < gate.active
}

#[inline(never)]
pub fn intervals(gate: Gate, samples: &[f32], words: &mut [u32]) -> Counted {
    if samples.len() > 16_384 {
        return refused(33);
    }
    if !good_gate(gate) {
        return refused(34);
    }
    if words.len() <= samples.len() {
        return refused(32);
    }
    for sample in samples {
        if !(sample - gate.offset).is_finite() {
            return refused(35);
        }
    }
    if samples.is_empty() {
        return done(0);
    }
    let (mut count, mut width, mut active) = (0, 0, false);
    for sample in samples {
        let volts = sample - gate.offset;
        let level = if volts >= gate.active {
            true
        } else if volts <= gate.passive {
            false
        } else {
            active
        };
        if level == active {
            width += 1;
        } else {
            words[count] = width;
            count += 1;
            width = 1;
            active = level;
        }
    }
    words[count] = width;
    done(count + 1)
}

pub fn check_step(register: u8, byte: u8) -> u8 {
    let mut register = register ^ byte;
    for _ in 0..8 {
        let carry = register & 0x80 != 0;
        register <<= 1;
        if carry {
            register ^= 0x1D;
        }
    }
    register
}

pub fn check(bytes: &[u8]) -> u8 {
    !bytes.iter().fold(0xFF, |r, b| check_step(r, *b))
}

pub fn good_clock(clock: Clock) -> bool {
    (49..=79).contains(&clock.short)
        && (112..=145).contains(&clock.long)
        && (182..=218).contains(&clock.sof)
}

struct Writer<'a> {
    clock: Clock,
    words: &'a mut [u32],
    at: usize,
}

impl Writer<'_> {
    fn put(&mut self, width: u32) {
        self.words[self.at] = width;
        self.at += 1;
    }

    fn byte(&mut self, byte: u8) {
        let eight = &mut self.words[self.at..self.at + 8];
        for (bit, word) in eight.iter_mut().enumerate() {
            let one = byte & (0x80 >> bit) != 0;
            let active = bit % 2 == 1;
            *word = if one == active {
                self.clock.short
            } else {
                self.clock.long
            };
        }
        self.at += 8;
    }

    fn bytes(&mut self, bytes: &[u8]) {
        for byte in bytes {
            self.byte(*byte);
        }
    }
}

#[inline(never)]
pub fn write(clock: Clock, main: &[u8], kind: u32, response: &[u8], words: &mut [u32]) -> Counted {
    if !good_clock(clock) {
        return refused(36);
    }
    let more = match kind {
        0 => 0,
        1 => response.len(),
        _ => response.len() + 1,
    };
    if main.is_empty()
        || kind > 2
        || (kind > 0 && response.is_empty())
        || main.len() + 1 + more > 12
    {
        return refused(37);
    }
    if words.len() < 101 {
        return refused(32);
    }
    let mut writer = Writer {
        clock,
        words,
        at: 0,
    };
    writer.put(300);
    writer.put(clock.sof);
    writer.bytes(main);
    writer.byte(check(main));
    if kind > 0 {
        writer.put(clock.sof);
        writer.put(if kind == 1 { clock.short } else { clock.long });
        writer.bytes(response);
        if kind == 2 {
            writer.byte(check(response));
        }
    }
    writer.put(300);
    done(writer.at)
}
