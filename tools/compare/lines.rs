//! Recordings to read: frames built symbol by symbol, right or with a fault in them, and damaged afterwards.

use crate::check::{bits_of, check};
use crate::random::Random;

/// Each edge of each window, receiving and sending, with its neighbours, and the ends of the numbers.
pub const WIDTHS: [u32; 44] = [
    0,
    1,
    33,
    34,
    35,
    36,
    48,
    49,
    64,
    79,
    80,
    95,
    96,
    97,
    98,
    111,
    112,
    128,
    145,
    146,
    162,
    163,
    164,
    165,
    181,
    182,
    200,
    218,
    219,
    238,
    239,
    240,
    241,
    279,
    280,
    281,
    282,
    300,
    999_998,
    999_999,
    1_000_000,
    1_000_001,
    u32::MAX - 1,
    u32::MAX,
];

/// A width of a window: an edge as often as anything inside.
fn width(random: &mut Random, first: u32, last: u32) -> u32 {
    match random.below(4) {
        0 => first,
        1 => last,
        _ => random.within(first, last),
    }
}

fn an_end(random: &mut Random) -> u32 {
    match random.below(4) {
        0 => 240,
        1 => width(random, 281, u32::MAX),
        _ => width(random, 240, 400),
    }
}

fn sof_or_eod(random: &mut Random) -> u32 {
    width(random, 164, 239)
}

fn short_or_long(random: &mut Random, short: bool) -> u32 {
    if short {
        width(random, 35, 96)
    } else {
        width(random, 97, 163)
    }
}

/// A bit at the end of a line: a 0 is short where the place is passive, a 1 where it is active.
fn push_bit(random: &mut Random, line: &mut Vec<u32>, bit: bool) {
    let active = line.len() % 2 == 1;
    line.push(short_or_long(random, bit == active));
}

/// A part of so many bytes, the last a right check byte more often than not, and now and then bits of one byte more.
fn push_part(random: &mut Random, line: &mut Vec<u32>, length: usize) {
    let mut bytes = random.bytes(length);
    if let Some((last, before)) = bytes.split_last_mut() {
        if !random.once_in(8) {
            *last = check(before);
        }
    }
    for bit in bits_of(&bytes) {
        push_bit(random, line, bit);
    }
    if random.once_in(12) {
        for _ in 0..random.within(1, 7) {
            let bit = random.once_in(2);
            push_bit(random, line, bit);
        }
    }
}

/// Lays a frame after a line. An end that stands last at an even place opens it; otherwise there is a new opening.
pub fn push_frame(random: &mut Random, line: &mut Vec<u32>) {
    if line.len() % 2 == 0 {
        let opening = an_end(random);
        line.push(opening);
    } else if line.last().map_or(true, |w| *w < 240) {
        let active = sof_or_eod(random);
        let opening = an_end(random);
        line.extend([active, opening]);
    }
    let sof = sof_or_eod(random);
    line.push(sof);
    let most = if random.once_in(6) { 14 } else { 11 };
    let main = random.below(most + 1);
    push_part(random, line, main);
    if random.once_in(2) && line.len() % 2 == 0 {
        let eod = sof_or_eod(random);
        let short = random.once_in(2);
        let normalization = short_or_long(random, short);
        line.extend([eod, normalization]);
        let free = if random.once_in(6) {
            14
        } else {
            13usize.saturating_sub(main)
        };
        let response = random.below(free + 1);
        push_part(random, line, response);
        if random.once_in(8) && line.len() % 2 == 0 {
            let again = sof_or_eod(random);
            let bit = short_or_long(random, true);
            line.extend([again, bit]);
        }
    }
    if line.len() % 2 == 0 {
        let closing = an_end(random);
        line.push(closing);
    }
}

/// One thing done to a line that a bad contact, a lost sample or a cut recording would do.
pub fn damage(random: &mut Random, line: &mut Vec<u32>) {
    if line.is_empty() {
        return;
    }
    let place = random.below(line.len());
    match random.below(6) {
        0 => {
            line.remove(place);
        }
        1 => line.insert(place, random.pick(&WIDTHS)),
        2 => line.truncate(place),
        3 => line[place] = random.next() as u32 >> random.below(28),
        _ => line[place] = random.pick(&WIDTHS),
    }
}
