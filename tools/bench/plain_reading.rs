//! Reading written straight down in Rust, to measure the proved library against.

use crate::ours::Read;
use crate::plain::check_step;

#[derive(Clone, Copy, PartialEq)]
pub enum Symbol {
    Noise,
    Bit(bool),
    SofOrEod,
    End,
    Break,
    Stuck,
}

pub fn class(active: bool, width: u32) -> Symbol {
    match width {
        0..=34 => Symbol::Noise,
        35..=96 => Symbol::Bit(active),
        97..=163 => Symbol::Bit(!active),
        164..=239 => Symbol::SofOrEod,
        _ if !active => Symbol::End,
        240..=999_999 => Symbol::Break,
        _ => Symbol::Stuck,
    }
}

#[derive(Clone, Copy, PartialEq)]
pub enum Phase {
    Sof,
    Main,
    Normalization,
    Plain,
    Checked,
}

pub struct Reader {
    pub phase: Phase,
    bits: u8,
    byte: u8,
    pub count: usize,
    pub began: usize,
    register: u8,
    pub bytes: [u8; 12],
}

pub enum Step {
    Going,
    Closed,
    Fault(u32),
}

impl Reader {
    pub fn new() -> Reader {
        Reader {
            phase: Phase::Sof,
            bits: 0,
            byte: 0,
            count: 0,
            began: 0,
            register: 0xFF,
            bytes: [0; 12],
        }
    }

    fn bit(&mut self, bit: bool) -> Step {
        if self.count == 12 {
            return Step::Fault(20);
        }
        self.byte = self.byte << 1 | u8::from(bit);
        self.bits += 1;
        if self.bits == 8 {
            self.bytes[self.count] = self.byte;
            self.register = check_step(self.register, self.byte);
            self.count += 1;
            self.bits = 0;
        }
        Step::Going
    }

    /// The fault of the part that an EOD or an end stops, if it has one.
    fn stopped(&self) -> Option<u32> {
        let plain = self.phase == Phase::Plain;
        if self.bits != 0 {
            Some(16)
        } else if self.count - self.began < if plain { 1 } else { 2 } {
            Some(17)
        } else if !plain && self.register != 0xC4 {
            Some(18)
        } else {
            None
        }
    }

    /// Laid out in each loop that calls it, as the compiler does in a program with one such loop.
    #[inline(always)]
    pub fn step(&mut self, symbol: Symbol) -> Step {
        match (symbol, self.phase) {
            (Symbol::Noise, _) => Step::Fault(11),
            (Symbol::Stuck, _) => Step::Fault(14),
            (Symbol::Break, _) => Step::Fault(13),
            (Symbol::Bit(_), Phase::Sof) => Step::Fault(12),
            (Symbol::SofOrEod, Phase::Sof) => {
                self.phase = Phase::Main;
                Step::Going
            }
            (Symbol::Bit(one), Phase::Normalization) => {
                self.phase = if one { Phase::Plain } else { Phase::Checked };
                Step::Going
            }
            (Symbol::Bit(one), _) => self.bit(one),
            (Symbol::SofOrEod, Phase::Normalization) => Step::Fault(15),
            (Symbol::SofOrEod, _) => match self.stopped() {
                Some(fault) => Step::Fault(fault),
                None if self.phase != Phase::Main => Step::Fault(19),
                None => {
                    self.phase = Phase::Normalization;
                    self.began = self.count;
                    self.register = 0xFF;
                    Step::Going
                }
            },
            (Symbol::End, _) => match self.stopped() {
                Some(fault) => Step::Fault(fault),
                None => Step::Closed,
            },
        }
    }
}

fn bare(number: u32, next: usize, opening: usize) -> Read {
    Read {
        number,
        kind: 0,
        next,
        opening,
        main: 0,
        response: 0,
    }
}

#[inline(never)]
pub fn read(intervals: &[u32], from: usize, bytes: &mut [u8]) -> Read {
    if from > intervals.len() {
        return bare(31, 0, 0);
    }
    if bytes.len() < 12 {
        return bare(32, 0, 0);
    }
    let mut opening = from + from % 2;
    while opening < intervals.len() && intervals[opening] < 240 {
        opening += 2;
    }
    if opening + 1 >= intervals.len() {
        return bare(1, from, 0);
    }
    let mut reader = Reader::new();
    for (place, width) in intervals.iter().enumerate().skip(opening + 1) {
        let symbol = class(place % 2 == 1, *width);
        // An active SOF's width is fault 15 anywhere after the SOF's place.
        if symbol == Symbol::SofOrEod && place % 2 == 1 && place > opening + 1 {
            return bare(15, place, 0);
        }
        match reader.step(symbol) {
            Step::Going => {}
            Step::Fault(number) => return bare(number, place, 0),
            Step::Closed => {
                bytes[..reader.count].copy_from_slice(&reader.bytes[..reader.count]);
                let response = match reader.phase {
                    Phase::Plain | Phase::Checked => reader.count - reader.began,
                    _ => 0,
                };
                return Read {
                    number: 0,
                    kind: match reader.phase {
                        Phase::Plain => 1,
                        Phase::Checked => 2,
                        _ => 0,
                    },
                    next: place,
                    opening,
                    main: reader.count - response,
                    response,
                };
            }
        }
    }
    bare(2, opening, opening)
}
