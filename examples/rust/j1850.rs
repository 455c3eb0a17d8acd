//! The library's calls for Rust, safe: slices go in and out as slices, and a refusal is an `Err` with its number.
//! include/j1850.h says what each call takes and answers. Copy this file and the folder of its name into a crate and link
//! libj1850.a:
//!
//!   rustc -L target/library -l static=j1850 main.rs

/// A channel's gate in volts.
#[repr(C)]
#[derive(Clone, Copy)]
pub struct Gate {
    pub offset: f32,
    pub active: f32,
    pub passive: f32,
}

/// The widths that a controller sends with, in microseconds.
#[repr(C)]
#[derive(Clone, Copy)]
pub struct Clock {
    pub short_bit: u32,
    pub long_bit: u32,
    pub sof: u32,
}

pub const NOMINAL: Clock = Clock { short_bit: 64, long_bit: 128, sof: 200 };

/// A station of a row: its clock and its stored message, the first `length` of its bytes.
#[repr(C)]
#[derive(Clone, Copy)]
pub struct Station {
    pub clock: Clock,
    pub bytes: [u8; 11],
    pub length: u8,
}

/// An empty station.
pub fn station(clock: Clock) -> Station {
    Station { clock, bytes: [0; 11], length: 0 }
}

#[derive(Clone, Copy, PartialEq)]
pub enum Symbol {
    Noise,
    Bit0,
    Bit1,
    Eod,
    Sof,
    Eof,
    Ifs,
    Break,
    Stuck,
}

/// The response of a frame, to be written or as it was read.
#[derive(Clone, Copy)]
pub enum Response<'a> {
    Without,
    Plain(&'a [u8]),
    Checked(&'a [u8]),
}

/// What reading answers. The bytes of a frame stand in the lent bytes.
pub enum Read<'a> {
    Frame { opening: usize, next: usize, main: &'a [u8], response: Response<'a> },
    Quiet { next: usize },
    Unfinished { opening: usize },
    Fault { number: u32, next: usize },
}

/// A live reader, lent to each call: where its recording stands, and the frame that has begun.
#[repr(C)]
#[derive(Clone, Copy)]
pub struct Live {
    inner: [u64; 8],
}

/// What an interval that a live reader hears decides, most often nothing. The bytes of a frame stand in the lent bytes.
pub enum Heard<'a> {
    Nothing,
    Frame { opening: u64, next: u64, main: &'a [u8], response: Response<'a> },
    Fault { number: u32, next: u64 },
}

/// How reading what a live reader has heard so far ends.
pub enum Asked {
    Quiet { next: u64 },
    Unfinished { opening: u64 },
}

/// How a place fared in a round.
#[derive(Clone, Copy)]
pub enum Verdict {
    Idle,
    Through,
    Lost { bit: usize },
}

/// A round that was played.
pub struct Round {
    pub words: usize,
    pub line_time: u32,
    pub verdicts: [Verdict; 32],
}

/// The desk's text: a report, or the refusal of an input at its first bad line.
pub enum Desk<'a> {
    Report { text: &'a [u8] },
    Refused { line: usize, text: &'a [u8] },
}

/// What has to be lent: bytes for a frame, words for a frame, and what `desk` takes.
pub const FRAME_BYTES: usize = 12;
pub const FRAME_WORDS: usize = 101;
pub const DESK_WORDS: usize = 16_384;
pub const DESK_TEXT: usize = 442_463;

mod library;
#[allow(dead_code)] // a caller takes what it needs
pub mod numbers;

use numbers::{BAD_INPUT, DONE, FAULT_NOISE, FAULT_THIRTEENTH_BYTE, FRAME, QUIET, UNDECIDED, UNFINISHED};

// Each call below hands over slices that Rust lends for the length of the call, and the library touches nothing else.

/// The check byte that is sent after these bytes.
pub fn check_byte(bytes: &[u8]) -> u8 {
    unsafe { library::j1850_check_byte(bytes.as_ptr(), bytes.len()) }.check
}

/// The symbol of an interval on an active or a passive line.
pub fn class(active: bool, width: u32) -> Symbol {
    use Symbol::*;
    let symbols = [Noise, Bit0, Bit1, Eod, Sof, Eof, Ifs, Break, Stuck];
    symbols[unsafe { library::j1850_class(active, width) }.symbol as usize]
}

/// Whether a clock lies in the sending windows.
pub fn good_clock(clock: Clock) -> bool {
    unsafe { library::j1850_good_clock(clock) }.good
}

/// The intervals of a trace, first in the lent words; their number.
pub fn intervals(gate: Gate, samples: &[f32], words: &mut [u32]) -> Result<usize, u32> {
    let answer = unsafe { library::j1850_intervals(gate, samples.as_ptr(), samples.len(), words.as_mut_ptr(), words.len()) };
    done(answer.number).map(|()| answer.count)
}

/// The frame of a message, first in the lent words; the number of its words.
pub fn write(clock: Clock, main: &[u8], response: Response, words: &mut [u32]) -> Result<usize, u32> {
    let (kind, bytes): (u32, &[u8]) = match response {
        Response::Without => (0, &[]),
        Response::Plain(bytes) => (1, bytes),
        Response::Checked(bytes) => (2, bytes),
    };
    let answer = unsafe { library::j1850_write(clock, main.as_ptr(), main.len(), kind, bytes.as_ptr(), bytes.len(), words.as_mut_ptr(), words.len()) };
    done(answer.number).map(|()| answer.count)
}

/// The first frame at or after a position of a recording.
pub fn read<'a>(intervals: &[u32], from: usize, bytes: &'a mut [u8]) -> Result<Read<'a>, u32> {
    let answer = unsafe { library::j1850_read(intervals.as_ptr(), intervals.len(), from, bytes.as_mut_ptr(), bytes.len()) };
    Ok(match answer.number {
        FRAME => {
            let (main, response) = parts(bytes, answer.main, answer.kind, answer.response);
            Read::Frame { opening: answer.opening, next: answer.next, main, response }
        }
        QUIET => Read::Quiet { next: answer.next },
        UNFINISHED => Read::Unfinished { opening: answer.opening },
        number @ FAULT_NOISE..=FAULT_THIRTEENTH_BYTE => Read::Fault { number, next: answer.next },
        refused => return Err(refused),
    })
}

/// A live reader that has heard nothing.
pub fn live_start() -> Live {
    unsafe { library::j1850_live_start() }
}

/// Hears the next interval of a recording.
pub fn hear<'a>(live: &mut Live, width: u32, bytes: &'a mut [u8]) -> Result<Heard<'a>, u32> {
    let answer = unsafe { library::j1850_hear(live, width, bytes.as_mut_ptr(), bytes.len()) };
    Ok(match answer.number {
        FRAME => {
            let (main, response) = parts(bytes, answer.main, answer.kind, answer.response);
            Heard::Frame { opening: answer.opening, next: answer.next, main, response }
        }
        UNDECIDED => Heard::Nothing,
        number @ FAULT_NOISE..=FAULT_THIRTEENTH_BYTE => Heard::Fault { number, next: answer.next },
        refused => return Err(refused),
    })
}

/// How reading what was heard so far ends.
pub fn ask(live: &Live) -> Asked {
    let answer = unsafe { library::j1850_ask(live) };
    match answer.number {
        QUIET => Asked::Quiet { next: answer.next },
        _ => Asked::Unfinished { opening: answer.opening },
    }
}

/// Loads a message into the station at a place.
pub fn load(row: &mut [Station], place: usize, message: &[u8]) -> Result<(), u32> {
    done(unsafe { library::j1850_load(row.as_mut_ptr(), row.len(), place, message.as_ptr(), message.len()) }.number)
}

/// Withdraws the message of the station at a place.
pub fn withdraw(row: &mut [Station], place: usize) -> Result<(), u32> {
    done(unsafe { library::j1850_withdraw(row.as_mut_ptr(), row.len(), place) }.number)
}

/// Sets the clock of the station at a place.
pub fn set_clock(row: &mut [Station], place: usize, clock: Clock) -> Result<(), u32> {
    done(unsafe { library::j1850_set_clock(row.as_mut_ptr(), row.len(), place, clock) }.number)
}

/// Plays a round; the line's intervals stand first in the lent words.
pub fn round(row: &mut [Station], words: &mut [u32]) -> Result<Round, u32> {
    let answer = unsafe { library::j1850_round(row.as_mut_ptr(), row.len(), words.as_mut_ptr(), words.len()) };
    let verdicts = answer.verdicts.map(|v| match v.fared {
        0 => Verdict::Idle,
        1 => Verdict::Through,
        _ => Verdict::Lost { bit: v.bit },
    });
    done(answer.number).map(|()| Round { words: answer.words, line_time: answer.line_time, verdicts })
}

/// The desk's text for an input.
pub fn desk<'a>(input: &[u8], words: &mut [u32], text: &'a mut [u8]) -> Result<Desk<'a>, u32> {
    let answer = unsafe { library::j1850_desk(input.as_ptr(), input.len(), words.as_mut_ptr(), words.len(), text.as_mut_ptr(), text.len()) };
    match answer.number {
        DONE => Ok(Desk::Report { text: &text[..answer.length] }),
        BAD_INPUT => Ok(Desk::Refused { line: answer.line, text: &text[..answer.length] }),
        refused => Err(refused),
    }
}

/// The main bytes and the response that stand first in the lent bytes.
fn parts(bytes: &[u8], main: usize, kind: u32, response: usize) -> (&[u8], Response<'_>) {
    let (main, rest) = bytes.split_at(main);
    let response = match kind {
        1 => Response::Plain(&rest[..response]),
        2 => Response::Checked(&rest[..response]),
        _ => Response::Without,
    };
    (main, response)
}

fn done(number: u32) -> Result<(), u32> {
    if number == DONE {
        Ok(())
    } else {
        Err(number)
    }
}
