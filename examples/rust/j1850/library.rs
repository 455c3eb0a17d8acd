//! The library's calls as include/j1850.h declares them; j1850.rs makes them safe.

use super::{Clock, Gate, Live, Station};

#[repr(C)]
pub struct Check {
    pub number: u32,
    pub check: u8,
}

#[repr(C)]
pub struct Class {
    pub number: u32,
    pub symbol: u32,
}

#[repr(C)]
pub struct Timed {
    pub number: u32,
    pub good: bool,
}

#[repr(C)]
pub struct Counted {
    pub number: u32,
    pub count: usize,
}

#[repr(C)]
pub struct Read {
    pub number: u32,
    pub kind: u32,
    pub next: usize,
    pub opening: usize,
    pub main: usize,
    pub response: usize,
}

#[repr(C)]
pub struct Heard {
    pub number: u32,
    pub kind: u32,
    pub next: u64,
    pub opening: u64,
    pub main: usize,
    pub response: usize,
}

#[repr(C)]
pub struct Asked {
    pub number: u32,
    pub next: u64,
    pub opening: u64,
}

#[repr(C)]
pub struct Called {
    pub number: u32,
}

#[repr(C)]
#[derive(Clone, Copy)]
pub struct Verdict {
    pub fared: u32,
    pub bit: usize,
}

#[repr(C)]
pub struct Round {
    pub number: u32,
    pub line_time: u32,
    pub words: usize,
    pub verdicts: [Verdict; 32],
}

#[repr(C)]
pub struct Desk {
    pub number: u32,
    pub line: usize,
    pub length: usize,
}

extern "C" {
    pub fn j1850_check_byte(bytes: *const u8, length: usize) -> Check;
    pub fn j1850_class(active: bool, width: u32) -> Class;
    pub fn j1850_good_clock(clock: Clock) -> Timed;
    pub fn j1850_intervals(gate: Gate, samples: *const f32, samples_length: usize, words: *mut u32, words_length: usize) -> Counted;
    pub fn j1850_write(clock: Clock, main: *const u8, main_length: usize, kind: u32, response: *const u8, response_length: usize, words: *mut u32, words_length: usize) -> Counted;
    pub fn j1850_read(intervals: *const u32, intervals_length: usize, from: usize, bytes: *mut u8, bytes_length: usize) -> Read;
    pub fn j1850_live_start() -> Live;
    pub fn j1850_hear(live: *mut Live, width: u32, bytes: *mut u8, length: usize) -> Heard;
    pub fn j1850_ask(live: *const Live) -> Asked;
    pub fn j1850_load(row: *mut Station, row_length: usize, place: usize, message: *const u8, message_length: usize) -> Called;
    pub fn j1850_withdraw(row: *mut Station, row_length: usize, place: usize) -> Called;
    pub fn j1850_set_clock(row: *mut Station, row_length: usize, place: usize, clock: Clock) -> Called;
    pub fn j1850_round(row: *mut Station, row_length: usize, words: *mut u32, words_length: usize) -> Round;
    pub fn j1850_desk(input: *const u8, input_length: usize, words: *mut u32, words_length: usize, text: *mut u8, text_length: usize) -> Desk;
}
