//! The proved calls, as include/j1850.h declares them.

#[repr(C)]
#[derive(Clone, Copy, Debug)]
pub struct Gate {
    pub offset: f32,
    pub active: f32,
    pub passive: f32,
}

#[repr(C)]
#[derive(Clone, Copy, PartialEq, Debug)]
pub struct Clock {
    pub short: u32,
    pub long: u32,
    pub sof: u32,
}

#[repr(C)]
#[derive(Clone, Copy, PartialEq, Debug)]
pub struct Check {
    pub number: u32,
    pub check: u8,
}

#[repr(C)]
#[derive(Clone, Copy, PartialEq, Debug)]
pub struct Class {
    pub number: u32,
    pub symbol: u32,
}

#[repr(C)]
#[derive(Clone, Copy, PartialEq, Debug)]
pub struct Timed {
    pub number: u32,
    pub good: bool,
}

#[repr(C)]
#[derive(Clone, Copy, PartialEq, Debug)]
pub struct Counted {
    pub number: u32,
    pub count: usize,
}

#[repr(C)]
#[derive(Clone, Copy, PartialEq, Debug)]
pub struct Read {
    pub number: u32,
    pub kind: u32,
    pub next: usize,
    pub opening: usize,
    pub main: usize,
    pub response: usize,
}

/// A live reader. What its words mean is the library's own.
#[repr(C)]
#[derive(Clone, Copy, PartialEq, Debug)]
pub struct Live {
    pub inner: [u64; 8],
}

#[repr(C)]
#[derive(Clone, Copy, PartialEq, Debug)]
pub struct Heard {
    pub number: u32,
    pub kind: u32,
    pub next: u64,
    pub opening: u64,
    pub main: usize,
    pub response: usize,
}

#[repr(C)]
#[derive(Clone, Copy, PartialEq, Debug)]
pub struct Asked {
    pub number: u32,
    pub next: u64,
    pub opening: u64,
}

/// A station of a row: its clock and its stored bytes, of which the first `length` are the message it holds.
#[repr(C)]
#[derive(Clone, Copy, PartialEq, Debug)]
pub struct Station {
    pub clock: Clock,
    pub bytes: [u8; 11],
    pub length: u8,
}

#[repr(C)]
#[derive(Clone, Copy, PartialEq, Debug)]
pub struct Called {
    pub number: u32,
}

/// How a place fared: 0 idle, 1 through, 2 lost at a bit, which is 0 for the other two.
#[repr(C)]
#[derive(Clone, Copy, PartialEq, Debug)]
pub struct Verdict {
    pub fared: u32,
    pub bit: usize,
}

#[repr(C)]
#[derive(Clone, Copy, PartialEq, Debug)]
pub struct Round {
    pub number: u32,
    pub line_time: u32,
    pub words: usize,
    pub verdicts: [Verdict; 32],
}

#[repr(C)]
#[derive(Clone, Copy, PartialEq, Debug)]
pub struct Desk {
    pub number: u32,
    pub line: usize,
    pub length: usize,
}

mod library {
    use super::{
        Asked, Called, Check, Class, Clock, Counted, Desk, Gate, Heard, Live, Read, Round, Station,
        Timed,
    };

    #[link(name = "j1850", kind = "static")]
    extern "C" {
        pub fn j1850_check_byte(bytes: *const u8, length: usize) -> Check;
        pub fn j1850_class(active: bool, width: u32) -> Class;
        pub fn j1850_good_clock(clock: Clock) -> Timed;
        pub fn j1850_intervals(
            gate: Gate,
            samples: *const f32,
            samples_length: usize,
            words: *mut u32,
            words_length: usize,
        ) -> Counted;
        pub fn j1850_write(
            clock: Clock,
            main: *const u8,
            main_length: usize,
            kind: u32,
            response: *const u8,
            response_length: usize,
            words: *mut u32,
            words_length: usize,
        ) -> Counted;
        pub fn j1850_read(
            intervals: *const u32,
            intervals_length: usize,
            from: usize,
            bytes: *mut u8,
            bytes_length: usize,
        ) -> Read;
        pub fn j1850_live_start() -> Live;
        pub fn j1850_hear(live: *mut Live, width: u32, bytes: *mut u8, length: usize) -> Heard;
        pub fn j1850_ask(live: *const Live) -> Asked;
        pub fn j1850_load(
            row: *mut Station,
            row_length: usize,
            place: usize,
            message: *const u8,
            message_length: usize,
        ) -> Called;
        pub fn j1850_withdraw(row: *mut Station, row_length: usize, place: usize) -> Called;
        pub fn j1850_set_clock(
            row: *mut Station,
            row_length: usize,
            place: usize,
            clock: Clock,
        ) -> Called;
        pub fn j1850_round(
            row: *mut Station,
            row_length: usize,
            words: *mut u32,
            words_length: usize,
        ) -> Round;
        pub fn j1850_desk(
            input: *const u8,
            input_length: usize,
            words: *mut u32,
            words_length: usize,
            text: *mut u8,
            text_length: usize,
        ) -> Desk;
    }
}

/// A slice's pointer; null where it is empty, which the header allows.
fn pointer<T>(slice: &[T]) -> *const T {
    if slice.is_empty() {
        std::ptr::null()
    } else {
        slice.as_ptr()
    }
}

fn lent<T>(slice: &mut [T]) -> *mut T {
    if slice.is_empty() {
        std::ptr::null_mut()
    } else {
        slice.as_mut_ptr()
    }
}

// Each pointer below comes from a slice of the length that goes with it, or is null with length 0, and lent slices are
// borrowed alone: that is all that the calls ask.

pub fn check_byte(bytes: &[u8]) -> Check {
    unsafe { library::j1850_check_byte(pointer(bytes), bytes.len()) }
}

pub fn class(active: bool, width: u32) -> Class {
    unsafe { library::j1850_class(active, width) }
}

pub fn good_clock(clock: Clock) -> Timed {
    unsafe { library::j1850_good_clock(clock) }
}

pub fn intervals(gate: Gate, samples: &[f32], words: &mut [u32]) -> Counted {
    let (from, count) = (pointer(samples), samples.len());
    unsafe { library::j1850_intervals(gate, from, count, lent(words), words.len()) }
}

pub fn write(clock: Clock, main: &[u8], kind: u32, response: &[u8], words: &mut [u32]) -> Counted {
    let (bytes, answer) = (pointer(main), pointer(response));
    let (m, r) = (main.len(), response.len());
    unsafe { library::j1850_write(clock, bytes, m, kind, answer, r, lent(words), words.len()) }
}

pub fn read(intervals: &[u32], from: usize, bytes: &mut [u8]) -> Read {
    let (first, count) = (pointer(intervals), intervals.len());
    unsafe { library::j1850_read(first, count, from, lent(bytes), bytes.len()) }
}

pub fn live_start() -> Live {
    unsafe { library::j1850_live_start() }
}

pub fn hear(live: &mut Live, width: u32, bytes: &mut [u8]) -> Heard {
    unsafe { library::j1850_hear(live, width, lent(bytes), bytes.len()) }
}

pub fn ask(live: &Live) -> Asked {
    unsafe { library::j1850_ask(live) }
}

pub fn load(row: &mut [Station], place: usize, message: &[u8]) -> Called {
    let (bytes, count) = (pointer(message), message.len());
    unsafe { library::j1850_load(lent(row), row.len(), place, bytes, count) }
}

pub fn withdraw(row: &mut [Station], place: usize) -> Called {
    unsafe { library::j1850_withdraw(lent(row), row.len(), place) }
}

pub fn set_clock(row: &mut [Station], place: usize, clock: Clock) -> Called {
    unsafe { library::j1850_set_clock(lent(row), row.len(), place, clock) }
}

pub fn round(row: &mut [Station], words: &mut [u32]) -> Round {
    unsafe { library::j1850_round(lent(row), row.len(), lent(words), words.len()) }
}

pub fn desk(input: &[u8], words: &mut [u32], text: &mut [u8]) -> Desk {
    let (first, count) = (pointer(input), input.len());
    let (w, t) = (words.len(), text.len());
    unsafe { library::j1850_desk(first, count, lent(words), w, lent(text), t) }
}
