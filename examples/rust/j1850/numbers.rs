//! The numbers that answers begin with, by name and in words. docs/NUMBERS.md tells when each comes and what to do.

pub const DONE: u32 = 0;
pub const FRAME: u32 = DONE;
pub const QUIET: u32 = 1;
pub const UNFINISHED: u32 = 2;
pub const FAULT_NOISE: u32 = 11;
pub const FAULT_NO_SOF: u32 = 12;
pub const FAULT_BREAK: u32 = 13;
pub const FAULT_STUCK: u32 = 14;
pub const FAULT_LATE_SOF: u32 = 15;
pub const FAULT_SPLIT_BYTE: u32 = 16;
pub const FAULT_FEW_BYTES: u32 = 17;
pub const FAULT_WRONG_CHECK: u32 = 18;
pub const FAULT_EOD_AFTER_RESPONSE: u32 = 19;
pub const FAULT_THIRTEENTH_BYTE: u32 = 20;
pub const REFUSED_POSITION: u32 = 31;
pub const REFUSED_LENT: u32 = 32;
pub const REFUSED_SAMPLES: u32 = 33;
pub const REFUSED_GATE: u32 = 34;
pub const REFUSED_UNUSABLE: u32 = 35;
pub const REFUSED_CLOCK: u32 = 36;
pub const REFUSED_MESSAGE: u32 = 37;
pub const REFUSED_ROW_SIZE: u32 = 38;
pub const REFUSED_ROW_UNSOUND: u32 = 39;
pub const REFUSED_PLACE: u32 = 40;
pub const REFUSED_HOLDS: u32 = 41;
pub const REFUSED_NOTHING: u32 = 42;
pub const REFUSED_PAST_PLACES: u32 = 51;
pub const REFUSED_DESK_LENT: u32 = 61;
pub const BAD_INPUT: u32 = 62;
pub const UNDECIDED: u32 = 63;

/// The words of a number.
pub fn words(number: u32) -> &'static str {
    match number {
        DONE => "a good frame, or done",
        QUIET => "no further frame begins",
        UNFINISHED => "a frame begins, and the recording ends first",
        FAULT_NOISE => "noise inside a frame",
        FAULT_NO_SOF => "a bit where the start of frame should stand",
        FAULT_BREAK => "a break",
        FAULT_STUCK => "the line is stuck active",
        FAULT_LATE_SOF => "a second start of frame inside a frame",
        FAULT_SPLIT_BYTE => "a part ends inside a byte",
        FAULT_FEW_BYTES => "a part has too few bytes",
        FAULT_WRONG_CHECK => "a check byte is wrong",
        FAULT_EOD_AFTER_RESPONSE => "a second end of data, after the response",
        FAULT_THIRTEENTH_BYTE => "a thirteenth byte begins",
        REFUSED_POSITION => "the position is past the recording",
        REFUSED_LENT => "too little is lent",
        REFUSED_SAMPLES => "too many samples",
        REFUSED_GATE => "the gate is not good",
        REFUSED_UNUSABLE => "a sample is unusable",
        REFUSED_CLOCK => "the clock is outside the sending windows",
        REFUSED_MESSAGE => "the message is empty or too long",
        REFUSED_ROW_SIZE => "the row has no station, or over 32",
        REFUSED_ROW_UNSOUND => "a station of the row is not sound",
        REFUSED_PLACE => "there is no such station",
        REFUSED_HOLDS => "the station already holds a message",
        REFUSED_NOTHING => "no message waits",
        REFUSED_PAST_PLACES => "all places are used up",
        REFUSED_DESK_LENT => "too little is lent to the desk",
        BAD_INPUT => "the desk's input is bad",
        UNDECIDED => "nothing is decided yet",
        _ => "no number of this library",
    }
}
