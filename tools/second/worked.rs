//! The worked lines: checks, widths, clocks and sent widths, for comparison line by line.

use crate::check::check;
use crate::symbol::{classify, good_clock, sent, Class, Clock, Level, NOMINAL};

/// The messages whose check bytes are listed.
const MESSAGES: [&[u8]; 13] = [
    &[0x00],
    &[0xFF],
    &[0xFF, 0xFF],
    &[0xFF, 0x01],
    &[0x00, 0xC4],
    &[0x31, 0x32, 0x33, 0x34, 0x35, 0x36, 0x37, 0x38, 0x39],
    &[0x00, 0x00, 0x00, 0x00],
    &[0xF2, 0x01, 0x83],
    &[0x0F, 0xAA, 0x00, 0x55],
    &[0x00, 0xFF, 0x55, 0x11],
    &[0x33, 0x22, 0x55, 0xAA, 0xBB, 0xCC, 0xDD, 0xEE, 0xFF],
    &[0x92, 0x6B, 0x55],
    &[0xFF, 0xFF, 0xFF, 0xFF],
];

const LEVELS: [(Level, &str); 2] = [(Level::Passive, "passive"), (Level::Active, "active")];

fn name(class: Class) -> &'static str {
    match class {
        Class::Noise => "noise",
        Class::Bit0 => "bit 0",
        Class::Bit1 => "bit 1",
        Class::Eod => "EOD",
        Class::Sof => "SOF",
        Class::Eof => "EOF",
        Class::Ifs => "IFS",
        Class::Break => "break",
        Class::Stuck => "stuck",
    }
}

/// A line at the first width of a sweep and at each one whose name differs from the one before.
fn sweep(lead: &str, last: u32, name_of: impl Fn(u32) -> &'static str) -> Vec<String> {
    let changes = |width: &u32| *width == 0 || name_of(*width) != name_of(*width - 1);
    (0..=last)
        .filter(changes)
        .map(|width| format!("{lead} from {width}: {}", name_of(width)))
        .collect()
}

fn listed_checks() -> Vec<String> {
    let line = |message: &&[u8]| {
        let hex: String = message.iter().map(|byte| format!("{byte:02X}")).collect();
        format!("check {hex}: {:02X}", check(message))
    };
    MESSAGES.iter().map(line).collect()
}

fn one_byte_checks() -> Vec<String> {
    let line = |high: u8| {
        let one = |low: u8| format!(" {:02X}", check(&[high * 16 + low]));
        let checks: String = (0..16).map(one).collect();
        format!("checks of {high:X}0 to {high:X}F:{checks}")
    };
    (0..16).map(line).collect()
}

fn widths(level: Level, level_name: &str) -> Vec<String> {
    let name_of = |width| name(classify(level, width));
    let mut lines = sweep(level_name, 1_000_001, name_of);
    lines.push(format!("{level_name} {}: {}", u32::MAX, name_of(u32::MAX)));
    lines
}

fn clocks() -> Vec<String> {
    let named = |clock| if good_clock(clock) { "good" } else { "bad" };
    let clock = NOMINAL;
    let short = sweep("clock short", 300, |short| named(Clock { short, ..clock }));
    let long = sweep("clock long", 300, |long| named(Clock { long, ..clock }));
    let sof = sweep("clock SOF", 300, |sof| named(Clock { sof, ..clock }));
    [short, long, sof].concat()
}

fn sent_widths(level: Level, level_name: &str) -> Vec<String> {
    let line = |class: &Class| match sent(NOMINAL, level, *class) {
        Some(width) => format!("{level_name} {} is sent for {width}", name(*class)),
        None => format!("{level_name} {} is never sent", name(*class)),
    };
    Class::ALL.iter().map(line).collect()
}

/// All worked lines in their order, each ended by a newline.
pub fn worked() -> String {
    let mut lines = [listed_checks(), one_byte_checks()].concat();
    for (level, level_name) in LEVELS {
        lines.extend(widths(level, level_name));
    }
    lines.extend(clocks());
    for (level, level_name) in LEVELS {
        lines.extend(sent_widths(level, level_name));
    }
    lines.iter().map(|line| format!("{line}\n")).collect()
}
