//! The desk's text written straight down in Rust, as a filter from standard input to standard output, to measure the proved
//! desk against. It reads no more than the desk does, judges the whole input first and writes once.

mod plain_reading;

/// What plain_reading.rs takes from its neighbours.
mod ours {
    pub struct Read {
        pub number: u32,
        pub kind: u32,
        pub next: usize,
        pub opening: usize,
        pub main: usize,
        pub response: usize,
    }
}

mod plain {
    pub fn check_step(register: u8, byte: u8) -> u8 {
        (0..8).fold(register ^ byte, |r, _| {
            r << 1 ^ if r & 0x80 != 0 { 0x1D } else { 0 }
        })
    }
}

use std::io::{Read, Write};

const ENOUGH: u64 = 229_415;
const MOST_LINES: usize = 16_384;

struct Input<'a> {
    customer: &'a [u8],
    vehicle: &'a [u8],
    widths: Vec<u32>,
}

fn label(field: &[u8]) -> bool {
    let letter = |b: &u8| b.is_ascii_alphanumeric() || *b == b'-' || *b == b'_';
    (1..=16).contains(&field.len()) && field.iter().all(letter)
}

fn width(field: &[u8]) -> Option<u32> {
    if field.is_empty() || (field.len() > 1 && field[0] == b'0') {
        return None;
    }
    field.iter().try_fold(0u32, |n, b| match b {
        b'0'..=b'9' => n.checked_mul(10)?.checked_add(u32::from(b - b'0')),
        _ => None,
    })
}

fn own_line(line: &[u8]) -> Option<(&[u8], &[u8])> {
    let mut fields = line.strip_suffix(b"\n")?.split(|b| *b == b'\t');
    let (word, customer, vehicle) = (fields.next()?, fields.next()?, fields.next()?);
    let good = word == b"own" && label(customer) && label(vehicle) && fields.next().is_none();
    good.then_some((customer, vehicle))
}

fn iv_line(line: &[u8]) -> Option<u32> {
    let mut fields = line.strip_suffix(b"\n")?.split(|b| *b == b'\t');
    let (word, field) = (fields.next()?, fields.next()?);
    if word != b"iv" || fields.next().is_some() {
        return None;
    }
    width(field)
}

/// The input judged, or the number of its first bad line.
fn judge(input: &[u8]) -> Result<Input<'_>, usize> {
    let mut lines = input.split_inclusive(|b| *b == b'\n');
    let (customer, vehicle) = lines.next().and_then(own_line).ok_or(1usize)?;
    let mut widths = Vec::with_capacity(MOST_LINES);
    for line in lines {
        match iv_line(line) {
            Some(width) if widths.len() < MOST_LINES => widths.push(width),
            _ => return Err(widths.len() + 2),
        }
    }
    Ok(Input {
        customer,
        vehicle,
        widths,
    })
}

fn hex(out: &mut Vec<u8>, bytes: &[u8]) {
    for byte in bytes {
        let digit = |d: u8| b"0123456789ABCDEF"[usize::from(d)];
        out.extend([digit(byte >> 4), digit(byte & 15)]);
    }
}

fn row(out: &mut Vec<u8>, input: &Input, answer: &ours::Read, bytes: &[u8]) {
    out.extend(input.customer);
    out.push(b'\t');
    out.extend(input.vehicle);
    let at = match answer.number {
        0 | 2 => answer.opening,
        _ => answer.next,
    };
    let _ = write!(out, "\t{at}\t");
    match answer.number {
        0 => {
            out.extend(b"frame\t");
            hex(out, &bytes[..answer.main]);
            out.push(b'\t');
            out.extend([&b"-"[..], b"p:", b"c:"][answer.kind as usize]);
            hex(out, &bytes[answer.main..answer.main + answer.response]);
            out.push(b'\n');
        }
        1 => out.extend(b"quiet\t-\t-\n"),
        2 => out.extend(b"unfinished\t-\t-\n"),
        fault => {
            let _ = writeln!(out, "fault-{fault}\t-\t-");
        }
    }
}

fn desk(input: &[u8]) -> Vec<u8> {
    let input = match judge(input) {
        Ok(input) => input,
        Err(line) => return format!("refused\t{line}\n").into_bytes(),
    };
    let mut out = b"customer\tvehicle\tat\tkind\tmain\tresponse\n".to_vec();
    let (mut bytes, mut position) = ([0; 12], 0);
    loop {
        let answer = plain_reading::read(&input.widths, position, &mut bytes);
        row(&mut out, &input, &answer, &bytes);
        if matches!(answer.number, 1 | 2) {
            return out;
        }
        position = answer.next;
    }
}

fn main() -> std::io::Result<()> {
    let mut input = Vec::new();
    std::io::stdin()
        .lock()
        .take(ENOUGH)
        .read_to_end(&mut input)?;
    std::io::stdout().lock().write_all(&desk(&input))
}
