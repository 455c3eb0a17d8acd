//! The desk's text: a recording in lines, answered in lines.

use crate::reading::{read, Answer, Frame, Kind, MOST_BYTES};

/// The most interval lines that one input may have.
const MOST_LINES: usize = 16_384;

/// An input that passed: both labels and the recording.
pub struct Order {
    customer: String,
    vehicle: String,
    pub recording: Vec<u32>,
}

fn label(field: &str) -> bool {
    let letter = |c: char| c.is_ascii_alphanumeric() || c == '-' || c == '_';
    (1..=16).contains(&field.len()) && field.chars().all(letter)
}

/// The width a field spells; the only spelling is the one in which the number is printed.
fn width(field: &str) -> Option<u32> {
    let number: u32 = field.parse().ok()?;
    (number.to_string() == field).then_some(number)
}

/// The fields of one line, which a newline must close.
fn fields(line: &[u8]) -> Option<Vec<&str>> {
    let text = std::str::from_utf8(line).ok()?;
    Some(text.strip_suffix('\n')?.split('\t').collect())
}

fn own_line(line: &[u8]) -> Option<(String, String)> {
    match fields(line)?.as_slice() {
        ["own", c, v] if label(c) && label(v) => Some((c.to_string(), v.to_string())),
        _ => None,
    }
}

fn iv_line(line: &[u8]) -> Option<u32> {
    match fields(line)?.as_slice() {
        ["iv", field] => width(field),
        _ => None,
    }
}

/// The whole input judged; refused with the number of its first bad line.
pub fn order(input: &[u8]) -> Result<Order, usize> {
    let mut lines = input.split_inclusive(|byte| *byte == b'\n');
    let (customer, vehicle) = lines.next().and_then(own_line).ok_or(1usize)?;
    let mut recording = Vec::new();
    for (before, line) in lines.enumerate() {
        let fits = before < MOST_LINES;
        let interval = iv_line(line).filter(|_| fits);
        recording.push(interval.ok_or(before + 2)?);
    }
    Ok(Order {
        customer,
        vehicle,
        recording,
    })
}

fn hex(bytes: &[u8]) -> String {
    bytes.iter().map(|byte| format!("{byte:02X}")).collect()
}

fn kind_name(number: u32) -> String {
    match number {
        0 => "frame".to_string(),
        1 => "quiet".to_string(),
        2 => "unfinished".to_string(),
        fault => format!("fault-{fault}"),
    }
}

/// The columns for both parts of a frame.
fn parts(frame: Frame, bytes: &[u8]) -> (String, String) {
    let (main, rest) = bytes.split_at(frame.main);
    let response = hex(&rest[..frame.response]);
    let column = match frame.kind {
        Kind::None => "-".to_string(),
        Kind::Plain => format!("p:{response}"),
        Kind::Checked => format!("c:{response}"),
    };
    (hex(main), column)
}

/// The last four columns of the line for one answer.
fn columns(answer: Answer, bytes: &[u8]) -> String {
    let none = || ("-".to_string(), "-".to_string());
    let at = answer.frame.map_or(answer.next, |frame| frame.opening);
    let (main, response) = answer.frame.map_or_else(none, |frame| parts(frame, bytes));
    let kind = kind_name(answer.number);
    format!("{at}\t{kind}\t{main}\t{response}")
}

fn report(order: &Order) -> String {
    let mut page = "customer\tvehicle\tat\tkind\tmain\tresponse\n".to_string();
    let mut position = 0;
    loop {
        let mut bytes = [0; MOST_BYTES];
        let answer = read(&order.recording, position, &mut bytes)
            .expect("the position is inside and enough bytes are lent");
        let Order {
            customer, vehicle, ..
        } = order;
        page += &format!("{customer}\t{vehicle}\t{}\n", columns(answer, &bytes));
        if matches!(answer.number, 1 | 2) {
            return page;
        }
        position = answer.next;
    }
}

/// The whole output for an input, byte for byte.
pub fn desk(input: &[u8]) -> Vec<u8> {
    match order(input) {
        Ok(order) => report(&order),
        Err(line) => format!("refused\t{line}\n"),
    }
    .into_bytes()
}
