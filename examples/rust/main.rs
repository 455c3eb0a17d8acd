//! Every call of the library, from Rust: reads a recording, whole and an interval at a time, writes a message, plays the
//! arbitration of three stations and prints the desk's text. examples/expected.txt is what it prints.
//!
//!   rustc --edition 2021 -L target/library -l static=j1850 examples/rust/main.rs -o example && ./example examples/truck.txt

mod j1850;

use j1850::numbers;
use j1850::{Asked, Clock, Desk, Gate, Heard, Live, Read, Response, Station, Symbol, Verdict, DESK_TEXT, DESK_WORDS, FRAME_BYTES, FRAME_WORDS, NOMINAL};

fn hex(bytes: &[u8]) -> String {
    bytes.iter().map(|b| format!(" {b:02X}")).collect()
}

fn list(words: &[u32]) -> String {
    words.iter().map(|w| format!(" {w}")).collect()
}

/// The bytes of a frame.
fn frame(main: &[u8], response: &Response) -> String {
    let response = match response {
        Response::Without => String::new(),
        Response::Plain(bytes) => format!(", plain response{}", hex(bytes)),
        Response::Checked(bytes) => format!(", checked response{}", hex(bytes)),
    };
    format!("frame{}{response}", hex(main))
}

/// One answer of reading.
fn told(answer: &Read) -> String {
    match answer {
        Read::Frame { opening, main, response, .. } => format!("  at {opening}: {}", frame(main, response)),
        Read::Quiet { next } => format!("  from {next}: quiet"),
        Read::Unfinished { opening } => format!("  at {opening}: unfinished"),
        Read::Fault { number, next } => format!("  at {next}: fault {number}, {}", numbers::words(*number)),
    }
}

fn small_calls() -> Result<(), u32> {
    let message = [0x68, 0x6A, 0xF1, 0x01, 0x0C];
    println!("The check byte of{} is {:02X}", hex(&message), j1850::check_byte(&message));
    let sof = if j1850::class(true, 200) == Symbol::Sof { "a SOF" } else { "no SOF" };
    println!("An active interval of 200 microseconds is {sof}");
    let good = j1850::good_clock(Clock { short_bit: 80, ..NOMINAL });
    println!("A short bit of 80 microseconds is {}", if good { "good" } else { "outside the sending windows" });
    let usual = Gate { offset: 0.0, active: 6.25, passive: 1.5 };
    let mut words = [0; 6];
    let count = j1850::intervals(usual, &[0.0, 7.0, 3.0, 3.0, 1.0], &mut words)?;
    println!("The samples 0 7 3 3 1 at the usual gate are the intervals{}", list(&words[..count]));
    Ok(())
}

fn reading(widths: &[u32]) -> Result<(), u32> {
    println!("The recording has {} intervals", widths.len());
    let mut from = 0;
    loop {
        let mut bytes = [0; FRAME_BYTES];
        let answer = j1850::read(widths, from, &mut bytes)?;
        println!("{}", told(&answer));
        match answer {
            Read::Frame { next, .. } | Read::Fault { next, .. } => from = next,
            _ => return Ok(()),
        }
    }
}

fn asked(live: &Live) -> String {
    match j1850::ask(live) {
        Asked::Quiet { next } => format!("  asked: quiet from {next}"),
        Asked::Unfinished { opening } => format!("  asked: unfinished since {opening}"),
    }
}

/// The same recording as a truck sends it: each interval is heard when it comes, and most decide nothing.
fn hearing(widths: &[u32]) -> Result<(), u32> {
    let mut live = j1850::live_start();
    println!("The same intervals, heard one by one:\n{}", asked(&live));
    for width in widths {
        let mut bytes = [0; FRAME_BYTES];
        match j1850::hear(&mut live, *width, &mut bytes)? {
            Heard::Nothing => {}
            Heard::Frame { opening, next, main, response } => println!("  {next} closes what opened at {opening}: {}", frame(main, &response)),
            Heard::Fault { number, next } => println!("  {next} is at fault: {number}, {}", numbers::words(number)),
        }
    }
    println!("{}", asked(&live));
    Ok(())
}

fn writing() -> Result<(), u32> {
    let mut words = [0; FRAME_WORDS];
    let mut bytes = [0; FRAME_BYTES];
    let count = j1850::write(NOMINAL, &[0x08, 0xFF, 0x10], Response::Plain(&[0x28]), &mut words)?;
    println!("A message with a plain response takes {count} words:\n {}", list(&words[..count]));
    println!("{}", told(&j1850::read(&words[..count], 0, &mut bytes)?));
    Ok(())
}

/// Why a station lost at a bit, counted from 1 after the SOF: its own bit there, or that it has none.
fn loss(message: &[u8], bit: usize) -> String {
    let mut sent = message.to_vec();
    sent.push(j1850::check_byte(message));
    match sent.get((bit - 1) / 8) {
        None => "it had sent its check byte, and the line went on".to_string(),
        Some(byte) => {
            let own = byte >> (7 - (bit - 1) % 8) & 1;
            format!("it sent a {own} where the line had a {}", 1 - own)
        }
    }
}

fn one_round(number: usize, senders: &[(&str, &[u8])], row: &mut [Station]) -> Result<(), u32> {
    let mut words = [0; FRAME_WORDS];
    let mut bytes = [0; FRAME_BYTES];
    let round = match j1850::round(row, &mut words) {
        Ok(round) => round,
        Err(refused) => {
            println!("Round {number}: refused with {refused}: {}", numbers::words(refused));
            return Ok(());
        }
    };
    println!("Round {number}: {} words, {} microseconds", round.words, round.line_time);
    for ((name, message), verdict) in senders.iter().zip(round.verdicts) {
        match verdict {
            Verdict::Idle => {}
            Verdict::Through => println!("  {name} got the line"),
            Verdict::Lost { bit } => println!("  {name} lost at bit {bit}: {}", loss(message, bit)),
        }
    }
    println!("{}", told(&j1850::read(&words[..round.words], 0, &mut bytes)?));
    Ok(())
}

fn arbitration() -> Result<(), u32> {
    // the dash's message begins with all the bits of the brakes' frame, and goes on
    let senders: [(&str, &[u8]); 3] = [("engine", &[0x48, 0x6B, 0x10]), ("brakes", &[0x08, 0xFF]), ("dash", &[0x08, 0xFF, 0x20, 0x10])];
    let mut row = [j1850::station(NOMINAL); 3];
    for (place, (_, message)) in senders.iter().enumerate() {
        j1850::load(&mut row, place, message)?;
    }
    j1850::set_clock(&mut row, 1, Clock { short_bit: 49, long_bit: 112, sof: 182 })?;
    one_round(1, &senders, &mut row)?;
    one_round(2, &senders, &mut row)?;
    j1850::withdraw(&mut row, 0)?;
    println!("The engine's message is withdrawn");
    one_round(3, &senders, &mut row)
}

fn desk(input: &[u8]) -> Result<(), u32> {
    let mut words = vec![0; DESK_WORDS];
    let mut text = vec![0; DESK_TEXT];
    for (title, input) in [("The desk's text", input), ("Without its last newline", &input[..input.len() - 1])] {
        match j1850::desk(input, &mut words, &mut text)? {
            Desk::Report { text } => print!("{title}, number 0:\n{}", String::from_utf8_lossy(text)),
            Desk::Refused { line, text } => print!("{title}, number 62 at line {line}:\n{}", String::from_utf8_lossy(text)),
        }
    }
    Ok(())
}

fn all(input: &str) -> Result<(), u32> {
    let widths: Vec<u32> = input.lines().filter_map(|l| l.strip_prefix("iv\t")?.parse().ok()).collect();
    small_calls()?;
    reading(&widths)?;
    hearing(&widths)?;
    writing()?;
    arbitration()?;
    desk(input.as_bytes())
}

fn main() {
    let name = std::env::args().nth(1).expect("usage: example RECORDING");
    let input = std::fs::read_to_string(&name).expect("the recording is not read");
    if let Err(refused) = all(&input) {
        eprintln!("a call was refused with {refused}: {}", numbers::words(refused));
        std::process::exit(1);
    }
}
