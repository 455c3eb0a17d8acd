//! Inputs of the desk: each rule of a good line kept and broken at the first, a middle and the last place, the limits on
//! what is lent, then recordings of good and damaged frames, and inputs damaged byte by byte.

use crate::lines::{damage, push_frame, WIDTHS};
use crate::other::plain_write;
use crate::other_row::{DESK_BYTES, DESK_WORDS};
use crate::ours::Desk;
use crate::random::Random;
use crate::trial::Trial;
use crate::writing_cases::NOMINAL;

const MOST_LINES: usize = 16_384;

/// The worked case of document 01.
const WORKED: &str = "customer\tvehicle\tat\tkind\tmain\tresponse\nc17\tv204\t0\tframe\tFFFF\t-\nc17\tv204\t18\tquiet\t-\t-\n";

fn text(customer: &str, vehicle: &str, widths: &[u32]) -> Vec<u8> {
    let mut found = format!("own\t{customer}\t{vehicle}\n");
    for width in widths {
        found += &format!("iv\t{width}\n");
    }
    found.into_bytes()
}

pub fn edges(trial: &mut Trial) {
    worked(trial);
    kinds(trial);
    first_lines(trial);
    later_lines(trial);
    lent(trial);
    every_byte(trial);
    long(trial);
}

fn worked(trial: &mut Trial) {
    let mut widths = vec![300, 200];
    (0..8).for_each(|_| widths.extend([128, 64]));
    widths.push(300);
    let (answer, page) = trial.desk(&text("c17", "v204", &widths));
    let wanted = Desk {
        number: 0,
        line: 0,
        length: WORKED.len(),
    };
    if answer != wanted || page != WORKED.as_bytes() {
        let page = String::from_utf8_lossy(&page);
        println!("compare: document 01 has another text for its recording:\n{answer:?}\n{page}");
        std::process::exit(1);
    }
}

/// A frame at the nominal clock, with the widths at some places replaced.
fn frame(main: &[u8], kind: u32, response: &[u8], replaced: &[(usize, u32)]) -> Vec<u32> {
    let mut words = [0; 101];
    let answer = plain_write(NOMINAL, main, kind, response, &mut words);
    for (place, width) in replaced {
        words[*place] = *width;
    }
    words[..answer.count].to_vec()
}

/// A recording for each answer that reading has, by itself, after intervals that open nothing and before a frame.
fn kinds(trial: &mut Trial) {
    let one = frame(&[0x12], 0, &[], &[]);
    let two = frame(&[0x12, 0x34], 0, &[], &[]);
    let found = [
        two.clone(),
        frame(&[0x12], 1, &[0xAB, 0xCD], &[]),
        frame(&[0x12], 2, &[0xAB, 0xCD], &[]),
        vec![],
        vec![300],
        two[..9].to_vec(),
        frame(&[0x12], 0, &[], &[(5, 34)]),
        frame(&[0x12], 0, &[], &[(1, 100)]),
        frame(&[0x12], 0, &[], &[(7, 240)]),
        frame(&[0x12], 0, &[], &[(7, 1_000_000)]),
        frame(&[0x12], 0, &[], &[(5, 200)]),
        frame(&[0x12], 0, &[], &[(6, 300)]),
        frame(&[0x12], 0, &[], &[(10, 300)]),
        frame(&[0x12], 0, &[], &[(17, 192 - one[17])]),
        [frame(&[0x12], 1, &[0xAB], &[(28, 200)]), vec![64]].concat(),
        [&frame(&[0x12; 11], 0, &[], &[(98, 64)]), &two[..]].concat(),
    ];
    for line in &found {
        for front in [&[] as &[u32], &[100, 64], &[0, 1_000_000, 9, 64]] {
            trial.desk(&text("c-1", "v_2", &[front, line].concat()));
            trial.desk(&text(
                "c-1",
                "v_2",
                &[front, line, &[64, 300], &two[1..]].concat(),
            ));
        }
    }
}

/// First lines, parted by bars: good ones, and each rule broken by as little as can be.
const FIRST: &str = "|\n|\0|\n\n|own\ta\tb|own\ta\tb\n|own\ta\n|own\ta\tb\tc\n|own\t\tb\n|own\ta\t\n|own\t\t\n|OWN\ta\tb\n|\
    Own\ta\tb\n|ow\ta\tb\n|owns\ta\tb\n|own \ta\tb\n| own\ta\tb\n|own\ta b\tc\n|own\ta\tb \n|own a b\n|own\ta\tb\r\n|\
    own\ta\tb\n\n|iv\t1\n|own\ta\tb\nown\ta\tb\n|\town\ta\tb\n|own\t-\t_\n|own\tAZaz09-_\tq\n|own\tä\tb\n";

/// Later lines, without their newlines.
const LATER: &str = "iv\t0|iv\t00|iv\t01|iv\t1|iv\t4294967295|iv\t4294967296|iv\t4294967300|iv\t9999999999|iv\t04294967295|\
    iv\t42949672950|iv\t18446744073709551616|iv\t340282366920938463463374607431768211456|iv\t-1|iv\t+1|iv\t-0|iv\t|\
    iv\t 1|iv\t1 |iv\t0x1|iv\t1\t|iv\t\t1|iv\t1\r|iv\t1_0|iv\t1.0|iv\t1e2||iv|Iv\t1|IV\t1|iv 1|i\t1|ivv\t1|own\tc\tv|\
    \t1|v\t1| iv\t1|iv\t1\t1|\0|iv\t1\0|iv\t\u{661}";

fn first_lines(trial: &mut Trial) {
    for line in FIRST.split('|') {
        trial.desk(line.as_bytes());
        trial.desk(format!("{line}iv\t300\niv\t200\n").as_bytes());
    }
    for size in [1, 2, 15, 16, 17, 18, 1_000] {
        let label = "c".repeat(size);
        trial.desk(&text(&label, "v", &[300]));
        trial.desk(&text("c", &label, &[300]));
    }
}

fn later_lines(trial: &mut Trial) {
    for line in LATER.split('|') {
        for before in [0, 2, 100] {
            for rest in ["", "\n", "\niv\t64\niv\t64\n", "\niv\t64\niv\n"] {
                let front = "iv\t64\n".repeat(before);
                trial.desk(format!("own\tc\tv\n{front}{line}{rest}").as_bytes());
            }
        }
    }
}

/// As much lent as is asked for, more, and less of either by as little as can be; for good inputs and bad ones.
fn lent(trial: &mut Trial) {
    let good = text("c", "v", &[300, 200, 64, 64]);
    let words = [0, 1, DESK_WORDS - 1, DESK_WORDS, DESK_WORDS + 5];
    let bytes = [0, 1, 39, DESK_BYTES - 1, DESK_BYTES, DESK_BYTES + 5];
    for input in [
        good.as_slice(),
        &good[..good.len() - 1],
        b"",
        b"own\ta\tb\n",
    ] {
        for words in words {
            for bytes in bytes {
                trial.desk_lent(input, words, bytes);
            }
        }
    }
}

/// Each byte that there is, in a label and in a width.
fn every_byte(trial: &mut Trial) {
    for byte in 0..=255 {
        for before in [
            "own\tc",
            "own\tc\tv",
            "own\tc\tv\niv\t",
            "own\tc\tv\niv\t3",
            "own\tc\tv\n",
        ] {
            let rest: &[u8] = if before.len() == 5 {
                b"\tv\n"
            } else {
                b"\niv\t5\n"
            };
            trial.desk(&[before.as_bytes(), &[byte], rest].concat());
        }
    }
}

/// The limits on the number of lines, and the longest texts: a fault in every other interval, the longest labels.
fn long(trial: &mut Trial) {
    let label = "m".repeat(16);
    let damaged: Vec<u32> = (0..MOST_LINES + 2).map(|i| [300, 64][i % 2]).collect();
    for lines in [MOST_LINES - 1, MOST_LINES, MOST_LINES + 1, MOST_LINES + 2] {
        trial.desk(&text("c", "v", &vec![64; lines]));
        trial.desk(&text(&label, &label, &vec![u32::MAX; lines]));
        trial.desk(&text(&label, &label, &damaged[..lines]));
        let mut open = text("c", "v", &damaged[..lines]);
        open.extend(b"iv");
        trial.desk(&open);
        let mut line = Vec::new();
        while line.len() < lines {
            push_frame(&mut trial.random, &mut line);
        }
        trial.desk(&text(&label, &label, &line[..lines]));
    }
    let mut early = text("c", "v", &damaged[..MOST_LINES + 1]);
    early[20] = b'x';
    trial.desk(&early);
}

const LABEL: &[u8] = b"abcxyzABCXYZ0129-_";

fn label(random: &mut Random) -> String {
    let length = random.pick(&[1, 2, 5, 16]);
    (0..length)
        .map(|_| char::from(random.pick(LABEL)))
        .collect()
}

fn recording(random: &mut Random, frames: usize) -> Vec<u32> {
    let mut line = Vec::new();
    for _ in 0..frames {
        push_frame(random, &mut line);
    }
    for _ in 0..random.below(2 + frames / 2) {
        damage(random, &mut line);
    }
    if random.once_in(8) {
        let place = random.below(line.len() + 1);
        line.insert(place, random.pick(&WIDTHS));
    }
    line
}

/// One thing done to an input that a bad disk, a bad program or a hand would do.
fn spoil(random: &mut Random, input: &mut Vec<u8>) {
    const ODD: &[u8] = b"\t\n\r 0019+-ivown_\0\xC3\xFF";
    if input.is_empty() {
        return;
    }
    let place = random.below(input.len());
    let newlines: Vec<usize> = (0..input.len()).filter(|i| input[*i] == b'\n').collect();
    match random.below(8) {
        0 => {
            input.remove(place);
        }
        1 => input.insert(place, random.pick(ODD)),
        2 => input[place] = random.pick(ODD),
        3 => input[place] = random.next() as u8,
        4 => input.truncate(place),
        5 => input[place] ^= 1 << random.below(8),
        _ if newlines.is_empty() => {}
        6 => {
            let at = random.pick(&newlines);
            input.splice(at..at, *random.pick(&[b"0", b"\t", b"\r", b"\n"]));
        }
        _ => {
            let at = random.pick(&newlines);
            input.remove(at);
        }
    }
}

pub fn random(trial: &mut Trial, times: usize) {
    for turn in 0..times {
        let random = &mut trial.random;
        let frames = random.pick(&[0, 1, 2, 3, 8, 20]);
        let frames = if turn % 100 == 99 { 300 } else { frames };
        let widths = recording(random, frames);
        let mut input = text(&label(random), &label(random), &widths);
        if random.once_in(2) {
            for _ in 0..1 + random.below(2) {
                spoil(random, &mut input);
            }
        }
        trial.desk(&input);
    }
}
