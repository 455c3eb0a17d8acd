//! Document 01's own cases, and trials made up from its rules.

use crate::check::{check, register, with_check};
use crate::symbol::{classify, good_clock, sent, Class, Clock, Level, NOMINAL};
use crate::text::desk;
use crate::volts::{intervals, Gate, MOST_SAMPLES, USUAL};
use crate::{bench_trials, frame_trials, live_trials};

/// What a run of trials gives: nothing more, or the name of the first wrong case.
pub type Trial = Result<(), String>;

/// The count of cases tried.
pub struct Tally {
    pub cases: usize,
}

impl Tally {
    /// Counts a case, and stops at it if the two values differ.
    pub fn same<T: PartialEq + std::fmt::Debug>(&mut self, name: &str, got: T, want: T) -> Trial {
        self.cases += 1;
        if got == want {
            Ok(())
        } else {
            Err(format!("{name}: got {got:?}, expected {want:?}"))
        }
    }
}

/// Numbers that look like chance but are the same in every run.
pub struct Chance(u64);

impl Chance {
    /// A fresh row of numbers.
    pub fn new(seed: u64) -> Chance {
        Chance(seed)
    }

    /// A number from first to last, both included.
    pub fn between(&mut self, first: usize, last: usize) -> usize {
        let step = self.0.wrapping_mul(6_364_136_223_846_793_005);
        self.0 = step.wrapping_add(1_442_695_040_888_963_407);
        first + (self.0 >> 33) as usize % (last - first + 1)
    }

    /// That many bytes.
    pub fn bytes(&mut self, count: usize) -> Vec<u8> {
        (0..count).map(|_| self.between(0, 255) as u8).collect()
    }

    /// A clock somewhere inside the sending windows.
    pub fn clock(&mut self) -> Clock {
        Clock {
            short: self.between(49, 79) as u32,
            long: self.between(112, 145) as u32,
            sof: self.between(182, 218) as u32,
        }
    }
}

fn checks(tally: &mut Tally) -> Trial {
    tally.same("check of 00", check(&[0x00]), 0x3B)?;
    tally.same("check of FF", check(&[0xFF]), 0xFF)?;
    tally.same("check of FF FF", check(&[0xFF, 0xFF]), 0x3B)?;
    tally.same("check of FF 01", check(&[0xFF, 0x01]), 0xE2)?;
    tally.same("check of 00 C4", check(&[0x00, 0xC4]), 0xFF)?;
    tally.same("register over nothing", register(&[]), 0xFF)?;
    let mut chance = Chance::new(1);
    for length in (1..=11).cycle().take(2_000) {
        let whole = with_check(&chance.bytes(length));
        tally.same(&format!("residue of {whole:02X?}"), register(&whole), 0xC4)?;
        let mut spoilt = whole.clone();
        spoilt[chance.between(0, length)] ^= 1 << chance.between(0, 7);
        let differs = register(&spoilt) != 0xC4;
        tally.same(&format!("residue of {spoilt:02X?}"), differs, true)?;
    }
    Ok(())
}

fn symbols(tally: &mut Tally) -> Trial {
    let known = [
        (Level::Active, 34, Class::Noise),
        (Level::Active, 35, Class::Bit1),
        (Level::Active, 96, Class::Bit1),
        (Level::Active, 97, Class::Bit0),
        (Level::Active, 164, Class::Sof),
        (Level::Active, 240, Class::Break),
        (Level::Active, 999_999, Class::Break),
        (Level::Active, 1_000_000, Class::Stuck),
        (Level::Passive, 34, Class::Noise),
        (Level::Passive, 35, Class::Bit0),
        (Level::Passive, 97, Class::Bit1),
        (Level::Passive, 163, Class::Bit1),
        (Level::Passive, 164, Class::Eod),
        (Level::Passive, 239, Class::Eod),
        (Level::Passive, 240, Class::Eof),
        (Level::Passive, 280, Class::Eof),
        (Level::Passive, 281, Class::Ifs),
        (Level::Passive, u32::MAX, Class::Ifs),
    ];
    for (level, width, class) in known {
        tally.same(&format!("{level:?} {width}"), classify(level, width), class)?;
    }
    tally.same("nominal clock", good_clock(NOMINAL), true)?;
    for clock in frame_trials::corners() {
        tally.same(&format!("{clock:?}"), good_clock(clock), true)?;
        sent_symbols(tally, clock)?;
    }
    Ok(())
}

/// What a clock sends, level by level, in the order of the classes.
fn sent_symbols(tally: &mut Tally, clock: Clock) -> Trial {
    let Clock { short, long, sof } = clock;
    let passive = [0, short, long, sof, 0, 0, 300, 0, 0];
    let active = [0, long, short, 0, sof, 0, 0, 0, 0];
    for (level, widths) in [(Level::Passive, passive), (Level::Active, active)] {
        for (class, width) in Class::ALL.into_iter().zip(widths) {
            let want = (width != 0).then_some(width);
            let name = format!("{class:?} sent at {level:?} by {clock:?}");
            tally.same(&name, sent(clock, level, class), want)?;
            let read_back = want.map(|width| classify(level, width));
            tally.same(&name, read_back, want.map(|_| class))?;
        }
    }
    Ok(())
}

fn volts_refused(tally: &mut Tally) -> Trial {
    let bad = Gate {
        passive: 6.25,
        ..USUAL
    };
    let not_finite = Gate {
        offset: f32::INFINITY,
        ..USUAL
    };
    let far = Gate {
        offset: -f32::MAX,
        ..USUAL
    };
    let long = vec![f32::NAN; MOST_SAMPLES + 1];
    let cases: [(&str, Gate, &[f32], usize, u32); 8] = [
        ("33 first", bad, &long, 0, 33),
        ("34 next", bad, &long[1..], 0, 34),
        ("34 for an offset", not_finite, &[0.0], 2, 34),
        ("32 next", USUAL, &long[1..], MOST_SAMPLES, 32),
        ("32 for no samples", USUAL, &[], 0, 32),
        ("35 last", USUAL, &long[1..], MOST_SAMPLES + 1, 35),
        ("35 for a late sample", USUAL, &[7.0, f32::INFINITY], 3, 35),
        ("35 for a difference", far, &[0.0, f32::MAX], 3, 35),
    ];
    for (name, gate, samples, words, number) in cases {
        let mut lent = vec![9; words];
        tally.same(name, intervals(gate, samples, &mut lent), Err(number))?;
        tally.same(name, lent, vec![9; words])?;
    }
    Ok(())
}

fn volts(tally: &mut Tally) -> Trial {
    let tie = Gate {
        offset: 1.0 / 33_554_432.0,
        active: 1.0,
        passive: 0.0,
    };
    let cases: [(&str, Gate, &[f32], &[u32]); 6] = [
        (
            "0, 7, 3, 3, 1",
            USUAL,
            &[0.0, 7.0, 3.0, 3.0, 1.0],
            &[1, 3, 1],
        ),
        ("no samples", USUAL, &[], &[]),
        ("active first", USUAL, &[6.25, 1.5], &[0, 1, 1]),
        ("between first", USUAL, &[3.0, 3.0, 6.25], &[2, 1]),
        (
            "just short of both",
            USUAL,
            &[6.249_999, 7.0, 1.500_001],
            &[1, 2],
        ),
        ("one rounding, to even", tie, &[1.0], &[0, 1]),
    ];
    for (name, gate, samples, want) in cases {
        let mut lent = vec![77; samples.len() + 3];
        let count = intervals(gate, samples, &mut lent);
        tally.same(name, count, Ok(want.len()))?;
        tally.same(name, &lent[..want.len()], want)?;
        let rest = lent[want.len()..].iter().all(|word| *word == 77);
        tally.same(name, rest, true)?;
    }
    let full = vec![0.0; MOST_SAMPLES];
    let mut lent = vec![0; MOST_SAMPLES + 1];
    tally.same("a full trace", intervals(USUAL, &full, &mut lent), Ok(1))?;
    tally.same("its only interval", lent[0], 16_384)?;
    volts_refused(tally)
}

fn example(tail: &str) -> String {
    let bits = "iv\t128\niv\t64\n".repeat(8);
    format!("own\tc17\tv204\niv\t300\niv\t200\n{bits}{tail}")
}

fn desk_refusals(tally: &mut Tally) -> Trial {
    let many = |count| format!("own\ta\tb\n{}", "iv\t1\n".repeat(count));
    let cases = [
        (String::new(), Some(1)),
        ("\n".into(), Some(1)),
        ("own\ta\tb".into(), Some(1)),
        ("own\ta\t\n".into(), Some(1)),
        ("own\ta\tb\t\n".into(), Some(1)),
        (format!("own\t{}\tb\n", "x".repeat(17)), Some(1)),
        (format!("own\t{}\tA-_9\n", "x".repeat(16)), None),
        ("own\ta\tb.\n".into(), Some(1)),
        ("own\ta\tb\r\n".into(), Some(1)),
        ("own\ta\tb\n\n".into(), Some(2)),
        ("own\ta\tb\niv\t0\n".into(), None),
        ("own\ta\tb\niv\t00\n".into(), Some(2)),
        ("own\ta\tb\niv\t+5\n".into(), Some(2)),
        ("own\ta\tb\niv\t4294967295\n".into(), None),
        ("own\ta\tb\niv\t1\niv\t4294967296\n".into(), Some(3)),
        ("own\ta\tb\niv\t1\niv\t\niv\tx\n".into(), Some(3)),
        ("own\ta\tb\niv\t1\niv\t2".into(), Some(3)),
        ("own\ta\tb\nown\ta\tb\n".into(), Some(2)),
        (many(16_384), None),
        (many(16_385), Some(16_386)),
    ];
    for (text, line) in cases {
        let output = String::from_utf8(desk(text.as_bytes())).unwrap_or_default();
        let refused = output.strip_prefix("refused\t").map(str::to_string);
        let name: String = text.chars().take(40).collect();
        let want = line.map(|line: usize| format!("{line}\n"));
        tally.same(&format!("{name:?} refused"), refused, want)?;
    }
    tally.same(
        "a stray byte",
        desk(b"own\ta\tb\niv\t\xFF\n"),
        b"refused\t2\n".to_vec(),
    )
}

fn desk_lines(tally: &mut Tally) -> Trial {
    let zero = "iv\t64\niv\t128\n".repeat(4);
    let tails = [
        (
            "iv\t300\n".to_string(),
            "0\tframe\tFFFF\t-\nc17\tv204\t18\tquiet\t-\t-",
        ),
        (String::new(), "0\tunfinished\t-\t-"),
        (
            "iv\t34\n".to_string(),
            "18\tfault-11\t-\t-\nc17\tv204\t18\tquiet\t-\t-",
        ),
        (
            format!("iv\t200\niv\t64\n{zero}iv\t240\niv\t200\n"),
            "0\tframe\tFFFF\tp:00\nc17\tv204\t28\tunfinished\t-\t-",
        ),
        (
            format!(
                "iv\t200\niv\t128\n{}iv\t300\n",
                "iv\t128\niv\t64\n".repeat(8)
            ),
            "0\tframe\tFFFF\tc:FFFF\nc17\tv204\t36\tquiet\t-\t-",
        ),
    ];
    for (tail, want) in tails {
        let header = "customer\tvehicle\tat\tkind\tmain\tresponse";
        let page = format!("{header}\nc17\tv204\t{want}\n");
        let output = String::from_utf8(desk(example(&tail).as_bytes())).unwrap_or_default();
        tally.same(&format!("desk's example with {tail:?}"), output, page)?;
    }
    desk_refusals(tally)
}

/// Tries everything; answers the number of cases, or the first wrong one.
pub fn self_test() -> Result<usize, String> {
    let mut tally = Tally { cases: 0 };
    let parts = [
        checks,
        symbols,
        volts,
        desk_lines,
        frame_trials::trials,
        live_trials::trials,
        bench_trials::trials,
    ];
    for part in parts {
        part(&mut tally)?;
    }
    Ok(tally.cases)
}
