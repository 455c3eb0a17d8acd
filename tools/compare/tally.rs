//! How often each answer occurred, and which of the documents' answers have to.

use crate::numbers::*;
use std::collections::BTreeMap;

/// The calls that have more than one number to answer, with every number that documents 01 and 02 have for them, and the
/// library's own.
const ANSWERS: [(&str, &[&[u32]]); 10] = [
    (
        "intervals",
        &[&[
            DONE,
            REFUSED_LENT,
            REFUSED_SAMPLES,
            REFUSED_GATE,
            REFUSED_UNUSABLE,
        ]],
    ),
    (
        "write",
        &[&[DONE, REFUSED_LENT, REFUSED_CLOCK, REFUSED_MESSAGE]],
    ),
    ("read", &[LINES, &FAULTS, &[REFUSED_POSITION, REFUSED_LENT]]),
    (
        "hear",
        &[
            &[FRAME],
            &FAULTS,
            &[REFUSED_LENT, REFUSED_PAST_PLACES, UNDECIDED],
        ],
    ),
    ("ask", &[&[QUIET, UNFINISHED]]),
    (
        "load",
        &[&[DONE, REFUSED_MESSAGE], AT_A_PLACE, &[REFUSED_HOLDS]],
    ),
    ("withdraw", &[&[DONE], AT_A_PLACE, &[REFUSED_NOTHING]]),
    ("set clock", &[&[DONE, REFUSED_CLOCK], AT_A_PLACE]),
    (
        "round",
        &[&[
            DONE,
            REFUSED_LENT,
            REFUSED_ROW_SIZE,
            REFUSED_ROW_UNSOUND,
            REFUSED_NOTHING,
        ]],
    ),
    ("desk", &[&[DONE, REFUSED_DESK_LENT, BAD_INPUT]]),
];

/// What reading finds besides faults, the faults, and what every call at a place of a row can be refused with.
const LINES: &[u32] = &[FRAME, QUIET, UNFINISHED];
const FAULTS: [u32; 10] = [
    FAULT_NOISE,
    FAULT_NO_SOF,
    FAULT_BREAK,
    FAULT_STUCK,
    FAULT_LATE_SOF,
    FAULT_SPLIT_BYTE,
    FAULT_FEW_BYTES,
    FAULT_WRONG_CHECK,
    FAULT_EOD_AFTER_RESPONSE,
    FAULT_THIRTEENTH_BYTE,
];
const AT_A_PLACE: &[u32] = &[REFUSED_ROW_SIZE, REFUSED_ROW_UNSOUND, REFUSED_PLACE];

/// What answers carry: how places fared (0 idle, 1 through, 2 lost), which lines a report has, which responses, and how
/// messages went out (waiting.rs).
const CARRIED: [(&str, &[&[u32]]); 4] = [
    ("verdict", &[&[0, 1, 2]]),
    ("went out", &[&[0, 1, 2]]),
    ("desk line", &[LINES, &FAULTS]),
    ("desk response", &[&[0, 1, 2]]),
];

/// The refusals of calls on a row or a live reader that can apply at once, the earlier first. A place that there is not leaves
/// no station that holds a message or none.
const COMPETING: [(&str, &[(u32, u32)]); 5] = [
    ("hear", &[(REFUSED_PAST_PLACES, REFUSED_LENT)]),
    (
        "load",
        &[
            (REFUSED_ROW_SIZE, REFUSED_ROW_UNSOUND),
            (REFUSED_ROW_SIZE, REFUSED_PLACE),
            (REFUSED_ROW_SIZE, REFUSED_MESSAGE),
            (REFUSED_ROW_SIZE, REFUSED_HOLDS),
            (REFUSED_ROW_UNSOUND, REFUSED_PLACE),
            (REFUSED_ROW_UNSOUND, REFUSED_MESSAGE),
            (REFUSED_ROW_UNSOUND, REFUSED_HOLDS),
            (REFUSED_PLACE, REFUSED_MESSAGE),
            (REFUSED_MESSAGE, REFUSED_HOLDS),
        ],
    ),
    (
        "withdraw",
        &[
            (REFUSED_ROW_SIZE, REFUSED_ROW_UNSOUND),
            (REFUSED_ROW_SIZE, REFUSED_PLACE),
            (REFUSED_ROW_SIZE, REFUSED_NOTHING),
            (REFUSED_ROW_UNSOUND, REFUSED_PLACE),
            (REFUSED_ROW_UNSOUND, REFUSED_NOTHING),
        ],
    ),
    (
        "set clock",
        &[
            (REFUSED_ROW_SIZE, REFUSED_ROW_UNSOUND),
            (REFUSED_ROW_SIZE, REFUSED_PLACE),
            (REFUSED_ROW_SIZE, REFUSED_CLOCK),
            (REFUSED_ROW_UNSOUND, REFUSED_PLACE),
            (REFUSED_ROW_UNSOUND, REFUSED_CLOCK),
            (REFUSED_PLACE, REFUSED_CLOCK),
        ],
    ),
    (
        "round",
        &[
            (REFUSED_ROW_SIZE, REFUSED_ROW_UNSOUND),
            (REFUSED_ROW_SIZE, REFUSED_LENT),
            (REFUSED_ROW_SIZE, REFUSED_NOTHING),
            (REFUSED_ROW_UNSOUND, REFUSED_LENT),
            (REFUSED_ROW_UNSOUND, REFUSED_NOTHING),
            (REFUSED_LENT, REFUSED_NOTHING),
        ],
    ),
];

/// How often each of these has to occur before a run counts: ten times for each turn of the random cases, once at least and
/// a hundred times at most; and how often each pair of refusals.
fn least(times: usize) -> u64 {
    (10 * times as u64).clamp(1, 100)
}
const LEAST_PAIRS: u64 = 10;

type Counts = BTreeMap<(&'static str, u32), u64>;

#[derive(Default)]
pub struct Tally {
    answers: Counts,
    carried: Counts,
    competed: BTreeMap<(&'static str, u32, u32), u64>,
}

fn print(counts: &Counts) {
    let mut call = "";
    for ((name, number), times) in counts {
        if *name != call {
            call = name;
            print!("\n  {call:<13}");
        }
        print!(" {number}: {times} ");
    }
    println!();
}

/// What occurred too seldom of what has to.
fn seldom(counts: &Counts, expected: &[(&'static str, &[&[u32]])], least: u64) -> Vec<String> {
    let one = |name: &'static str, number: u32| {
        let times = counts.get(&(name, number)).copied().unwrap_or(0);
        (times < least).then(|| format!("{name} was {number} only {times} times"))
    };
    let all = expected.iter();
    all.flat_map(|(name, numbers)| {
        numbers
            .concat()
            .into_iter()
            .filter_map(move |n| one(name, n))
    })
    .collect()
}

impl Tally {
    /// A call and the number of its answer.
    pub fn count(&mut self, call: &'static str, number: u32) {
        *self.answers.entry((call, number)).or_insert(0) += 1;
    }

    /// Something that an answer carried.
    pub fn note(&mut self, what: &'static str, number: u32) {
        *self.carried.entry((what, number)).or_insert(0) += 1;
    }

    /// A call to which two refusals applied, and was turned away with the first.
    pub fn compete(&mut self, call: &'static str, first: u32, other: u32) {
        *self.competed.entry((call, first, other)).or_insert(0) += 1;
    }

    pub fn total(&self) -> u64 {
        self.answers.values().sum()
    }

    pub fn print(&self) {
        print(&self.answers);
        print!("  what answers carried:");
        print(&self.carried);
        println!(
            "  pairs of refusals that competed on a row or a live reader: {}",
            self.competed.len()
        );
    }

    /// The answers of the documents that occurred too seldom for so many turns of the random cases.
    pub fn missing(&self, times: usize) -> Vec<String> {
        let mut found = seldom(&self.answers, &ANSWERS, least(times));
        found.extend(seldom(&self.carried, &CARRIED, least(times)));
        for (call, pairs) in COMPETING {
            for (first, other) in pairs {
                let times = self.competed.get(&(call, *first, *other));
                if times.copied().unwrap_or(0) < LEAST_PAIRS {
                    found.push(format!("{call}: {first} and {other} competed too seldom"));
                }
            }
        }
        found
    }
}
