//! Trials of live reading: however the intervals come, it answers what reading all of them does.

use crate::frame_trials::fault_cases;
use crate::live::{Asked, Frame, Heard, Live};
use crate::reading::{read, Kind, MOST_BYTES};
use crate::self_test::{Chance, Tally, Trial};
use crate::writing::{write, Message, WORDS};
use std::collections::BTreeSet;

/// What the lent bytes hold before a call.
const UNWRITTEN: u8 = 0xEE;

/// Lent bytes, one more than are asked for.
type Lent = [u8; MOST_BYTES + 1];

const UNTOUCHED: Lent = [UNWRITTEN; MOST_BYTES + 1];

/// Widths of every class, at both levels.
const WIDTHS: [u32; 12] = [
    0, 34, 64, 96, 97, 128, 200, 239, 240, 300, 999_999, 1_000_000,
];

/// The answers that reading a whole recording gives one after the other, each as a live reader that
/// began at a place would tell it, with the lent bytes; and how reading ends.
fn whole(recording: &[u32], began: u64) -> (Vec<(Heard, Lent)>, Asked) {
    let mut answers = Vec::new();
    let mut p = 0;
    loop {
        let mut lent = UNTOUCHED;
        let answer = read(recording, p, &mut lent).expect("a position and lent bytes that will do");
        let place = |index: usize| began + index as u64;
        match answer.number {
            1 => return (answers, Asked::Quiet { next: place(p) }),
            2 => {
                let opening = place(answer.next);
                return (answers, Asked::Unfinished { opening });
            }
            number => {
                let frame = answer.frame.map(|frame| Frame {
                    opening: place(frame.opening),
                    main: frame.main,
                    response: frame.response,
                    kind: frame.kind,
                });
                let next = place(answer.next);
                let heard = Heard {
                    number,
                    next,
                    frame,
                };
                answers.push((heard, lent));
            }
        }
        p = answer.next;
    }
}

/// The live reader lent bytes that will not do: it is refused and stays as it is.
fn refused(tally: &mut Tally, name: &str, live: &mut Live, width: u32, number: u32) -> Trial {
    let before = live.clone();
    for length in 0..MOST_BYTES {
        let mut lent = vec![UNWRITTEN; length];
        tally.same(name, live.hear(width, &mut lent), Err(number))?;
        tally.same(name, lent, vec![UNWRITTEN; length])?;
    }
    tally.same(name, &*live, &before)
}

/// A recording heard in deliveries, each of them a reader handed over and some intervals: the answers
/// are those of the whole, each told at the interval that decides it, and after each interval
/// asking tells how reading those heard so far ends.
fn delivered(
    tally: &mut Tally,
    recording: &[u32],
    began: u64,
    chance: &mut Chance,
) -> Result<BTreeSet<u32>, String> {
    let name = format!("hearing {recording:?} from {began}");
    let (wanted, ending) = whole(recording, began);
    let mut handed = Live::resumed(began, began);
    tally.same(&name, handed.ask(), Asked::Quiet { next: began })?;
    let mut told = Vec::new();
    let mut place = 0;
    while place < recording.len() {
        let mut live = handed.clone();
        let mut lent = UNTOUCHED;
        let past = chance.between(place + 1, recording.len().min(place + 40));
        for heard in place..past {
            if chance.between(0, 15) == 0 {
                refused(tally, &name, &mut live, recording[heard], 32)?;
            }
            let answer = live.hear(recording[heard], &mut lent);
            match answer {
                Ok(Some(answer)) => {
                    tally.same(&name, answer.next, began + heard as u64)?;
                    told.push((answer, std::mem::replace(&mut lent, UNTOUCHED)));
                }
                _ => tally.same(&name, answer, Ok(None))?,
            }
            tally.same(&name, lent, UNTOUCHED)?;
            let before = live.clone();
            let asked = live.ask();
            tally.same(&name, &live, &before)?;
            tally.same(&name, asked, whole(&recording[..=heard], began).1)?;
        }
        handed = live;
        place = past;
    }
    tally.same(&name, handed.ask(), ending)?;
    tally.same(&name, &told, &wanted)?;
    Ok(told.iter().map(|(answer, _)| answer.number).collect())
}

/// A frame of some message, or some intervals of any width.
fn some_intervals(chance: &mut Chance) -> Vec<u32> {
    if chance.between(0, 5) == 0 {
        let count = chance.between(0, 6);
        return (0..count).map(|_| WIDTHS[chance.between(0, 11)]).collect();
    }
    let kind = [Kind::None, Kind::Plain, Kind::Checked][chance.between(0, 2)];
    let (main, response) = (chance.between(1, 7), chance.between(1, 3));
    let (main, response) = (&chance.bytes(main)[..], &chance.bytes(response)[..]);
    let message = Message {
        main,
        kind,
        response,
    };
    let mut words = [0; WORDS];
    let count = write(chance.clock(), message, &mut words).unwrap_or(0);
    // Now and then its closing end opens what follows.
    words[..count - chance.between(0, 1)].to_vec()
}

fn some_recording(chance: &mut Chance) -> Vec<u32> {
    let mut recording = Vec::new();
    for _ in 0..chance.between(1, 2) {
        recording.extend(some_intervals(chance));
    }
    for _ in 0..chance.between(0, 3) {
        if !recording.is_empty() {
            let place = chance.between(0, recording.len() - 1);
            recording[place] = WIDTHS[chance.between(0, 11)];
        }
    }
    recording
}

/// The places from which recordings are heard: the first, and others that 32 bits cannot count.
const BEGINNINGS: [u64; 4] = [0, 1 << 32, (1 << 32) - 20, 1 << 63];

/// The last places there are: an interval at the last of them is heard, and none after it.
fn last_places(tally: &mut Tally, recording: &[u32]) -> Trial {
    for left in (2..=recording.len() as u64 + 2).step_by(2) {
        let began = u64::MAX - (left - 1);
        let name = format!("hearing {recording:?} with {left} places left");
        let heard = &recording[..recording.len().min(left as usize)];
        let mut live = Live::resumed(began, began);
        let mut answers = Vec::new();
        for width in heard {
            let mut lent = UNTOUCHED;
            if let Some(answer) = live
                .hear(*width, &mut lent)
                .map_err(|n| format!("{name}: {n}"))?
            {
                answers.push((answer, lent));
            }
        }
        let ending = live.ask();
        tally.same(
            &name,
            (&answers, ending),
            (&whole(heard, began).0, whole(heard, began).1),
        )?;
        if heard.len() as u64 == left {
            refused(tally, &name, &mut live, 300, 51)?;
            tally.same(&name, live.hear(300, &mut UNTOUCHED.clone()), Err(51))?;
            tally.same(&name, live.ask(), ending)?;
        }
    }
    Ok(())
}

/// All trials of live reading.
pub fn trials(tally: &mut Tally) -> Trial {
    let mut chance = Chance::new(5);
    let mut numbers = BTreeSet::new();
    for (recording, _, _) in fault_cases() {
        for began in BEGINNINGS {
            numbers.extend(delivered(tally, &recording, began, &mut chance)?);
        }
        last_places(tally, &recording)?;
    }
    for turn in 0..2_000 {
        let recording = some_recording(&mut chance);
        let began = BEGINNINGS[turn % BEGINNINGS.len()];
        numbers.extend(delivered(tally, &recording, began, &mut chance)?);
    }
    let every: BTreeSet<u32> = [0].into_iter().chain(11..=20).collect();
    tally.same("every answer was heard", numbers, every)?;
    tally.same("a start", Live::start(), Live::resumed(0, 0))
}
