//! What document 01 says of every round, and of how long a message waits, watched over a history of calls on one row. It
//! goes by the messages that were loaded and by the answers alone, never by the row's memory.

use crate::check::{bits_of, with_check};
use crate::other::plain_read;
use crate::ours::{self, Round, Station};
use crate::tally::Tally;

/// The longest that the line can be busy with one round.
const BOUND: u32 = 14_438;

/// A message that waits: how many different ones were ahead of it when it was loaded, and what has come since.
#[derive(Clone)]
struct Waiting {
    bytes: Vec<u8>,
    ahead: usize,
    loadings: usize,
    rounds: usize,
    disturbed: bool,
}

/// The messages that wait in a row, place by place.
#[derive(Clone)]
pub struct Watch(Vec<Option<Waiting>>);

/// The first place, from 0, at which two messages' bits differ; a missing bit differs from any.
fn first_difference(x: &[bool], y: &[bool]) -> Option<usize> {
    (0..x.len().max(y.len())).find(|i| x.get(*i) != y.get(*i))
}

/// X is ahead of Y: where their bits first differ X has 0 and Y has 1, or X still has a bit and Y has none.
fn ahead(x: &[u8], y: &[u8]) -> bool {
    let (x, y) = (bits_of(x), bits_of(y));
    first_difference(&x, &y).map_or(false, |i| match (x.get(i), y.get(i)) {
        (Some(mine), Some(theirs)) => !mine && *theirs,
        (mine, _) => mine.is_some(),
    })
}

impl Watch {
    /// A row as a history finds it: what it holds counts as loaded there and then.
    pub fn over(row: &[Station]) -> Watch {
        let mut watch = Watch(vec![None; row.len()]);
        for (place, station) in row.iter().enumerate().filter(|(_, s)| s.length > 0) {
            watch.put(place, &station.bytes[..station.length as usize]);
        }
        let found = watch.clone();
        for waiting in watch.0.iter_mut().flatten() {
            *waiting = found.loaded_now(&waiting.bytes);
        }
        watch
    }

    /// A message, its check byte after it, with the number of different ones that are ahead of it now.
    fn loaded_now(&self, sent: &[u8]) -> Waiting {
        let all = self.0.iter().flatten().map(|waiting| &waiting.bytes);
        let mut before: Vec<&Vec<u8>> = all.filter(|other| ahead(other, sent)).collect();
        before.sort();
        before.dedup();
        Waiting {
            bytes: sent.to_vec(),
            ahead: before.len(),
            loadings: 0,
            rounds: 0,
            disturbed: false,
        }
    }

    fn put(&mut self, place: usize, message: &[u8]) {
        self.0[place] = Some(self.loaded_now(&with_check(message)));
    }

    /// A loading that was accepted.
    pub fn loaded(&mut self, place: usize, message: &[u8]) {
        let sent = with_check(message);
        for waiting in self.0.iter_mut().flatten() {
            waiting.disturbed = true;
            waiting.loadings += usize::from(ahead(&sent, &waiting.bytes));
        }
        self.put(place, message);
    }

    /// A withdrawal that was accepted.
    pub fn withdrawn(&mut self, place: usize) {
        self.0[place] = None;
        for waiting in self.0.iter_mut().flatten() {
            waiting.disturbed = true;
        }
    }

    /// A round that was not turned away: one message gets through, whole and readable; each other loses where it first
    /// differs from that one; and nobody waits longer than they may. Counts those that went out: at once and later with
    /// nothing loaded or withdrawn since, which is in exactly round A + 1, or else by round 1 + A + L.
    pub fn played(&mut self, tally: &mut Tally, answer: &Round, words: &[u32]) {
        if let Err(why) = self.judge(answer, words) {
            println!("compare: document 01 is broken by a round: {why}");
            println!("  {answer:?}\n  words {:?}", &words[..answer.words]);
            std::process::exit(1);
        }
        for (place, verdict) in self.0.iter_mut().zip(answer.verdicts) {
            let out = if verdict.fared == 1 {
                place.take()
            } else {
                None
            };
            if let Some(waiting) = out {
                let kind = match (waiting.disturbed, waiting.ahead) {
                    (false, 0) => 0,
                    (false, _) => 1,
                    (true, _) => 2,
                };
                tally.note("went out", kind);
            }
        }
    }

    fn judge(&mut self, answer: &Round, words: &[u32]) -> Result<(), String> {
        let through = (0..self.0.len()).find(|i| answer.verdicts[*i].fared == 1);
        let winner = through.and_then(|i| self.0[i].as_ref());
        let winner = winner.map(|waiting| waiting.bytes.clone());
        let winner = winner.ok_or("nothing that waits gets through")?;
        on_the_line(&winner, answer, words)?;
        for (place, verdict) in answer.verdicts.iter().enumerate() {
            let due = match self.0.get(place) {
                Some(Some(waiting)) => {
                    match first_difference(&bits_of(&waiting.bytes), &bits_of(&winner)) {
                        None => (1, 0),
                        Some(i) => (2, i + 1),
                    }
                }
                _ => (0, 0),
            };
            if (verdict.fared, verdict.bit) != due {
                return Err(format!("place {place} is due {due:?}"));
            }
        }
        for (place, waiting) in self.0.iter_mut().enumerate() {
            if let Some(waiting) = waiting {
                waiting.rounds += 1;
                waiting.in_time(answer.verdicts[place].fared == 1, place)?;
            }
        }
        Ok(())
    }
}

impl Waiting {
    /// Out by round 1 + A + L, and in exactly round A + 1 where nothing was loaded or withdrawn since.
    fn in_time(&self, out: bool, place: usize) -> Result<(), String> {
        let latest = 1 + self.ahead + self.loadings;
        let late = self.rounds > latest || (!out && self.rounds == latest);
        let early = out && !self.disturbed && self.rounds != 1 + self.ahead;
        if late || early {
            let (a, l, rounds) = (self.ahead, self.loadings, self.rounds);
            let when = if out { "goes out" } else { "still waits" };
            return Err(format!(
                "place {place} {when} in round {rounds} with A {a} and L {l}"
            ));
        }
        Ok(())
    }
}

/// Both readers find exactly the winner's bytes in the words, and the line time is their sum but for the closing 300.
fn on_the_line(winner: &[u8], answer: &Round, words: &[u32]) -> Result<(), String> {
    let words = &words[..answer.words];
    let (mut bytes, mut again) = ([0; 12], [0; 12]);
    let by_second = plain_read(words, 0, &mut bytes);
    let by_ours = ours::read(words, 0, &mut again);
    for (read, bytes) in [(by_second, bytes), (by_ours, again)] {
        let whole = (read.number, read.kind, read.opening, read.next) == (0, 0, 0, words.len() - 1);
        let parts = (read.main, read.response) == (winner.len(), 0);
        if !whole || !parts || &bytes[..winner.len()] != winner {
            return Err(format!("its words are read as {read:?}, {bytes:?}"));
        }
    }
    let (closing, before) = words.split_last().expect("a frame has words");
    let sum: u32 = before.iter().sum();
    if *closing != 300 || answer.line_time != sum || sum > BOUND {
        return Err(format!("the line time is {sum}, the closing end {closing}"));
    }
    Ok(())
}
