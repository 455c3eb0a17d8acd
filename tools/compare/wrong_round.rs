//! A round with one rule altered. A rule of the line cannot be altered in an answer, so the round is played here again, bit
//! by bit; without an alteration it has to agree with the library like the second program itself.

use super::row::{forgiven, put_back, refused_first};
use super::Wrong;
use crate::check::{bits_of, with_check};
use crate::numbers::*;
use crate::other_row::{plain_round, turned_away, IDLE};
use crate::ours::{Clock, Round, Station, Verdict};

const WORDS: usize = 101;

/// A holder: the bits that it has to send, and the bit at which it lost, or 0.
struct Sender {
    place: usize,
    clock: Clock,
    bits: Vec<bool>,
    lost: usize,
}

impl Sender {
    /// Whether it has a say in bit k.
    fn drives(&self, wrong: Wrong, k: usize) -> bool {
        let byte = |bit: usize| (bit - 1) / 8;
        let sends_on = wrong == Wrong::LoserSendsItsByte && self.lost > 0;
        self.lost == 0 || (sends_on && byte(self.lost) == byte(k))
    }

    fn ended(&self, k: usize) -> bool {
        self.bits.len() < k
    }
}

fn width(clock: Clock, active: bool, bit: bool) -> u32 {
    if bit == active {
        clock.short
    } else {
        clock.long
    }
}

/// The longest of some widths where that is asked for, or else the shortest.
fn most(longest: bool, widths: impl Iterator<Item = u32>) -> u32 {
    let found = if longest { widths.max() } else { widths.min() };
    found.expect("somebody asks")
}

fn senders(wrong: Wrong, row: &[Station]) -> Vec<Sender> {
    let one = |(place, station): (usize, &Station)| {
        let stored = &station.bytes[..station.length as usize];
        let sent = if wrong == Wrong::CheckNotSent {
            stored.to_vec()
        } else {
            with_check(stored)
        };
        Sender {
            place,
            clock: station.clock,
            bits: bits_of(&sent),
            lost: 0,
        }
    };
    let holders = row.iter().enumerate().filter(|(_, s)| s.length > 0);
    holders.map(one).collect()
}

fn sof(wrong: Wrong, row: &[Station]) -> u32 {
    let shapes = |s: &&Station| s.length > 0 || wrong == Wrong::IdleShapesSof;
    let asked = row.iter().filter(shapes).map(|s| s.clock.sof);
    most(wrong != Wrong::SofShortest, asked)
}

/// How long bit k lasts; nothing where nobody who remains asks for it.
fn lasts(wrong: Wrong, row: &[Station], senders: &[Sender], k: usize) -> Option<u32> {
    let active = k % 2 == 0;
    let asks = |s: &Sender| s.bits.get(k - 1).map(|bit| width(s.clock, active, *bit));
    senders.iter().filter(|s| s.lost == 0).find_map(asks)?;
    let drivers = || senders.iter().filter(|s| s.drives(wrong, k));
    let asked = most(
        active != (wrong == Wrong::LongestAndShortestExchanged),
        drivers().filter_map(asks),
    );
    // Those who ask for the bit that came to stand on the line.
    let bit = (asked <= 96) == active;
    let same = drivers().filter(|s| s.bits.get(k - 1) == Some(&bit));
    let at_clock = |clock: Clock| width(clock, active, bit);
    let others: Vec<Clock> = match wrong {
        Wrong::IdleShapesBits => row
            .iter()
            .filter(|s| s.length == 0)
            .map(|s| s.clock)
            .collect(),
        Wrong::LosersShape => senders
            .iter()
            .filter(|s| s.lost > 0)
            .map(|s| s.clock)
            .collect(),
        Wrong::PassiveLongest if !active => return same.map(|s| at_clock(s.clock)).max(),
        Wrong::ActiveShortest if active => return same.map(|s| at_clock(s.clock)).min(),
        Wrong::FirstShapes => return same.map(|s| at_clock(s.clock)).next(),
        _ => Vec::new(),
    };
    let more = others.into_iter().map(at_clock);
    Some(most(active, more.chain([asked])))
}

/// Every bit of the round, and who stops where; answers the words of the bits.
fn contend(wrong: Wrong, row: &[Station], senders: &mut [Sender]) -> Vec<u32> {
    let mut words = Vec::new();
    for k in 1.. {
        if wrong == Wrong::ShorterAhead && senders.iter().any(|s| s.lost == 0 && s.ended(k)) {
            let longer = senders.iter_mut().filter(|s| s.lost == 0 && !s.ended(k));
            longer.for_each(|s| s.lost = k);
        }
        let width = match lasts(wrong, row, senders, k) {
            Some(width) => width,
            None => break,
        };
        words.push(width);
        let bit = (width <= 96) == (k % 2 == 0);
        for sender in senders.iter_mut().filter(|s| s.lost == 0) {
            let at = match wrong {
                Wrong::FinishedLosesAtLast if sender.ended(k) => k - 1,
                _ => k,
            };
            let through = wrong == Wrong::FinishedThrough && sender.ended(k);
            if sender.bits.get(k - 1) != Some(&bit) && !through {
                sender.lost = at;
            }
        }
    }
    words
}

fn verdict(wrong: Wrong, lost: usize) -> Verdict {
    let bit = match wrong {
        Wrong::LostAByteLate if lost > 0 => (lost + 7) / 8 * 8,
        Wrong::BitsFromZero if lost > 0 => lost - 1,
        _ => lost,
    };
    Verdict {
        fared: if lost == 0 { 1 } else { 2 },
        bit,
    }
}

/// A round that is not turned away.
fn play(wrong: Wrong, row: &mut [Station], lent: &mut [u32]) -> Round {
    let mut senders = senders(wrong, row);
    let bits = contend(wrong, row, &mut senders);
    let words = [&[300, sof(wrong, row)], bits.as_slice(), &[300]].concat();
    let mut verdicts = [IDLE; 32];
    let mut gone = false;
    for sender in &senders {
        verdicts[sender.place] = verdict(wrong, sender.lost);
        let station = &mut row[sender.place];
        if sender.lost == 0 && !(wrong == Wrong::OneOfEqual && gone) {
            gone = true;
            station.length = 0;
            if wrong == Wrong::ThroughClears {
                station.bytes.fill(0);
            }
        } else if wrong == Wrong::LosersEmptied {
            station.length = 0;
        }
    }
    if wrong == Wrong::EmptyThrough {
        let empty = verdicts.iter_mut().filter(|v| v.fared == 0);
        empty.for_each(|v| v.fared = 1);
    }
    lent[..words.len()].copy_from_slice(&words);
    if wrong == Wrong::RoundPastCleared && words.len() < lent.len() {
        lent[words.len()] = 0;
    }
    let total: u32 = words.iter().sum();
    Round {
        number: 0,
        line_time: match wrong {
            Wrong::ClosingCounted => total,
            Wrong::OpeningNotCounted => total - 600,
            _ => total - 300,
        },
        words: words.len(),
        verdicts,
    }
}

pub fn round(wrong: Wrong, row: &mut [Station], words: &mut [u32]) -> Round {
    if let Some(number) = refused_first(wrong, row) {
        return turned_away(number);
    }
    let before = forgiven(wrong, row);
    let mut after = before.clone();
    let right = plain_round(&mut after, &mut words.to_vec());
    let nobody = row.iter().all(|s| s.length == 0);
    match (wrong, right.number) {
        (_, 0) => {
            after = before.clone();
            let answer = play(wrong, &mut after, words);
            put_back(row, &before, &after);
            return answer;
        }
        (Wrong::RoundHundredEnough, REFUSED_LENT) if words.len() == 100 && !nobody => {
            let mut more = [0; WORDS];
            let answer = plain_round(row, &mut more);
            words.copy_from_slice(&more[..100]);
            return answer;
        }
        (Wrong::RoundWordsFirst, REFUSED_ROW_UNSOUND) if words.len() < WORDS => {
            return turned_away(REFUSED_LENT)
        }
        (Wrong::NobodyBeforeWords, REFUSED_LENT) if nobody => return turned_away(REFUSED_NOTHING),
        (Wrong::RefusedRoundWrites, REFUSED_LENT | REFUSED_ROW_UNSOUND) if !words.is_empty() => {
            words[0] = !words[0]
        }
        (Wrong::RefusedRoundEmpties, REFUSED_LENT) => row.iter_mut().for_each(|s| s.length = 0),
        _ => {}
    }
    right
}
