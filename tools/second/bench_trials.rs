//! Trials of the bench, against the order in which messages go out, stated by itself.

use crate::bench::{load, round, set_clock, withdraw, Outcome, Station, Verdict, PLACES, STORE};
use crate::check::{bits_of, with_check};
use crate::reading::read;
use crate::self_test::{Chance, Tally, Trial};
use crate::symbol::{sent, Class, Clock, Level, NOMINAL};

/// The longest that the line can be busy with one round.
const BOUND: u32 = 14_438;

fn station(clock: Clock, message: &[u8]) -> Station {
    let mut bytes = [0xC3; STORE];
    bytes[..message.len()].copy_from_slice(message);
    let len = message.len();
    Station { clock, bytes, len }
}

fn sent_bits(station: &Station) -> Vec<bool> {
    bits_of(&with_check(&station.bytes[..station.len]))
}

/// The first place, from 0, at which two messages differ; a missing bit differs from any.
fn first_difference(x: &[bool], y: &[bool]) -> Option<usize> {
    (0..x.len().max(y.len())).find(|i| x.get(*i) != y.get(*i))
}

/// X is ahead of Y: where they first differ X has 0 and Y 1, or X has a bit and Y none.
fn ahead(x: &[bool], y: &[bool]) -> bool {
    match first_difference(x, y) {
        None => false,
        Some(i) => matches!(
            (x.get(i), y.get(i)),
            (Some(false), Some(true)) | (Some(_), None)
        ),
    }
}

/// The bits of the message that nobody waiting is ahead of.
fn foremost(row: &[Station]) -> Vec<bool> {
    let waiting: Vec<Vec<bool>> = row.iter().filter(|s| s.len > 0).map(sent_bits).collect();
    let unbeaten = |x: &&Vec<bool>| !waiting.iter().any(|y| ahead(y, x));
    waiting.iter().find(unbeaten).cloned().unwrap_or_default()
}

/// The words due: at each symbol, the shortest passive or longest active width asked for by
/// those whose bits so far are the winner's.
fn words_due(row: &[Station], winner: &[bool]) -> Vec<u32> {
    let holders: Vec<&Station> = row.iter().filter(|s| s.len > 0).collect();
    let mut words = vec![300];
    words.extend(holders.iter().map(|s| s.clock.sof).max());
    for k in 0..winner.len() {
        let level = Level::of_place(k);
        let asked = holders.iter().filter_map(|s| {
            let bits = sent_bits(s);
            let bit = *bits.get(k).filter(|_| bits[..k] == winner[..k])?;
            sent(s.clock, level, Class::of_bit(bit))
        });
        words.extend(match level {
            Level::Passive => asked.min(),
            Level::Active => asked.max(),
        });
    }
    words.push(300);
    words
}

fn verdicts_due(row: &[Station], winner: &[bool]) -> [Verdict; PLACES] {
    let mut due = [Verdict::Idle; PLACES];
    for (place, station) in row.iter().enumerate().filter(|(_, s)| s.len > 0) {
        due[place] = match first_difference(&sent_bits(station), winner) {
            None => Verdict::Through,
            Some(i) => Verdict::LostAt(i + 1),
        };
    }
    due
}

/// Runs one round and compares everything that it changes with what is due.
fn one_round(tally: &mut Tally, name: &str, row: &mut [Station]) -> Result<Outcome, String> {
    let winner = foremost(row);
    let due = words_due(row, &winner);
    let verdicts = verdicts_due(row, &winner);
    let mut after = row.to_vec();
    for (place, station) in after.iter_mut().enumerate() {
        if verdicts[place] == Verdict::Through {
            station.len = 0;
        }
    }
    let want = Outcome {
        verdicts,
        words: due.len(),
        line_time: due.iter().sum::<u32>() - 300,
    };
    let mut lent = [1; 103];
    let got = round(row, &mut lent);
    tally.same(name, got, Ok(want))?;
    tally.same(name, &lent[..due.len()], &due)?;
    tally.same(name, lent[due.len()..].iter().all(|w| *w == 1), true)?;
    tally.same(name, row, &mut after)?;
    tally.same(name, want.line_time <= BOUND, true)?;
    let mut bytes = [0; 12];
    let number = read(&lent[..due.len()], 0, &mut bytes).map(|answer| answer.number);
    tally.same(name, number, Ok(0))?;
    let count = winner.len() / 8;
    tally.same(name, bits_of(&bytes[..count]), winner)?;
    Ok(want)
}

/// Messages few enough to meet often, some of them another with its check byte after it.
fn message(chance: &mut Chance) -> Vec<u8> {
    let choice: [&[u8]; 6] = [
        &[0xFF],
        &[0x00],
        &[0xAA],
        &[0xA8],
        &[0xFF, 0x01],
        &[0xAA, 0x55],
    ];
    let mut message = match chance.between(0, 3) {
        0 => {
            let count = chance.between(1, STORE);
            chance.bytes(count)
        }
        _ => choice[chance.between(0, choice.len() - 1)].to_vec(),
    };
    for _ in 0..chance.between(0, 2) {
        message = with_check(&message);
    }
    message.truncate(STORE);
    message
}

fn random_row(chance: &mut Chance) -> Vec<Station> {
    let count = chance.between(1, PLACES);
    let one = |_| {
        let mut station = station(chance.clock(), &message(chance));
        if chance.between(0, 4) == 0 {
            station.len = 0;
        }
        station
    };
    (0..count).map(one).collect()
}

/// The round, from 1, in which a message goes out: one more than the messages ahead of it.
fn round_due(row: &[Station], own: &[bool]) -> usize {
    let waiting = row.iter().filter(|s| s.len > 0).map(sent_bits);
    let mut before: Vec<Vec<bool>> = waiting.filter(|y| ahead(y, own)).collect();
    before.sort();
    before.dedup();
    before.len() + 1
}

fn until_empty(tally: &mut Tally, name: &str, row: &mut [Station]) -> Trial {
    let first = row.to_vec();
    let mut number = 0;
    while row.iter().any(|s| s.len > 0) {
        number += 1;
        let outcome = one_round(tally, &format!("{name}, round {number}"), row)?;
        for (place, station) in first.iter().enumerate() {
            if outcome.verdicts[place] == Verdict::Through {
                let due = round_due(&first, &sent_bits(station));
                tally.same(&format!("{name}, place {place}"), number, due)?;
            }
        }
    }
    let nobody = round(row, &mut [0; 101]);
    tally.same(name, nobody, Err(42))
}

fn on_paper(tally: &mut Tally) -> Trial {
    let quick = Clock {
        short: 49,
        long: 112,
        sof: 182,
    };
    let mut row = [station(quick, &[0xFF]), station(NOMINAL, &[0xFF; 2])];
    let outcome = one_round(tally, "FF against FF FF", &mut row)?;
    tally.same("27 words", outcome.words, 27)?;
    tally.same("2,740", outcome.line_time, 2_740)?;
    tally.same("FF", outcome.verdicts[0], Verdict::LostAt(17))?;
    let mut row = [station(NOMINAL, &[0xFF]), station(NOMINAL, &[0x00])];
    let outcome = one_round(tally, "00 against FF", &mut row)?;
    tally.same("FF", outcome.verdicts[0], Verdict::LostAt(1))?;
    tally.same("00", outcome.verdicts[1], Verdict::Through)?;
    let messages: [&[u8]; 3] = [&[0x00], &[0xFF], &[0xFF, 0xFF]];
    let mut row = messages.map(|message| station(NOMINAL, message));
    let mut rounds = [0; 3];
    for number in 1..=3 {
        let outcome = one_round(tally, "three waiting", &mut row)?;
        for place in (0..3).filter(|i| outcome.verdicts[*i] == Verdict::Through) {
            rounds[place] = number;
        }
    }
    tally.same("rounds of 00, FF, FF FF", rounds, [1, 3, 2])
}

fn the_bound(tally: &mut Tally) -> Trial {
    let slow = Clock {
        short: 79,
        long: 145,
        sof: 218,
    };
    let longest = [0xAA; 12];
    let widths = bits_of(&longest).into_iter().enumerate();
    let asked = widths.map(|(k, bit)| sent(slow, Level::of_place(k), Class::of_bit(bit)));
    let sum: u32 = asked.flatten().sum();
    tally.same("300 + 218 + 96 x 145", 300 + slow.sof + sum, BOUND)?;
    let mut row = [station(slow, &longest[..11])];
    let outcome = one_round(tally, "eleven times AA", &mut row)?;
    tally.same("99 words", outcome.words, 99)
}

fn refused(tally: &mut Tally) -> Trial {
    let fine = station(NOMINAL, &[]);
    let bad = Clock {
        short: 48,
        ..NOMINAL
    };
    let over = Station { len: 12, ..fine };
    let slow = Station { clock: bad, ..fine };
    let full = station(NOMINAL, &[0x12, 0x34]);
    let one = [fine, full];
    let rows: [(&[Station], u32); 4] = [
        (&[], 38),
        (&[slow; 33], 38),
        (&[fine, over], 39),
        (&[full, slow], 39),
    ];
    for (row, number) in rows {
        let mut lent = row.to_vec();
        let want = Err(number);
        tally.same(&format!("load, {number}"), load(&mut lent, 99, &[]), want)?;
        tally.same(
            &format!("withdraw, {number}"),
            withdraw(&mut lent, 99),
            want,
        )?;
        tally.same(
            &format!("set clock, {number}"),
            set_clock(&mut lent, 0, NOMINAL),
            want,
        )?;
        let turned = round(&mut lent, &mut []).map(|_| ());
        tally.same(&format!("round, {number}"), turned, want)?;
        tally.same(&format!("row after {number}"), &lent[..], row)?;
    }
    let mut row = one;
    tally.same("40 by load", load(&mut row, 2, &[]), Err(40))?;
    tally.same("40 by withdraw", withdraw(&mut row, 2), Err(40))?;
    tally.same("40 by set clock", set_clock(&mut row, 2, bad), Err(40))?;
    tally.same("36 by set clock", set_clock(&mut row, 1, bad), Err(36))?;
    tally.same("37 empty", load(&mut row, 1, &[]), Err(37))?;
    tally.same("37 long", load(&mut row, 0, &[0; 12]), Err(37))?;
    tally.same("41", load(&mut row, 1, &[0]), Err(41))?;
    tally.same("42", withdraw(&mut row, 0), Err(42))?;
    tally.same("32", round(&mut row, &mut [0; 100]), Err(32))?;
    tally.same("32 first", round(&mut [fine], &mut [0; 100]), Err(32))?;
    tally.same("nothing changed", row, one)
}

fn taken(tally: &mut Tally) -> Trial {
    let mut row = [station(NOMINAL, &[]), station(NOMINAL, &[0x12, 0x34])];
    tally.same("load 3", load(&mut row, 0, &[1, 2, 3]), Ok(()))?;
    tally.same("loaded", row[0], station(NOMINAL, &[1, 2, 3]))?;
    tally.same("withdraw", withdraw(&mut row, 0), Ok(()))?;
    let emptied = Station {
        len: 0,
        ..station(NOMINAL, &[1, 2, 3])
    };
    tally.same("withdrawn", row[0], emptied)?;
    tally.same("load 11", load(&mut row, 0, &[7; 11]), Ok(()))?;
    tally.same("loaded", row[0], station(NOMINAL, &[7; 11]))?;
    let clock = Clock {
        long: 145,
        ..NOMINAL
    };
    tally.same("set clock", set_clock(&mut row, 1, clock), Ok(()))?;
    tally.same("set", row[1], station(clock, &[0x12, 0x34]))
}

/// All trials of the bench.
pub fn trials(tally: &mut Tally) -> Trial {
    on_paper(tally)?;
    the_bound(tally)?;
    refused(tally)?;
    taken(tally)?;
    let mut chance = Chance::new(3);
    for number in 0..150 {
        let mut row = random_row(&mut chance);
        until_empty(tally, &format!("row {number}"), &mut row)?;
    }
    Ok(())
}
