//! The bench on which stations contend, its round played one microsecond at a time.

use crate::check::{bits_of, with_check};
use crate::symbol::{classify, good_clock, sent, Class, Clock, Level, REST};
use crate::volts::stretches;
use crate::writing::WORDS;

/// The most stations in a row, and the number of places of which a round tells.
pub const PLACES: usize = 32;

/// The most message bytes that a station stores.
pub const STORE: usize = 11;

/// A station: its clock and its stored message, of which length 0 means empty.
#[derive(Clone, Copy, PartialEq, Eq, Debug)]
pub struct Station {
    pub clock: Clock,
    pub bytes: [u8; STORE],
    pub len: usize,
}

/// What became of one place in a round; bits are counted from 1 after the SOF.
#[derive(Clone, Copy, PartialEq, Eq, Debug)]
pub enum Verdict {
    Idle,
    Through,
    LostAt(usize),
}

/// What a round answers: verdicts for 32 places, words written, and the line time.
#[derive(Clone, Copy, PartialEq, Eq, Debug)]
pub struct Outcome {
    pub verdicts: [Verdict; PLACES],
    pub words: usize,
    pub line_time: u32,
}

fn row_refusal(row: &[Station]) -> Option<u32> {
    let bad = |station: &Station| station.len > STORE || !good_clock(station.clock);
    if row.is_empty() || row.len() > PLACES {
        Some(38)
    } else if row.iter().any(bad) {
        Some(39)
    } else {
        None
    }
}

/// The row's and the place's refusals, in which all calls on one station agree.
fn station_at(row: &mut [Station], place: usize) -> Result<&mut Station, u32> {
    match row_refusal(row) {
        Some(number) => Err(number),
        None => row.get_mut(place).ok_or(40),
    }
}

/// Loads a message into an empty station; its bytes stand first, its number is the length.
pub fn load(row: &mut [Station], place: usize, message: &[u8]) -> Result<(), u32> {
    let station = station_at(row, place)?;
    if message.is_empty() || message.len() > STORE {
        return Err(37);
    }
    if station.len != 0 {
        return Err(41);
    }
    station.bytes[..message.len()].copy_from_slice(message);
    station.len = message.len();
    Ok(())
}

/// Withdraws the message that a station holds.
pub fn withdraw(row: &mut [Station], place: usize) -> Result<(), u32> {
    let station = station_at(row, place)?;
    if station.len == 0 {
        return Err(42);
    }
    station.len = 0;
    Ok(())
}

/// Gives a station another clock.
pub fn set_clock(row: &mut [Station], place: usize, clock: Clock) -> Result<(), u32> {
    let station = station_at(row, place)?;
    if !good_clock(clock) {
        return Err(36);
    }
    station.clock = clock;
    Ok(())
}

/// A holder that remains in the round. Symbol 0 is the SOF, symbol k its bit k.
struct Talker {
    place: usize,
    clock: Clock,
    bits: Vec<bool>,
}

impl Talker {
    fn new(place: usize, station: &Station) -> Talker {
        let stored = &station.bytes[..station.len];
        Talker {
            place,
            clock: station.clock,
            bits: bits_of(&with_check(stored)),
        }
    }

    /// The symbol it sends; nothing once its check byte is out.
    fn symbol(&self, number: usize) -> Option<Class> {
        match number {
            0 => Some(Class::Sof),
            k => self.bits.get(k - 1).map(|bit| Class::of_bit(*bit)),
        }
    }

    /// The level it drives, this long after the line's last edge. It holds its symbol's level
    /// for the width it asks for and then turns; one that asks for nothing leaves the line alone.
    fn drives(&self, number: usize, level: Level, since: u32) -> Level {
        let asks = |class| sent(self.clock, level, class);
        match self.symbol(number).and_then(asks) {
            None => Level::Passive,
            Some(width) if since < width => level,
            Some(_) => level.other(),
        }
    }
}

/// The line as it stands, and what it was at every microsecond so far.
struct Line {
    level: Level,
    since: u32,
    symbol: usize,
    record: Vec<Level>,
}

impl Line {
    /// The opening is over and the SOF begins.
    fn at_sof() -> Line {
        Line {
            level: Level::Active,
            since: 0,
            symbol: 0,
            record: vec![Level::Passive; REST as usize],
        }
    }

    /// The level of the next microsecond: active if any remaining station drives it so.
    fn driven(&self, talkers: &[Talker]) -> Level {
        let active = |t: &Talker| t.drives(self.symbol, self.level, self.since) == Level::Active;
        if talkers.iter().any(active) {
            Level::Active
        } else {
            Level::Passive
        }
    }

    /// At an edge every remaining station compares its symbol with the one that just ended.
    /// Those that differ stop and lose there; the others all begin the next one now.
    fn edge(&mut self, talkers: &mut Vec<Talker>, verdicts: &mut [Verdict; PLACES]) {
        let seen = classify(self.level, self.since);
        for loser in talkers
            .iter()
            .filter(|t| t.symbol(self.symbol) != Some(seen))
        {
            verdicts[loser.place] = Verdict::LostAt(self.symbol);
        }
        talkers.retain(|t| verdicts[t.place] == Verdict::Idle);
        self.level = self.level.other();
        self.since = 0;
        self.symbol += 1;
    }

    fn microsecond(&mut self, talkers: &mut Vec<Talker>, verdicts: &mut [Verdict; PLACES]) {
        if self.driven(talkers) != self.level {
            self.edge(talkers, verdicts);
        }
        self.record.push(self.level);
        self.since += 1;
    }

    /// The line has been passive for a closing's width, which it is only once nobody asks.
    fn closed(&self) -> bool {
        self.level == Level::Passive && self.since == REST
    }
}

/// Runs a round, writing the line's intervals into the lent words; those through become empty.
pub fn round(row: &mut [Station], lent: &mut [u32]) -> Result<Outcome, u32> {
    if let Some(number) = row_refusal(row) {
        return Err(number);
    }
    if lent.len() < WORDS {
        return Err(32);
    }
    let holders = row.iter().enumerate().filter(|(_, s)| s.len > 0);
    let mut talkers: Vec<Talker> = holders.map(|(i, s)| Talker::new(i, s)).collect();
    if talkers.is_empty() {
        return Err(42);
    }
    let mut verdicts = [Verdict::Idle; PLACES];
    let mut line = Line::at_sof();
    while !line.closed() {
        line.microsecond(&mut talkers, &mut verdicts);
    }
    for talker in &talkers {
        verdicts[talker.place] = Verdict::Through;
        row[talker.place].len = 0;
    }
    let words = stretches(&line.record);
    lent[..words.len()].copy_from_slice(&words);
    Ok(Outcome {
        verdicts,
        words: words.len(),
        line_time: line.record.len() as u32 - REST,
    })
}
