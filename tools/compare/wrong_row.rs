//! Loading, withdrawing and setting a clock with one rule altered.

use super::Wrong;
use crate::numbers::*;
use crate::other::second_clock;
use crate::other_row::{called, plain_load, plain_set_clock, plain_withdraw};
use crate::ours::{Called, Clock, Station};
use crate::symbol::good_clock;
use crate::writing_cases::NOMINAL;

fn unsound(station: &Station) -> bool {
    station.length > 11 || !good_clock(second_clock(station.clock))
}

/// A refusal that this variant gives to every call on such a row, in front of all others.
pub fn refused_first(wrong: Wrong, row: &[Station]) -> Option<u32> {
    let bad_size = row.is_empty() || row.len() > 32;
    match wrong {
        Wrong::RowOf32Refused if row.len() == 32 => Some(REFUSED_ROW_SIZE),
        Wrong::UnsoundBeforeSize if bad_size && row.iter().any(unsound) => {
            Some(REFUSED_ROW_UNSOUND)
        }
        _ => None,
    }
}

/// The row as this variant takes it to be while a call is made: less unsound than it is.
pub fn forgiven(wrong: Wrong, row: &[Station]) -> Vec<Station> {
    let mut taken = row.to_vec();
    for station in &mut taken {
        match wrong {
            Wrong::EmptyForgiven if station.length == 0 && unsound(station) => {
                station.clock = NOMINAL;
            }
            Wrong::TwelveSound if station.length == 12 => station.length = 11,
            _ => {}
        }
    }
    taken
}

/// Puts a row back that was forgiven: what the call changed is changed, the rest is as it was.
pub fn put_back(row: &mut [Station], before: &[Station], after: &[Station]) {
    for (station, (before, after)) in row.iter_mut().zip(before.iter().zip(after)) {
        if before.clock != after.clock {
            station.clock = after.clock;
        }
        if before.length != after.length {
            station.length = after.length;
        }
        station.bytes = after.bytes;
    }
}

/// A call at a place, with what is altered for all three of them alike; `offered` is the number that the offered value is
/// turned away with, or 0.
fn at_place(
    wrong: Wrong,
    row: &mut [Station],
    place: usize,
    offered: u32,
    call: &dyn Fn(&mut [Station], usize) -> Called,
) -> Called {
    if let Some(number) = refused_first(wrong, row) {
        return called(Err(number));
    }
    if wrong == Wrong::RowOf33Taken && row.len() == 33 {
        return call(&mut row[..32], place);
    }
    let before = forgiven(wrong, row);
    let mut after = before.clone();
    let place = match wrong {
        Wrong::PlacesFromOne if place > 0 => place - 1,
        _ => place,
    };
    let right = call(&mut after, place);
    match (wrong, right.number) {
        (Wrong::PlaceBeforeUnsound, REFUSED_ROW_UNSOUND) if place >= row.len() => {
            return called(Err(REFUSED_PLACE))
        }
        (Wrong::OfferedBeforePlace, REFUSED_PLACE) if offered > 0 => return called(Err(offered)),
        _ => put_back(row, &before, &after),
    }
    right
}

pub fn load(wrong: Wrong, row: &mut [Station], place: usize, message: &[u8]) -> Called {
    let bad = message.is_empty() || message.len() > 11;
    let offered = if bad { REFUSED_MESSAGE } else { DONE };
    let right = at_place(wrong, row, place, offered, &|row, place| {
        plain_load(row, place, message)
    });
    let station = match row.get_mut(place) {
        Some(station) => station,
        None => return right,
    };
    match (wrong, right.number) {
        (Wrong::HeldBeforeMessage, REFUSED_MESSAGE) if station.length > 0 => {
            return called(Err(REFUSED_HOLDS))
        }
        (Wrong::ElevenNotLoaded, DONE) if message.len() == 11 => {
            station.length = 0;
            return called(Err(REFUSED_MESSAGE));
        }
        (Wrong::LoadClearsRest, DONE) => station.bytes[message.len()..].fill(0),
        (Wrong::LoadedBackwards, DONE) => station.bytes[..message.len()].reverse(),
        (Wrong::LoadedOver, REFUSED_HOLDS) => {
            station.bytes[..message.len()].copy_from_slice(message);
            station.length = message.len() as u8;
            return called(Ok(()));
        }
        (Wrong::RefusedLoadStores, REFUSED_HOLDS) => station.bytes[0] = !station.bytes[0],
        _ => {}
    }
    right
}

pub fn withdraw(wrong: Wrong, row: &mut [Station], place: usize) -> Called {
    let right = at_place(wrong, row, place, 0, &|row, place| {
        plain_withdraw(row, place)
    });
    match (wrong, right.number) {
        (Wrong::WithdrawClears, DONE) => row[place].bytes.fill(0),
        (Wrong::NothingWithdrawn, REFUSED_NOTHING) => return called(Ok(())),
        _ => {}
    }
    right
}

pub fn set_clock(wrong: Wrong, row: &mut [Station], place: usize, clock: Clock) -> Called {
    let bad = !good_clock(second_clock(clock));
    let offered = if bad { REFUSED_CLOCK } else { DONE };
    let before = row.get(place).copied();
    let right = at_place(wrong, row, place, offered, &|row, place| {
        plain_set_clock(row, place, clock)
    });
    match (wrong, right.number, before) {
        (Wrong::HolderKeepsClock, DONE, Some(before)) if before.length > 0 => {
            row[place] = before;
            return called(Err(REFUSED_HOLDS));
        }
        (Wrong::SofNotSet, DONE, Some(before)) => row[place].clock.sof = before.clock.sof,
        (Wrong::ClockEmpties, DONE, _) => row[place].length = 0,
        _ => {}
    }
    right
}
