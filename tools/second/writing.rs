//! Writing a frame as intervals.

use crate::check::{bits_of, with_check};
use crate::reading::{Kind, MOST_BYTES};
use crate::symbol::{good_clock, sent, Class, Clock, Level};

/// The words a caller lends for one frame, however short it is.
pub const WORDS: usize = 101;

/// A message to be written: the bytes of both parts, without checks, and the response kind.
#[derive(Clone, Copy, Debug)]
pub struct Message<'a> {
    pub main: &'a [u8],
    pub kind: Kind,
    pub response: &'a [u8],
}

impl Message<'_> {
    /// The main bytes as sent, their check last.
    fn main_part(&self) -> Vec<u8> {
        with_check(self.main)
    }

    /// The response bytes as sent; none where no response is asked for.
    fn response_part(&self) -> Vec<u8> {
        match self.kind {
            Kind::None => Vec::new(),
            Kind::Plain => self.response.to_vec(),
            Kind::Checked => with_check(self.response),
        }
    }

    /// Whether both parts have bytes where they must and fit into one frame.
    fn fits(&self) -> bool {
        let asked = self.kind != Kind::None;
        let total = self.main_part().len() + self.response_part().len();
        !self.main.is_empty() && !(asked && self.response.is_empty()) && total <= MOST_BYTES
    }
}

fn bit_classes(bytes: &[u8]) -> impl Iterator<Item = Class> {
    bits_of(bytes).into_iter().map(Class::of_bit)
}

/// The symbols of a frame from opening to closing; the levels follow from their places.
fn symbols(message: Message) -> Vec<Class> {
    let normalization = match message.kind {
        Kind::None => None,
        Kind::Plain => Some(Class::Bit1),
        Kind::Checked => Some(Class::Bit0),
    };
    let mut line = vec![Class::Ifs, Class::Sof];
    line.extend(bit_classes(&message.main_part()));
    if let Some(bit) = normalization {
        line.extend([Class::Eod, bit]);
        line.extend(bit_classes(&message.response_part()));
    }
    line.push(Class::Ifs);
    line
}

/// Writes a frame into the lent words; answers the number of words written or a refusal.
pub fn write(clock: Clock, message: Message, lent: &mut [u32]) -> Result<usize, u32> {
    if !good_clock(clock) {
        return Err(36);
    }
    if !message.fits() {
        return Err(37);
    }
    if lent.len() < WORDS {
        return Err(32);
    }
    let line = symbols(message);
    for (place, class) in line.iter().enumerate() {
        let width = sent(clock, Level::of_place(place), *class);
        lent[place] = width.expect("every symbol of a frame is one that is sent");
    }
    Ok(line.len())
}
