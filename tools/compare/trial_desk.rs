//! The desk's call put to both programs: the answers, every lent word and byte and the memory around them have to agree.

use crate::numbers::*;
use crate::other_row::{self, DESK_BYTES, DESK_WORDS};
use crate::ours::{self, Desk};
use crate::trial::{differ, told, Trial, AROUND};

/// The number of a word of the column `kind`.
fn kind_number(kind: &str) -> Option<u32> {
    match kind {
        "frame" => Some(FRAME),
        "quiet" => Some(QUIET),
        "unfinished" => Some(UNFINISHED),
        fault => fault.strip_prefix("fault-")?.parse().ok(),
    }
}

/// What the column `response` of a frame has: 0 none, 1 plain, 2 checked.
fn response_number(column: &str) -> u32 {
    match column.split_once(':') {
        Some(("p", _)) => 1,
        Some(("c", _)) => 2,
        _ => 0,
    }
}

/// The first bytes of a text, as they can be printed.
fn escaped(text: &[u8]) -> String {
    let first = text.escape_ascii().to_string();
    format!("{} bytes of {first:.1000}", text.len())
}

impl Trial {
    /// Counts the kinds of a report's lines, and the responses of its frames.
    fn note_lines(&mut self, report: &str) {
        for line in report.lines().skip(1) {
            let fields: Vec<&str> = line.split('\t').collect();
            let number = fields.get(3).and_then(|kind| kind_number(kind));
            if let Some(number) = number {
                self.tally.note("desk line", number);
            }
            if number == Some(FRAME) {
                self.tally.note("desk response", response_number(fields[5]));
            }
        }
    }

    pub fn desk_lent(&mut self, input: &[u8], words: usize, bytes: usize) -> (Desk, Vec<u8>) {
        let (before_words, before_bytes) = (self.words(words), self.bytes(bytes));
        let (mut my_words, mut their_words) = (before_words.clone(), before_words);
        let (mut my_bytes, mut their_bytes) = (before_bytes.clone(), before_bytes);
        let (w, b) = (AROUND..AROUND + words, AROUND..AROUND + bytes);
        let mine = ours::desk(input, &mut my_words[w.clone()], &mut my_bytes[b.clone()]);
        let lent = (&mut their_words[w], &mut their_bytes[b.clone()]);
        let theirs = other_row::desk(self.wrong, input, lent.0, lent.1);
        self.tally.count("desk", mine.number);
        if mine != theirs || my_words != their_words || my_bytes != their_bytes {
            let case = [
                ("input", escaped(input)),
                ("words", words.to_string()),
                ("bytes", bytes.to_string()),
            ];
            let found = [
                format!(
                    "{}; text: {}; {}",
                    told(&mine, &my_words, &their_words),
                    told(&(), &my_bytes, &their_bytes),
                    escaped(&my_bytes[b.clone()][..mine.length])
                ),
                format!(
                    "{}; text: {}; {}",
                    told(&theirs, &their_words, &my_words),
                    told(&(), &their_bytes, &my_bytes),
                    escaped(&their_bytes[b][..theirs.length])
                ),
            ];
            differ(self.seed, "desk", &case, found);
        }
        let text = my_bytes[b][..mine.length].to_vec();
        if mine.number == DONE {
            self.note_lines(&String::from_utf8_lossy(&text));
        }
        (mine, text)
    }

    /// The desk with as much lent as it asks for.
    pub fn desk(&mut self, input: &[u8]) -> (Desk, Vec<u8>) {
        self.desk_lent(input, DESK_WORDS, DESK_BYTES)
    }
}
