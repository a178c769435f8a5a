//! Journal line: every letter, with bookings and buffers of every sort.

use super::lent::Lent;
use super::{shown_answer, Comparison, Outcome};
use crate::calls;

/// Good bookings, their neighbours, and some that could be mistaken for good
/// ones when cut to fewer bits.
fn bookings() -> Vec<u32> {
    (0..=70).chain(255..=257).chain(65_535..=65_537).chain([u32::MAX]).collect()
}

impl Comparison<'_> {
    /// Writes a line with both versions over these bytes; gives what they wrote.
    pub fn journal_line(&mut self, letter: u8, booking: u32, buffer: &[u8]) -> Outcome<Vec<u8>> {
        let mut expected_line = buffer.to_vec();
        let expected = calls::journal_line(letter, booking, &mut expected_line);
        let mut lent = Lent::new(buffer);
        let answer = self.first.journal_line(letter, booking, lent.bytes_mut());
        self.tally.note("journal line", answer);
        if answer == expected && lent.bytes() == expected_line && lent.guards_are_whole() {
            return Ok(expected_line);
        }
        let shown = |answer, line: &[u8]| format!("{}, \"{}\"", shown_answer(answer), line.escape_ascii());
        Err(format!(
            "DIFFERENCE in {}\njournal line {} {booking}, {} bytes lent\nfirst version: {}\nsecond version: {}\n{}",
            self.part,
            letter.escape_ascii(),
            buffer.len(),
            shown(answer, lent.bytes()),
            shown(expected, &expected_line),
            if lent.guards_are_whole() { "" } else { "a byte that was not lent has changed\n" }
        ))
    }

    pub fn every_line(&mut self) -> Outcome {
        self.part = "every letter of a line".to_string();
        let buffer = b"\xF1\xF2\xF3\xF4\xF5\xF6\xF7\xF8";
        for letter in 0..=255 {
            for booking in bookings() {
                for length in 0..=buffer.len() {
                    self.journal_line(letter, booking, &buffer[..length])?;
                }
            }
        }
        Ok(())
    }
}
