//! Damages to one line of a journal or a block whose lines are all right.

use crate::generate;
use crate::journal::{self, LETTERS, LINE_LENGTH};

/// Some lines, from one on, are replaced by other bytes.
pub struct Damage {
    pub name: &'static str,
    /// So many lines before it stay as they are.
    pub before: usize,
    taken: usize,
    put: Vec<u8>,
    /// The line, counted from 1, that is wrong after it, if that is sure.
    pub wrong: Option<usize>,
}

impl Damage {
    /// The journal or block with this damage.
    pub fn of(&self, journal: &[u8]) -> Vec<u8> {
        let (front, rest) = journal.split_at(self.before * LINE_LENGTH);
        [front, &self.put, &rest[self.taken * LINE_LENGTH..]].concat()
    }
}

/// The line that gets damaged.
struct Line<'a> {
    /// So many lines stand before it.
    before: usize,
    text: &'a [u8],
    letter: u8,
    booking: usize,
}

impl Line<'_> {
    fn replaced(&self, name: &'static str, put: Vec<u8>) -> Damage {
        Damage { name, before: self.before, taken: 1, put, wrong: None }
    }

    /// Replaced by a line that can't be right here.
    fn wronged(&self, name: &'static str, put: Vec<u8>) -> Damage {
        Damage { wrong: Some(self.before + 1), ..self.replaced(name, put) }
    }

    fn is_order(&self) -> bool {
        b"QU".contains(&self.letter)
    }

    /// Each byte changed, to all others or to those that could be mistaken.
    fn bytes(&self, to_all: bool) -> Vec<Damage> {
        let mut damages = Vec::new();
        for at in 0..LINE_LENGTH {
            let others = if to_all { (0..=255).collect() } else { generate::damages(self.text[at]) };
            for value in others.into_iter().filter(|&value| value != self.text[at]) {
                let mut put = self.text.to_vec();
                put[at] = value;
                damages.push(self.replaced("a byte changed", put));
            }
        }
        damages
    }

    /// Where an order is due, no line with its booking and another letter is right.
    fn letters(&self) -> Vec<Damage> {
        let mut damages = Vec::new();
        for &letter in LETTERS.iter().filter(|&&letter| letter != self.letter) {
            let put = journal::write_line(letter, self.booking);
            damages.push(match self.is_order() {
                true => self.wronged("another letter", put),
                false => self.replaced("another letter", put),
            });
        }
        for letter in *b"WEOX" {
            damages.push(self.wronged("a letter W, E, O or X", journal::write_line(letter, self.booking)));
        }
        for letter in *b"quyngkweox" {
            damages.push(self.wronged("a small letter", journal::write_line(letter, self.booking)));
        }
        damages
    }

    /// Every booking of the plan and some that it has not.
    fn bookings(&self, n: usize) -> Vec<Damage> {
        let all = (0..=n + 1).chain([64, 65, 66, 128 + self.booking, 256 + self.booking, 9999]);
        let others = all.filter(|&booking| booking != self.booking);
        let damage = |booking| {
            let put = journal::write_line(self.letter, booking);
            match self.is_order() || !(1..=n).contains(&booking) {
                true => self.wronged("another booking", put),
                false => self.replaced("another booking", put),
            }
        };
        others.map(damage).collect()
    }

    fn with_columns(&self, name: &'static str, columns: &str) -> Option<Damage> {
        let put = [&[self.letter], columns.as_bytes(), b"\n"].concat();
        (put != self.text).then(|| self.wronged(name, put))
    }

    fn numbers(&self) -> Vec<Damage> {
        let b = self.booking;
        let zeros = [format!("{b:04}"), format!(" {b:03}"), format!("  {b:02}")];
        let split = format!(" {} {}", b / 10, b % 10);
        let blanks = [format!("{b:<4}"), format!("{b:3} "), format!("{b:<3} "), format!(" {b:<3}"), split];
        let others = [" 1 1", "1  1", "1 1 ", "  +1", "  -1", "\t  1", " 0 1", "   \n", "  1\n"];
        let zeros = zeros.iter().filter_map(|columns| self.with_columns("a leading zero", columns));
        let blanks = blanks.iter().filter_map(|columns| self.with_columns("a number with a blank", columns));
        let others = others.iter().filter_map(|columns| self.with_columns("no number", columns));
        let blank = self.with_columns("a blank for the number", "    ");
        zeros.chain(blanks).chain(others).chain(blank).collect()
    }

    /// A byte too few or too many: all that follows stands beside its columns.
    fn shifted(&self) -> Vec<Damage> {
        let mut damages = Vec::new();
        for at in 0..LINE_LENGTH {
            let (front, rest) = self.text.split_at(at);
            damages.push(self.replaced("a byte missing", [front, &rest[1..]].concat()));
            damages.push(self.replaced("a byte too many", [front, b" ", rest].concat()));
            damages.push(self.replaced("a byte too many", [front, b"\n", rest].concat()));
        }
        damages
    }
}

/// A line doubled, dropped, or changed for its neighbour. Once an order was
/// given or a reply taken, the same is not due again at once.
fn moved(journal: &[u8], line: &Line) -> Vec<Damage> {
    let doubled = line.replaced("a line doubled", line.text.repeat(2));
    let doubled = Damage { wrong: Some(line.before + 2), ..doubled };
    let mut damages = vec![doubled, line.replaced("a line dropped", Vec::new())];
    let after = &journal[(line.before + 1) * LINE_LENGTH..];
    if after.len() >= LINE_LENGTH {
        let put = [&after[..LINE_LENGTH], line.text].concat();
        damages.push(Damage { taken: 2, ..line.replaced("a line swapped with the next", put) });
    }
    damages
}

/// All damages to the line after so many lines, in groups; n bookings stand on
/// the sheet.
pub fn damages(journal: &[u8], before: usize, n: usize, to_all: bool) -> [Vec<Damage>; 6] {
    let text = &journal[before * LINE_LENGTH..(before + 1) * LINE_LENGTH];
    let (letter, booking) = journal::read_line(text).expect("a right line");
    let line = Line { before, text, letter, booking };
    let moved = moved(journal, &line);
    [line.bytes(to_all), line.letters(), line.bookings(n), line.numbers(), line.shifted(), moved]
}
