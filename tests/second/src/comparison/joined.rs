//! What can be said of a joined sheet by the lines of the two sheets and the same version's check.

use super::lent::Lent;
use super::partner::field;
use crate::calls::{kind_of, pack, place_of, refusal_of, ACCEPTED, REFUSED};
use crate::join::Joinable;
use crate::plan::{number_in_columns, MOST_BOOKINGS, MOST_LINKS, MOST_WAYS};
use std::ops::Range;

pub const TOO_LARGE: u32 = 17;

/// Bytes of a head, of a booking's line, of a link's, and of a way's that has no booking.
pub const HEAD: usize = 18;
const BOOKING: usize = 12;
const LINK: usize = 10;
const WAY: usize = 6;

/// A sheet to be joined, what the version's own check says of it, and what the second version makes of it.
pub struct Part {
    pub sheet: Lent,
    pub checked: u32,
    pub plan: Joinable,
}

impl Part {
    pub fn bytes(&self) -> &[u8] {
        self.sheet.bytes()
    }

    /// Check refuses it with one of 1 to 7; 8 does not count.
    pub fn is_refused(&self) -> bool {
        (1..=7).contains(&refusal_of(self.checked))
    }

    pub fn has_8(&self) -> bool {
        refusal_of(self.checked) == 8
    }
}

/// What a version answered, and what stands in the buffer then.
#[derive(PartialEq)]
pub struct Joined {
    pub answer: u32,
    pub buffer: Vec<u8>,
}

impl Joined {
    pub fn is_written(&self) -> bool {
        kind_of(self.answer) == ACCEPTED
    }

    /// The joined sheet, of a joining that was compared.
    pub fn text(&self) -> &[u8] {
        let length = if self.is_written() { place_of(self.answer) as usize } else { 0 };
        &self.buffer[..length]
    }
}

// The claims on a joining, each by the columns of the sheets and the version's own check alone.

pub type Claim<T = ()> = Result<T, &'static str>;

fn demand(holds: bool, told: &'static str) -> Claim {
    if holds {
        Ok(())
    } else {
        Err(told)
    }
}

/// Bookings, links, ways and the limit, by the columns of the head.
pub fn columns(sheet: &[u8]) -> Option<[usize; 4]> {
    Some([field(sheet, 0)?, field(sheet, 1)?, field(sheet, 2)?, field(sheet, 3)?])
}

/// The same of the joined sheet, by the columns of the two heads.
pub fn together(first: &[u8], second: &[u8]) -> Option<[usize; 4]> {
    let ([n1, m1, a1, limit1], [n2, m2, a2, limit2]) = (columns(first)?, columns(second)?);
    Some([n1 + n2, m1 + m2, a1 * a2, limit1.min(limit2)])
}

/// Which of bookings, links and ways are too many.
pub fn excess([n, m, a, _]: [usize; 4]) -> [bool; 3] {
    [n > MOST_BOOKINGS, m > MOST_LINKS, a > MOST_WAYS]
}

pub fn is_too_large(first: &[u8], second: &[u8]) -> bool {
    together(first, second).is_some_and(|together| excess(together).contains(&true))
}

/// The length of the joined sheet, by the heads' columns and the lengths of the sheets. Each of the
/// first's lines of ways comes once for each of the second's, and the other way round; a letter, a count
/// and a line feed of each pair fall away.
pub fn length(first: &[u8], second: &[u8]) -> Option<usize> {
    let ([n1, m1, a1, _], [n2, m2, a2, _]) = (columns(first)?, columns(second)?);
    let before_ways = |n: usize, m: usize| HEAD + BOOKING * n + LINK * m;
    let ways1 = first.len().checked_sub(before_ways(n1, m1))?;
    let ways2 = second.len().checked_sub(before_ways(n2, m2))?;
    (before_ways(n1 + n2, m1 + m2) + a2 * ways1 + a1 * ways2).checked_sub(WAY * a1 * a2)
}

/// What was written over these old bytes, if they are kept behind it, or all if the call was refused.
pub fn claim_kept<'a>(joined: &'a Joined, old: &[u8]) -> Claim<&'a [u8]> {
    let length = if joined.is_written() { place_of(joined.answer) as usize } else { 0 };
    demand(length <= old.len(), "longer than the buffer")?;
    demand(joined.buffer[length..] == old[length..], "a byte behind it, or of a refused call, has changed")?;
    Ok(&joined.buffer[..length])
}

/// The first sheet's own refusal, then the second's, then 17 by the heads, then 10 by the length.
pub fn claim_answer(first: &Part, second: &Part, room: usize, answer: u32) -> Claim {
    if first.is_refused() {
        return demand(answer == first.checked, "not the first sheet's own refusal");
    }
    if second.is_refused() {
        return demand(answer == second.checked, "not the second sheet's own refusal");
    }
    if is_too_large(first.bytes(), second.bytes()) {
        return demand(
            answer == pack(REFUSED, TOO_LARGE, 0),
            "not 17, though the heads are too large together",
        );
    }
    let length = length(first.bytes(), second.bytes()).ok_or("no numbers in a head that check lets pass")?;
    if room < length {
        return demand(answer == pack(REFUSED, 10, 0), "not 10, though there is too little room");
    }
    demand(answer == pack(ACCEPTED, 0, length as u32), "not accepted with the length that it must have")
}

/// A line of the joined sheet with this much taken off each number from one field to another.
fn lowered(line: &[u8], by: usize, fields: Range<usize>) -> Option<Vec<u8>> {
    let mut lowered = line.to_vec();
    for field in fields {
        let columns = lowered.get_mut(1 + 4 * field..5 + 4 * field)?;
        let number = number_in_columns(columns)?.checked_sub(by)?;
        columns.copy_from_slice(format!("{number:4}").as_bytes());
    }
    Some(lowered)
}

fn lines_of(sheet: &[u8]) -> Vec<&[u8]> {
    sheet.split_inclusive(|&byte| byte == b'\n').collect()
}

/// A way of the joined sheet has the columns of the first's way, then the second's, so many higher.
fn claim_way(line: &[u8], one: &[u8], two: &[u8], behind: usize) -> Claim {
    let of_first = &one[5..one.len() - 1];
    let of_second = &two[5..two.len() - 1];
    demand(line.len() == WAY + of_first.len() + of_second.len(), "a way is too short or too long")?;
    let count = (of_first.len() + of_second.len()) / 4;
    demand(line[..5] == *format!("A{count:4}").as_bytes(), "a way without its letter and count")?;
    let (front, back) = line[5..].split_at(of_first.len());
    demand(front == of_first, "a way has not the first's bookings in front")?;
    // The letter's place is empty here.
    let back = lowered(&[b" ", back].concat(), behind, 0..of_second.len() / 4);
    demand(
        back.is_some_and(|back| back[1..] == [of_second, b"\n"].concat()),
        "a way has not the second's bookings behind",
    )
}

/// Of each line of the joined sheet, by the lines of the two that pass but for 8.
pub fn claim_lines(first: &[u8], second: &[u8], joined: &[u8]) -> Claim {
    let missing = "no numbers in a head that check lets pass";
    let ([n1, m1, a1, _], [n2, m2, a2, _]) =
        (columns(first).ok_or(missing)?, columns(second).ok_or(missing)?);
    let [n, m, a, limit] = together(first, second).ok_or(missing)?;
    let (one, two, both) = (lines_of(first), lines_of(second), lines_of(joined));
    let has_lines = one.len() == 1 + n1 + m1 + a1 && two.len() == 1 + n2 + m2 + a2;
    demand(has_lines, "a sheet without its lines that check lets pass")?;
    let head = format!("P{n:4}{m:4}{a:4}{limit:4}\n");
    demand(both.first().is_some_and(|line| *line == head.as_bytes()), "not the head that it must have")?;
    demand(both.len() == 1 + n + m + a, "not as many lines as its head says")?;
    let is_second = |line: usize, of_second: &[u8], fields: Range<usize>| {
        lowered(both[line], n1, fields).is_some_and(|line| line == of_second)
    };
    demand(both[1..=n1] == one[1..=n1], "not the first's bookings")?;
    demand((1..=n2).all(|b| is_second(n1 + b, two[b], 0..1)), "not the second's bookings, renumbered")?;
    demand(both[1 + n..1 + n + m1] == one[1 + n1..1 + n1 + m1], "not the first's links")?;
    let link = |at: usize| is_second(1 + n + m1 + at, two[1 + n2 + at], 0..2);
    demand((0..m2).all(link), "not the second's links, renumbered")?;
    for (i, j) in (0..a1).flat_map(|i| (0..a2).map(move |j| (i, j))) {
        claim_way(both[1 + n + m + i * a2 + j], one[1 + n1 + m1 + i], two[1 + n2 + m2 + j], n1)?;
    }
    Ok(())
}

/// Of the verdict of the version's own check on what it has joined.
pub fn claim_verdict(first: &Part, second: &Part, verdict: u32) -> Claim {
    demand([0, 8].contains(&refusal_of(verdict)), "check refuses the joined sheet with one of 1 to 7")?;
    let passes = |answer: u32| kind_of(answer) == ACCEPTED;
    demand(
        !passes(verdict) || passes(first.checked) && passes(second.checked),
        "the joined sheet passes, but one of the two does not",
    )
}

#[cfg(test)]
mod tests {
    use super::*;
    use crate::written_joins::written;

    #[test]
    fn lengths_and_lines_by_columns_are_those_of_the_written_sheets() {
        for written in written() {
            let (first, second) = (written.first.as_bytes(), written.second.as_bytes());
            assert_eq!(length(first, second), Some(written.joined.len()), "{}", written.name);
            assert_eq!(claim_lines(first, second, written.joined.as_bytes()), Ok(()), "{}", written.name);
            let longer = format!("{}\n", written.joined);
            assert!(claim_lines(first, second, longer.as_bytes()).is_err(), "{}", written.name);
        }
    }
}
