//! Two plans joined: the first one's lines are copied, the second one's renumbered, and each way of the first
//! goes together with each of the second.

use crate::check;
use crate::plan::{self, OURS};
use crate::refusal::Refusal;
use crate::settle::write_number;

pub const HEAD_LINE: usize = 18;
pub const BOOKING_LINE: usize = 12;
pub const LINK_LINE: usize = 10;
/// A way's line without its fields, and a field, which is a booking.
pub const WAY_LINE: usize = 6;
pub const FIELD: usize = 4;

const EMPTY_HEAD: &[u8; HEAD_LINE] = b"P                \n";

const NUMBERS: usize = OURS.bookings as usize + 1;

/// The numbers of bookings in their columns.
static COLUMNS: [[u8; FIELD]; NUMBERS] = {
    let mut columns = [*b"    "; NUMBERS];
    let mut number = 0;
    while number < NUMBERS {
        if number >= 10 {
            columns[number][2] = b'0' + (number / 10) as u8;
        }
        columns[number][3] = b'0' + (number % 10) as u8;
        number += 1;
    }
    columns
};

/// A booking or a count of them in columns that were read before: a space's low bits are 0 too.
#[inline]
fn booking_in(columns: &[u8]) -> usize {
    usize::from(columns[2] & 15) * 10 + usize::from(columns[3] & 15)
}

/// A plan to join, and the lines of its sheet.
pub struct Part<'a> {
    n: usize,
    m: usize,
    a: usize,
    limit: u32,
    bookings: &'a [u8],
    links: &'a [u8],
    ways: &'a [u8],
}

impl<'a> Part<'a> {
    #[inline]
    pub fn of(sheet: &'a [u8]) -> Result<Part<'a>, Refusal> {
        let plan = plan::read(sheet, &OURS)?;
        check::check_but_stranding(&plan)?;
        let (n, m, a) = (plan.bookings, plan.links, plan.ways);
        let (bookings, rest) = sheet[HEAD_LINE..].split_at(n * BOOKING_LINE);
        let (links, ways) = rest.split_at(m * LINK_LINE);
        Ok(Part { n, m, a, limit: plan.limit, bookings, links, ways })
    }

    /// What the fields of all ways take.
    fn fields(&self) -> usize {
        self.ways.len() - self.a * WAY_LINE
    }
}

/// The fields of each way.
fn each_way(mut ways: &[u8]) -> impl Iterator<Item = &[u8]> {
    std::iter::from_fn(move || {
        let count = booking_in(ways.get(1..5)?);
        let (line, rest) = ways.split_at(WAY_LINE + count * FIELD);
        ways = rest;
        Some(&line[5..5 + count * FIELD])
    })
}

#[inline]
fn write_head(line: &mut [u8], counts: [usize; 4]) {
    line.copy_from_slice(EMPTY_HEAD);
    for (at, count) in counts.into_iter().enumerate() {
        write_number(line, FIELD * (at + 1), count as u64);
    }
}

#[inline]
fn renumber(fields: &mut [u8], old: &[u8], by: usize) {
    for (field, old) in fields.chunks_exact_mut(FIELD).zip(old.chunks_exact(FIELD)) {
        field.copy_from_slice(&COLUMNS[by + booking_in(old)]);
    }
}

#[inline]
fn write_bookings(text: &mut [u8], first: &Part, second: &Part) {
    let (copied, renumbered) = text.split_at_mut(first.bookings.len());
    copied.copy_from_slice(first.bookings);
    renumbered.copy_from_slice(second.bookings);
    for (line, columns) in renumbered.chunks_exact_mut(BOOKING_LINE).zip(&COLUMNS[first.n + 1..]) {
        line[1..5].copy_from_slice(columns);
    }
}

#[inline]
fn write_links(text: &mut [u8], first: &Part, second: &Part) {
    let (copied, renumbered) = text.split_at_mut(first.links.len());
    copied.copy_from_slice(first.links);
    for (line, old) in renumbered.chunks_exact_mut(LINK_LINE).zip(second.links.chunks_exact(LINK_LINE)) {
        line[0] = b'L';
        renumber(&mut line[1..9], &old[1..9], first.n);
        line[9] = b'\n';
    }
}

/// Begins the next line with a way of the first plan; the fields that are left for one of the second.
#[inline]
fn begin_way<'t>(text: &mut &'t mut [u8], way: &[u8], left: usize) -> &'t mut [u8] {
    let fields = way.len() + left;
    let (line, rest) = std::mem::take(text).split_at_mut(WAY_LINE + fields);
    *text = rest;
    line[0] = b'A';
    line[1..5].copy_from_slice(&COLUMNS[fields / FIELD]);
    line[5..5 + way.len()].copy_from_slice(way);
    line[5 + fields] = b'\n';
    &mut line[5 + way.len()..5 + fields]
}

/// The second plan's ways are renumbered once, behind the best way of the first; behind the others they are
/// copied from there.
#[inline]
fn write_ways(text: &mut [u8], first: &Part, second: &Part) {
    let mut ways = each_way(first.ways);
    let best = ways.next().unwrap_or_default();
    let (with_best, mut rest) = text.split_at_mut(second.ways.len() + second.a * best.len());
    let mut lines = &mut *with_best;
    for way in each_way(second.ways) {
        renumber(begin_way(&mut lines, best, way.len()), way, first.n);
    }
    for way in ways {
        for fields in each_way(with_best) {
            let renumbered = &fields[best.len()..];
            begin_way(&mut rest, way, renumbered.len()).copy_from_slice(renumbered);
        }
    }
}

/// The length of the joined sheet, which is written.
pub fn join(first: &Part, second: &Part, joined: &mut [u8]) -> Result<u32, Refusal> {
    let (n, m, a) = (first.n + second.n, first.m + second.m, first.a * second.a);
    if n > OURS.bookings as usize || m > OURS.links as usize || a > OURS.ways as usize {
        return Err(Refusal { number: 17, place: 0 });
    }
    let of_ways = a * WAY_LINE + first.fields() * second.a + first.a * second.fields();
    let length = HEAD_LINE + n * BOOKING_LINE + m * LINK_LINE + of_ways;
    let text = joined.get_mut(..length).ok_or(Refusal { number: 10, place: 0 })?;
    let (head, rest) = text.split_at_mut(HEAD_LINE);
    let (bookings, rest) = rest.split_at_mut(n * BOOKING_LINE);
    let (links, ways) = rest.split_at_mut(m * LINK_LINE);
    write_head(head, [n, m, a, first.limit.min(second.limit) as usize]);
    write_bookings(bookings, first, second);
    write_links(links, first, second);
    write_ways(ways, first, second);
    Ok(length as u32)
}
