//! Reads a plan sheet in one pass, straight into sets: booking b is bit b - 1.

use crate::refusal::Refusal;

/// The most bookings, links and ways that a caller takes.
pub struct Limits {
    pub bookings: u32,
    pub links: u32,
    pub ways: u32,
}

pub const OURS: Limits = Limits { bookings: 64, links: 512, ways: 16 };
pub const THEIRS: Limits = Limits { bookings: 16, links: 512, ways: 4 };
pub const DESKS: usize = 8;
pub const HIGHEST_LIMIT: u32 = 64;

pub struct Plan {
    pub bookings: usize,
    pub links: usize,
    pub ways: usize,
    /// C and P; P and R.
    pub exposed: u64,
    pub firm: u64,
    /// Direct predecessors of each booking.
    pub before: [u64; 64],
    pub way: [u64; 16],
    /// The bookings of each desk, and the most matters that one may have open.
    pub desks: [u64; DESKS],
    pub limit: u32,
}

const FORM: u32 = 1;
const COUNT: u32 = 2;
const NUMBER: u32 = 3;
const OVERSIZE: u32 = 16;

/// What is left of the sheet, and the line it is on.
struct Lines<'a> {
    rest: &'a [u8],
    line: u32,
}

impl<'a> Lines<'a> {
    fn refusal(&self, number: u32) -> Refusal {
        Refusal { number, place: self.line }
    }

    fn take(&mut self, length: usize) -> Result<&'a [u8], Refusal> {
        if self.rest.len() < length {
            return Err(self.refusal(FORM));
        }
        let (front, rest) = self.rest.split_at(length);
        self.rest = rest;
        Ok(front)
    }

    fn field(&self, columns: &[u8]) -> Result<u32, Refusal> {
        number(columns).ok_or(self.refusal(FORM))
    }

    fn need(&self, holds: bool, number: u32) -> Result<(), Refusal> {
        if holds {
            Ok(())
        } else {
            Err(self.refusal(number))
        }
    }
}

/// A number in four columns, right-justified, without leading zeros.
#[inline]
pub fn number(columns: &[u8]) -> Option<u32> {
    let digits = |digits: &[u8]| {
        let valid = digits.iter().all(u8::is_ascii_digit) && (digits[0] != b'0' || digits.len() == 1);
        valid.then(|| digits.iter().fold(0, |value, digit| value * 10 + u32::from(digit - b'0')))
    };
    match columns {
        [b' ', b' ', b' ', d] => digits(&[*d]),
        [b' ', b' ', c, d] => digits(&[*c, *d]),
        [b' ', b, c, d] => digits(&[*b, *c, *d]),
        [a, b, c, d] => digits(&[*a, *b, *c, *d]),
        _ => None,
    }
}

#[inline]
pub fn bit(booking: u32) -> u64 {
    1 << (booking - 1)
}

struct Head {
    n: u32,
    m: u32,
    a: u32,
    limit: u32,
}

impl Head {
    fn is_within(&self, most: &Limits) -> bool {
        (1..=most.bookings).contains(&self.n)
            && self.m <= most.links
            && (1..=most.ways).contains(&self.a)
            && (1..=HIGHEST_LIMIT).contains(&self.limit)
    }
}

fn read_head(lines: &mut Lines, most: &Limits) -> Result<Head, Refusal> {
    let text = lines.take(18)?;
    lines.need(text[0] == b'P' && text[17] == b'\n', FORM)?;
    let field = |at: usize| lines.field(&text[at..at + 4]);
    let head = Head { n: field(1)?, m: field(5)?, a: field(9)?, limit: field(13)? };
    lines.need(head.is_within(&OURS), COUNT)?;
    lines.need(head.is_within(most), OVERSIZE)?;
    lines.line += 1;
    Ok(head)
}

fn read_bookings(lines: &mut Lines, n: u32, plan: &mut Plan) -> Result<(), Refusal> {
    for booking in 1..=n {
        let text = lines.take(12)?;
        lines.need(text[0] == b'B' && text[5] == b' ' && text[11] == b'\n', FORM)?;
        let (given, desk) = (lines.field(&text[1..5])?, lines.field(&text[7..11])?);
        let (exposed, firm) = match text[6] {
            b'C' => (true, false),
            b'P' => (true, true),
            b'R' => (false, true),
            b'D' => (false, false),
            _ => return Err(lines.refusal(FORM)),
        };
        lines.need(given == booking && (1..=DESKS as u32).contains(&desk), NUMBER)?;
        plan.desks[desk as usize - 1] |= bit(booking);
        plan.exposed |= u64::from(exposed) << (booking - 1);
        plan.firm |= u64::from(firm) << (booking - 1);
        lines.line += 1;
    }
    Ok(())
}

fn read_links(lines: &mut Lines, n: u32, m: u32, plan: &mut Plan) -> Result<(), Refusal> {
    let mut last = (0, 0);
    for _ in 0..m {
        let text = lines.take(10)?;
        lines.need(text[0] == b'L' && text[9] == b'\n', FORM)?;
        let (u, v) = (lines.field(&text[1..5])?, lines.field(&text[5..9])?);
        lines.need((1..=n).contains(&u) && (1..=n).contains(&v) && (u, v) > last, NUMBER)?;
        plan.before[v as usize - 1] |= bit(u);
        last = (u, v);
        lines.line += 1;
    }
    Ok(())
}

fn read_way(lines: &mut Lines, n: u32) -> Result<u64, Refusal> {
    let head = lines.take(5)?;
    lines.need(head[0] == b'A', FORM)?;
    let count = lines.field(&head[1..5])?;
    lines.need((1..=n).contains(&count), COUNT)?;
    let text = lines.take(count as usize * 4 + 1)?;
    let (columns, end) = text.split_at(count as usize * 4);
    let mut set = 0;
    let mut last = 0;
    // A wrong number counts only if the whole line is of its form.
    let mut rising = true;
    for field in columns.chunks_exact(4) {
        let booking = lines.field(field)?;
        rising &= booking > last && booking <= n;
        set |= 1u64.wrapping_shl(booking.wrapping_sub(1));
        last = booking;
    }
    lines.need(end[0] == b'\n', FORM)?;
    lines.need(rising, NUMBER)?;
    lines.line += 1;
    Ok(set)
}

#[inline]
pub fn read(sheet: &[u8], most: &Limits) -> Result<Plan, Refusal> {
    let mut lines = Lines { rest: sheet, line: 1 };
    let Head { n, m, a, limit } = read_head(&mut lines, most)?;
    let mut plan = Plan {
        bookings: n as usize,
        links: m as usize,
        ways: a as usize,
        exposed: 0,
        firm: 0,
        before: [0; 64],
        way: [0; 16],
        desks: [0; DESKS],
        limit,
    };
    read_bookings(&mut lines, n, &mut plan)?;
    read_links(&mut lines, n, m, &mut plan)?;
    for way in 0..plan.ways {
        plan.way[way] = read_way(&mut lines, n)?;
    }
    lines.need(lines.rest.is_empty(), FORM)?;
    Ok(plan)
}
