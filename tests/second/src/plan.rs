//! Plan sheets: the plan, its reader and its writer.

pub const MOST_BOOKINGS: usize = 64;
pub const MOST_LINKS: usize = 512;
pub const MOST_WAYS: usize = 16;
pub const MOST_DESKS: usize = 8;
pub const HIGHEST_LIMIT: usize = 64;
pub const LONGEST_SHEET: usize = 10_098;

const LINE_FEED: u8 = 10;

/// Why something is refused: the number of the rule, and where.
#[derive(Clone, Copy, Debug, PartialEq, Eq)]
pub struct Refusal {
    pub number: u32,
    pub place: u32,
}

#[derive(Clone, Copy, Debug, PartialEq, Eq)]
pub enum Kind {
    Returnable,
    Pivot,
    Repeatable,
    RepeatableReturnable,
}

impl Kind {
    pub fn of_letter(letter: u8) -> Option<Kind> {
        match letter {
            b'C' => Some(Kind::Returnable),
            b'P' => Some(Kind::Pivot),
            b'R' => Some(Kind::Repeatable),
            b'D' => Some(Kind::RepeatableReturnable),
            _ => None,
        }
    }

    pub fn letter(self) -> char {
        match self {
            Kind::Returnable => 'C',
            Kind::Pivot => 'P',
            Kind::Repeatable => 'R',
            Kind::RepeatableReturnable => 'D',
        }
    }

    /// Once held it can't be given back.
    pub fn is_firm(self) -> bool {
        self == Kind::Pivot || self == Kind::Repeatable
    }

    /// A desk can refuse it for good.
    pub fn is_exposed(self) -> bool {
        self == Kind::Returnable || self == Kind::Pivot
    }

    /// Its desk takes it back.
    pub fn can_be_returned(self) -> bool {
        self == Kind::Returnable || self == Kind::RepeatableReturnable
    }

    /// Its desk confirms it if it is asked often enough.
    pub fn repeats(self) -> bool {
        self == Kind::Repeatable || self == Kind::RepeatableReturnable
    }
}

#[derive(Clone, Debug, PartialEq, Eq)]
pub struct Plan {
    /// The kind of booking b stands at b - 1.
    pub kinds: Vec<Kind>,
    /// The desk of booking b stands at b - 1.
    pub desks: Vec<usize>,
    /// (u, v): u comes before v.
    pub links: Vec<(usize, usize)>,
    /// Way i stands at i - 1; the most wanted is first.
    pub ways: Vec<Vec<usize>>,
    /// The most matters that a desk may have open.
    pub limit: usize,
}

impl Plan {
    /// All at one desk, which is never full: a campaign as it is without desks.
    pub fn at_one_desk(kinds: Vec<Kind>, links: Vec<(usize, usize)>, ways: Vec<Vec<usize>>) -> Plan {
        Plan { desks: vec![1; kinds.len()], kinds, links, ways, limit: HIGHEST_LIMIT }
    }

    /// The same plan with other desks and another limit.
    pub fn with_desks(mut self, desks: &[usize], limit: usize) -> Plan {
        self.desks = desks.to_vec();
        self.limit = limit;
        self
    }

    /// The number of bookings, n.
    pub fn count(&self) -> usize {
        self.kinds.len()
    }

    pub fn kind(&self, booking: usize) -> Kind {
        self.kinds[booking - 1]
    }

    pub fn desk(&self, booking: usize) -> usize {
        self.desks[booking - 1]
    }

    pub fn bookings(&self) -> std::ops::RangeInclusive<usize> {
        1..=self.count()
    }

    pub fn way_numbers(&self) -> std::ops::RangeInclusive<usize> {
        1..=self.ways.len()
    }

    /// The bookings of a way; no way at all, like 0, has none.
    pub fn way(&self, number: usize) -> &[usize] {
        if self.way_numbers().contains(&number) {
            &self.ways[number - 1]
        } else {
            &[]
        }
    }

    pub fn is_in_way(&self, booking: usize, way: usize) -> bool {
        self.way(way).contains(&booking)
    }
}

/// The number that fills these columns: spaces, then digits to the end, and
/// no zero in front of another digit.
pub fn number_in_columns(columns: &[u8]) -> Option<usize> {
    let spaces = columns.iter().take_while(|&&c| c == b' ').count();
    let digits = &columns[spaces..];
    if digits.is_empty() || !digits.iter().all(u8::is_ascii_digit) {
        return None;
    }
    if digits.len() > 1 && digits[0] == b'0' {
        return None;
    }
    Some(digits.iter().fold(0, |value, digit| 10 * value + usize::from(digit - b'0')))
}

/// The four numbers of the head.
pub(crate) struct Head {
    pub n: usize,
    pub m: usize,
    pub a: usize,
    pub limit: usize,
}

/// Reads on from a place in the sheet and knows the line it is on.
pub(crate) struct Reader<'a> {
    bytes: &'a [u8],
    at: usize,
    line: u32,
}

impl<'a> Reader<'a> {
    pub fn new(bytes: &'a [u8]) -> Reader<'a> {
        Reader { bytes, at: 0, line: 0 }
    }

    pub fn demand(&self, holds: bool, number: u32) -> Result<(), Refusal> {
        if holds {
            Ok(())
        } else {
            Err(Refusal { number, place: self.line })
        }
    }

    fn take(&mut self, count: usize) -> Result<&'a [u8], Refusal> {
        self.demand(self.bytes.len() - self.at >= count, 1)?;
        self.at += count;
        Ok(&self.bytes[self.at - count..self.at])
    }

    fn mark(&mut self, wanted: u8) -> Result<(), Refusal> {
        let found = self.take(1)?[0];
        self.demand(found == wanted, 1)
    }

    fn number(&mut self) -> Result<usize, Refusal> {
        let columns = self.take(4)?;
        number_in_columns(columns).ok_or(Refusal { number: 1, place: self.line })
    }

    pub fn head(&mut self) -> Result<Head, Refusal> {
        self.line += 1;
        self.mark(b'P')?;
        let (n, m, a, limit) = (self.number()?, self.number()?, self.number()?, self.number()?);
        self.mark(LINE_FEED)?;
        self.demand((1..=MOST_BOOKINGS).contains(&n), 2)?;
        self.demand(m <= MOST_LINKS, 2)?;
        self.demand((1..=MOST_WAYS).contains(&a), 2)?;
        self.demand((1..=HIGHEST_LIMIT).contains(&limit), 2)?;
        Ok(Head { n, m, a, limit })
    }

    /// Kind and desk. A wrong letter of kind is a fault of form, so it comes
    /// before the number out of sequence and the wrong desk.
    fn booking(&mut self, due: usize) -> Result<(Kind, usize), Refusal> {
        self.line += 1;
        self.mark(b'B')?;
        let number = self.number()?;
        self.mark(b' ')?;
        let kind = Kind::of_letter(self.take(1)?[0]);
        self.demand(kind.is_some(), 1)?;
        let desk = self.number()?;
        self.mark(LINE_FEED)?;
        self.demand(number == due, 3)?;
        self.demand((1..=MOST_DESKS).contains(&desk), 3)?;
        Ok((kind.unwrap(), desk))
    }

    fn link(&mut self, n: usize, before: Option<(usize, usize)>) -> Result<(usize, usize), Refusal> {
        self.line += 1;
        self.mark(b'L')?;
        let (u, v) = (self.number()?, self.number()?);
        self.mark(LINE_FEED)?;
        self.demand((1..=n).contains(&u) && (1..=n).contains(&v), 3)?;
        self.demand(before.is_none_or(|last| last < (u, v)), 3)?;
        Ok((u, v))
    }

    /// The count is judged before the rest, for it says how long the line is.
    fn way(&mut self, n: usize) -> Result<Vec<usize>, Refusal> {
        self.line += 1;
        self.mark(b'A')?;
        let k = self.number()?;
        self.demand((1..=n).contains(&k), 2)?;
        let mut way = Vec::new();
        for _ in 0..k {
            way.push(self.number()?);
        }
        self.mark(LINE_FEED)?;
        self.demand(way.iter().all(|b| (1..=n).contains(b)), 3)?;
        self.demand(way.windows(2).all(|pair| pair[0] < pair[1]), 3)?;
        Ok(way)
    }

    fn nothing_more(&mut self) -> Result<(), Refusal> {
        self.line += 1;
        self.demand(self.at == self.bytes.len(), 1)
    }

    /// The lines that this head announces, and nothing behind them.
    pub fn after_head(&mut self, head: Head) -> Result<Plan, Refusal> {
        let Head { n, m, a, limit } = head;
        let mut plan =
            Plan { kinds: Vec::new(), desks: Vec::new(), links: Vec::new(), ways: Vec::new(), limit };
        for number in 1..=n {
            let (kind, desk) = self.booking(number)?;
            plan.kinds.push(kind);
            plan.desks.push(desk);
        }
        for _ in 0..m {
            let before = plan.links.last().copied();
            plan.links.push(self.link(n, before)?);
        }
        for _ in 0..a {
            plan.ways.push(self.way(n)?);
        }
        self.nothing_more()?;
        Ok(plan)
    }
}

/// The plan on a sheet, or the first refusal among 1, 2, 3 with its line.
pub fn read(bytes: &[u8]) -> Result<Plan, Refusal> {
    let mut reader = Reader::new(bytes);
    let head = reader.head()?;
    reader.after_head(head)
}

/// The text of a plan, good or bad; nothing is judged here, so that bad
/// sheets can be written for tests.
pub fn write(plan: &Plan) -> String {
    let (n, m, a) = (plan.kinds.len(), plan.links.len(), plan.ways.len());
    let mut text = format!("P{n:4}{m:4}{a:4}{:4}\n", plan.limit);
    for (at, (kind, desk)) in plan.kinds.iter().zip(&plan.desks).enumerate() {
        text += &format!("B{:4} {}{desk:4}\n", at + 1, kind.letter());
    }
    for (u, v) in &plan.links {
        text += &format!("L{u:4}{v:4}\n");
    }
    for way in &plan.ways {
        text += &format!("A{:4}", way.len());
        for booking in way {
            text += &format!("{booking:4}");
        }
        text += "\n";
    }
    text
}

#[cfg(test)]
mod tests {
    use super::*;

    fn refused(text: &str) -> (u32, u32) {
        let refusal = read(text.as_bytes()).unwrap_err();
        (refusal.number, refusal.place)
    }

    #[test]
    fn numbers_stand_in_four_columns() {
        assert_eq!(number_in_columns(b"   0"), Some(0));
        assert_eq!(number_in_columns(b"  17"), Some(17));
        assert_eq!(number_in_columns(b"9999"), Some(9999));
        for bad in [b"    ", b"  01", b"0000", b"1   ", b" 1 2", b"  -1", b"  +1", b"\t  1"] {
            assert_eq!(number_in_columns(bad), None);
        }
    }

    #[test]
    fn a_sheet_is_read_back() {
        let bookings = "B   1 C   8\nB   2 R   1\nB   3 D   5\nB   4 P   1\n";
        let text = format!("P   4   1   2   3\n{bookings}L   1   2\nA   1   1\nA   2   1   2\n");
        let plan = read(text.as_bytes()).unwrap();
        assert_eq!((&plan.desks[..], plan.limit), (&[8, 1, 5, 1][..], 3));
        assert_eq!(plan.links, [(1, 2)]);
        assert_eq!(plan.ways, [vec![1], vec![1, 2]]);
        assert_eq!(write(&plan), text);
    }

    #[test]
    fn bytes_that_end_early_or_remain() {
        let text = "P   1   0   1  64\nB   1 C   1\nA   1   1\n";
        assert!(read(text.as_bytes()).is_ok());
        for length in 0..text.len() {
            let line = 1 + text[..length].matches('\n').count() as u32;
            assert_eq!(refused(&text[..length]), (1, line));
        }
        assert_eq!(refused(&format!("{text}\n")), (1, 4));
    }

    #[test]
    fn one_two_three_on_a_line() {
        assert_eq!(refused("P   0   0   1  64\n"), (2, 1));
        assert_eq!(refused("P   0   0   1  64"), (1, 1));
        assert_eq!(refused("P   1   0   1  64\nB   2 X   1\n"), (1, 2));
        assert_eq!(refused("P   1   0   1  64\nB   1 d   1\n"), (1, 2));
        assert_eq!(refused("P   1   0   1  64\nB   2 C   1\n"), (3, 2));
        assert_eq!(refused("P   1   0   1  64\nB   1 C   1\nA   0"), (2, 3));
        assert_eq!(refused("P   1   0   1  64\nB   1 C   1\nA   2   1"), (2, 3));
        assert_eq!(refused("P   1   0   1  64\nB   1 C   1\nA   1   2"), (1, 3));
        assert_eq!(refused("P   1   0   1  64\nB   1 C   1\nA   1   2\n"), (3, 3));
        assert_eq!(refused("P   1   0   1  64\nB   1 C   1\nA   1   1   2\n"), (1, 3));
        assert_eq!(refused("P   1   1   1  64\nB   1 C   1\nL   1   0\n"), (3, 3));
    }

    #[test]
    fn links_and_ways_rise_strictly() {
        let head = "P   2   2   1  64\nB   1 C   1\nB   2 C   1\n";
        assert_eq!(refused(&format!("{head}L   1   2\nL   1   2\n")), (3, 5));
        assert_eq!(refused(&format!("{head}L   2   1\nL   1   2\n")), (3, 5));
        assert_eq!(refused(&format!("{head}L   1   1\nL   1   2\nA   2   2   1\n")), (3, 6));
    }
}
