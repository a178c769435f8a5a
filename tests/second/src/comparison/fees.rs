//! Fee sheets for the comparison: right ones, and damaged ones with what is due.

use crate::dice::Dice;
use crate::generate;
use crate::settle::FEE_LINE_LENGTH;

const HIGHEST_FEE: usize = 999_999;

/// What stands in two fields: the least, and the greatest if it is not left blank.
#[derive(Clone, Copy, Debug, PartialEq)]
pub struct Quote {
    pub least: usize,
    pub greatest: Option<usize>,
}

impl Quote {
    /// One fee and no other, with the second field left blank.
    pub fn of(fee: usize) -> Quote {
        Quote { least: fee, greatest: None }
    }

    pub fn between(least: usize, greatest: usize) -> Quote {
        Quote { least, greatest: Some(greatest) }
    }

    /// The least and the greatest that it allows.
    pub fn ends(self) -> (usize, usize) {
        (self.least, self.greatest.unwrap_or(self.least))
    }

    fn is_crossed(self) -> bool {
        self.ends().0 > self.ends().1
    }

    fn text(self) -> String {
        let greatest = self.greatest.map(|fee| fee.to_string()).unwrap_or_default();
        format!("{:6}{greatest:>6}", self.least)
    }
}

/// What a confirmation and a return of a booking cost.
#[derive(Clone, Copy, Debug, PartialEq)]
pub struct Fee {
    pub confirmation: Quote,
    pub returning: Quote,
}

impl Fee {
    pub fn quotes(self) -> [Quote; 2] {
        [self.confirmation, self.returning]
    }
}

pub fn write_line(booking: usize, fee: Fee) -> Vec<u8> {
    format!("F{booking:4}{}{}\n", fee.confirmation.text(), fee.returning.text()).into_bytes()
}

/// The sheet of these fees, the first of which is that of booking 1.
pub fn write(fees: &[Fee]) -> Vec<u8> {
    fees.iter().enumerate().flat_map(|(at, &fee)| write_line(at + 1, fee)).collect()
}

fn any_number(dice: &mut Dice) -> usize {
    match dice.below(6) {
        0 => 0,
        1 => HIGHEST_FEE,
        2 => dice.pick(&[1, 9, 10, 99, 100, 9_999, 10_000, 99_999, 100_000, 999_998]),
        3 => dice.below(100),
        _ => dice.between(0, HIGHEST_FEE),
    }
}

fn any_quote(dice: &mut Dice) -> Quote {
    let least = any_number(dice);
    match dice.below(8) {
        0..=1 => Quote::of(least),
        2 => Quote::between(least, least),
        3 => Quote::between(least, (least + 1).min(HIGHEST_FEE)),
        4 => Quote::between(least, HIGHEST_FEE),
        _ => Quote::between(least, least.max(any_number(dice))),
    }
}

/// Fees for n bookings, the lowest and the highest often among them.
pub fn any_fees(dice: &mut Dice, n: usize) -> Vec<Fee> {
    (0..n).map(|_| Fee { confirmation: any_quote(dice), returning: any_quote(dice) }).collect()
}

/// Fees that are all different, so that none can stand for another; some greatest are blank.
pub fn unlike_fees(n: usize) -> Vec<Fee> {
    let blank = |blank: bool, quote: Quote| if blank { Quote::of(quote.least) } else { quote };
    let fee = |b: usize| Fee {
        confirmation: blank(b % 4 == 2, Quote::between(100_000 + 1_009 * b, 300_000 + 1_013 * b)),
        returning: blank(b % 4 >= 2, Quote::between(500_000 + 2_003 * b, 700_000 + 2_011 * b)),
    };
    (1..=n).map(fee).collect()
}

/// A fee within a quote; at an end now and then.
pub fn any_within(dice: &mut Dice, quote: Quote) -> usize {
    let (least, greatest) = quote.ends();
    match dice.below(4) {
        0 => least,
        1 => greatest,
        _ => dice.between(least, greatest),
    }
}

/// One fee within each quote.
pub fn choice(dice: &mut Dice, fees: &[Fee]) -> Vec<Fee> {
    let mut chosen = |quote: Quote| {
        let fee = any_within(dice, quote);
        if dice.percent(50) {
            Quote::of(fee)
        } else {
            Quote::between(fee, fee)
        }
    };
    let each = |fee: &Fee| Fee { confirmation: chosen(fee.confirmation), returning: chosen(fee.returning) };
    fees.iter().map(each).collect()
}

/// What must follow from a line: the fees that stand on it now, or refusal and line.
pub type Due = Result<Fee, (u32, usize)>;

/// Some lines of a fee sheet, from one on, are replaced by other bytes.
pub struct Damage {
    pub name: &'static str,
    /// So many lines before it stay as they are.
    pub before: usize,
    taken: usize,
    put: Vec<u8>,
    pub due: Due,
}

impl Damage {
    /// The sheet with this damage.
    pub fn of(&self, sheet: &[u8]) -> Vec<u8> {
        let (front, rest) = sheet.split_at(self.before * FEE_LINE_LENGTH);
        [front, &self.put, &rest[self.taken * FEE_LINE_LENGTH..]].concat()
    }
}

/// The number in six columns, if it is what the number is written as.
fn fee_in(columns: &[u8]) -> Option<usize> {
    let text = std::str::from_utf8(columns).ok()?;
    let number = text.trim_start_matches(' ').parse().ok()?;
    (format!("{number:6}") == text).then_some(number)
}

fn quote_in(columns: &[u8]) -> Option<Quote> {
    let least = fee_in(&columns[..6])?;
    match &columns[6..] {
        b"      " => Some(Quote::of(least)),
        greatest => Some(Quote::between(least, fee_in(greatest)?)),
    }
}

/// A sheet, and one of its lines.
struct Line<'a> {
    fees: &'a [Fee],
    /// So many lines stand before it.
    before: usize,
}

impl Line<'_> {
    fn fee(&self) -> Fee {
        self.fees[self.before]
    }

    fn text(&self) -> Vec<u8> {
        write_line(self.number(), self.fee())
    }

    fn number(&self) -> usize {
        self.before + 1
    }

    fn with(&self, name: &'static str, taken: usize, put: Vec<u8>, due: Due) -> Damage {
        Damage { name, before: self.before, taken, put, due }
    }

    fn wronged(&self, name: &'static str, put: Vec<u8>) -> Damage {
        self.with(name, 1, put, Err((13, self.number())))
    }

    fn crossed(&self, name: &'static str, put: Vec<u8>) -> Damage {
        self.with(name, 1, put, Err((15, self.number())))
    }

    /// A line with these four fields, whatever stands in them.
    fn fields_put(&self, name: &'static str, put: Vec<u8>) -> Damage {
        let fee = quote_in(&put[5..17]).zip(quote_in(&put[17..29]));
        match fee.map(|(confirmation, returning)| Fee { confirmation, returning }) {
            None => self.wronged(name, put),
            Some(fee) if fee.quotes().iter().any(|quote| quote.is_crossed()) => {
                self.crossed("a byte changed: crossed", put)
            }
            Some(fee) => self.with("another fee", 1, put, Ok(fee)),
        }
    }

    /// Each byte changed. In its letter, its number and its end none is right but
    /// the one that stands there.
    fn bytes(&self, to_all: bool) -> Vec<Damage> {
        let text = self.text();
        let mut damages = Vec::new();
        for at in 0..FEE_LINE_LENGTH {
            let others = if to_all { (0..=255).collect() } else { generate::damages(text[at]) };
            for value in others.into_iter().filter(|&value| value != text[at]) {
                let mut put = text.clone();
                put[at] = value;
                damages.push(match at {
                    5..29 => self.fields_put("a byte changed", put),
                    _ => self.wronged("a byte changed", put),
                });
            }
        }
        damages
    }

    /// Every number of a booking and some that none has.
    fn numbers(&self) -> Vec<Damage> {
        let (n, b) = (self.fees.len(), self.number());
        let all = (0..=n + 1).chain([64, 65, 66, 128 + b, 256 + b, 9999]);
        let others = all.filter(|&number| number != b);
        others.map(|number| self.wronged("another number", write_line(number, self.fee()))).collect()
    }

    /// The line with other columns from a byte on.
    fn with_columns(&self, at: usize, columns: &str) -> Vec<u8> {
        let mut put = self.text();
        put[at..at + columns.len()].copy_from_slice(columns.as_bytes());
        put
    }

    /// Fields that are no numbers, or are not written so.
    fn fields(&self) -> Vec<Damage> {
        let (b, fee) = (self.number(), self.fee());
        let mut texts =
            vec![self.with_columns(1, &format!("{b:04}")), self.with_columns(1, &format!("{b:<4}"))];
        for (at, quote) in [5, 17].into_iter().zip(fee.quotes()) {
            let (least, greatest) = quote.ends();
            for (at, fee) in [(at, least), (at + 6, greatest)] {
                texts.push(self.with_columns(at, &format!("{fee:<6}")));
                texts.push(self.with_columns(at, &format!("{fee:06}")));
            }
        }
        let odd = [
            "    00", "    01", "    -1", "    +1", "1    1", "     \n", "\t    1", "   1.0", "0x0001",
            "1     ", "  1   ", "    1 ", "     -", "     \0",
        ];
        let like_blanks = ["\t".repeat(6), "\0".repeat(6)];
        for at in [5, 11, 17, 23] {
            texts.extend(odd.map(|odd| self.with_columns(at, odd)));
            texts.extend(like_blanks.iter().map(|columns| self.with_columns(at, columns)));
        }
        // Six digits are written the same with zeros in front or to the left.
        let others = texts.into_iter().filter(|text| {
            quote_in(&text[5..17]).is_none()
                || quote_in(&text[17..29]).is_none()
                || text[1..5] != self.text()[1..5]
        });
        others.map(|text| self.wronged("no number", text)).collect()
    }

    /// Fields left blank: only a greatest may be.
    fn blanks(&self) -> Vec<Damage> {
        let (blank, Fee { confirmation, returning }) = ("      ", self.fee());
        let bare = |quote: Quote| Quote::of(quote.least);
        let refused =
            |at: usize, columns: &str| self.wronged("a blank refused", self.with_columns(at, columns));
        let taken = |confirmation, returning| {
            let fee = Fee { confirmation, returning };
            self.with("a blank greatest", 1, write_line(self.number(), fee), Ok(fee))
        };
        vec![
            refused(1, "    "),
            refused(5, blank),
            refused(17, blank),
            refused(5, &blank.repeat(2)),
            refused(17, &blank.repeat(2)),
            refused(5, &blank.repeat(4)),
            refused(0, &" ".repeat(29)),
            taken(bare(confirmation), returning),
            taken(confirmation, bare(returning)),
            taken(bare(confirmation), bare(returning)),
        ]
    }

    /// Quotes whose ends are equal, and such as are crossed; these come after what is wrong
    /// with their own line and before all that follows.
    fn crossings(&self) -> Vec<Damage> {
        let (number, Fee { confirmation, returning }) = (self.number(), self.fee());
        let line = |confirmation, returning| write_line(number, Fee { confirmation, returning });
        let equal = |quote: Quote| Quote::between(quote.least, quote.least);
        let (low, high) = (Quote::between(1, 0), Quote::between(HIGHEST_FEE, HIGHEST_FEE - 1));
        let turned = |quote: Quote| Quote::between(quote.least.max(1), quote.least.max(1) - 1);
        let fee = Fee { confirmation: equal(confirmation), returning: equal(returning) };
        let mut damages = vec![self.with("equal ends", 1, write_line(number, fee), Ok(fee))];
        for crossed in [low, high, Quote::between(10, 9), turned(confirmation), turned(returning)] {
            damages.push(self.crossed("a crossed confirmation", line(crossed, returning)));
            damages.push(self.crossed("a crossed return", line(confirmation, crossed)));
            damages.push(self.crossed("both crossed", line(crossed, crossed)));
        }
        let (one, other) = (line(low, returning), line(confirmation, high));
        for (line, at) in
            [(&one, 0), (&one, 4), (&one, 22), (&one, 28), (&one, 29), (&other, 10), (&other, 16)]
        {
            let mut put = line.clone();
            put[at] = b'X';
            damages.push(self.wronged("crossed, but not of its form", put));
        }
        for number in [number - 1, number + 1] {
            let put = write_line(number, Fee { confirmation: low, returning });
            damages.push(self.wronged("crossed, but not of its form", put));
        }
        damages
    }

    /// A crossed line and a wrong one, of which the first counts.
    fn crossed_beside(&self) -> Vec<Damage> {
        let number = self.number();
        let Some(&after) = self.fees.get(number) else { return Vec::new() };
        let crossed = |number, fee| write_line(number, Fee { confirmation: Quote::between(1, 0), ..fee });
        let (here, next) = (crossed(number, self.fee()), crossed(number + 1, after));
        let other = write_line(number, Fee { returning: Quote::between(1, 0), ..self.fee() });
        let mut misformed = self.text();
        misformed[28] = b'X';
        let two = |front: &[u8], rest: &[u8], refusal| {
            self.with("crossed beside a wrong line", 2, [front, rest].concat(), Err((refusal, number)))
        };
        vec![
            two(&here, &write_line(number + 1, after)[1..], 15),
            two(&other, &misformed, 15),
            two(&here, &next, 15),
            two(&misformed, &next, 13),
            two(&next, &self.text(), 13),
        ]
    }

    /// A byte too few or too many: all that follows stands beside its columns.
    fn shifted(&self) -> Vec<Damage> {
        let text = self.text();
        let mut damages = Vec::new();
        for at in 0..FEE_LINE_LENGTH {
            let (front, rest) = text.split_at(at);
            damages.push(self.wronged("a byte missing", [front, &rest[1..]].concat()));
            damages.push(self.wronged("a byte too many", [front, b" ", rest].concat()));
            // A second line feed leaves the line as it is, and the next one is wrong.
            let wrong = self.number() + usize::from(at == FEE_LINE_LENGTH - 1);
            damages.push(self.with("a byte too many", 1, [front, b"\n", rest].concat(), Err((13, wrong))));
        }
        damages
    }

    /// A line doubled, dropped, or changed for its neighbour.
    fn moved(&self) -> Vec<Damage> {
        let (text, number) = (self.text(), self.number());
        let mut damages = vec![
            self.with("a line doubled", 1, text.repeat(2), Err((13, number + 1))),
            self.with("a line dropped", 1, Vec::new(), Err((13, number))),
        ];
        if number < self.fees.len() {
            let next = write_line(number + 1, self.fees[number]);
            let swapped = [next, text].concat();
            damages.push(self.with("a line swapped with the next", 2, swapped, Err((13, number))));
        }
        damages
    }
}

/// The damages to the line after so many lines, in groups.
pub const GROUPS: usize = 7;
pub const MOVED: usize = 6;

pub fn damages(fees: &[Fee], before: usize, group: usize, to_all: bool) -> Vec<Damage> {
    let line = Line { fees, before };
    match group {
        0 => line.bytes(to_all),
        1 => line.numbers(),
        2 => line.fields(),
        3 => line.blanks(),
        4 => [line.crossings(), line.crossed_beside()].into_iter().flatten().collect(),
        5 => line.shifted(),
        _ => line.moved(),
    }
}

/// One of them, at some line or behind the last.
pub fn some_damage(dice: &mut Dice, fees: &[Fee]) -> Damage {
    let mut group = match dice.below(GROUPS + 1) {
        GROUPS => surplus(fees),
        group => damages(fees, dice.below(fees.len()), group, false),
    };
    group.swap_remove(dice.below(group.len()))
}

/// Any bytes, or such as stand on fee sheets, about as many as n lines have.
pub fn random_bytes(dice: &mut Dice, n: usize) -> Vec<u8> {
    let all = dice.percent(30);
    let length = n * FEE_LINE_LENGTH + dice.pick(&[0, 0, 1, FEE_LINE_LENGTH]);
    (0..length).map(|_| if all { dice.byte() } else { dice.pick(b"F     0123456789\n") }).collect()
}

/// Lines of their form but for a few fields, with any two numbers in a quote.
pub fn random_lines(dice: &mut Dice, n: usize) -> Vec<u8> {
    let odd = dice.pick(&[0, 0, 5, 20]) * 4 / n.max(4);
    let unordered = dice.pick(&[0, 10, 50]);
    let mut text = Vec::new();
    for (at, fee) in any_fees(dice, n).into_iter().enumerate() {
        let mut line = format!("F{:4}", at + 1);
        for quote in fee.quotes() {
            let any = Quote::between(any_number(dice), any_number(dice));
            line += &if dice.percent(unordered) { any } else { quote }.text();
        }
        let mut line = line.into_bytes();
        line.push(b'\n');
        if dice.percent(odd) {
            let (from, to) = dice.pick(&[(1, 5), (5, 11), (11, 17), (17, 23), (23, 29), (0, 1), (29, 30)]);
            line[from..to].fill(dice.pick(b"      01X"));
        }
        text.extend(line);
    }
    text
}

/// What follows the last line: one byte, a line, more.
pub fn surplus(fees: &[Fee]) -> Vec<Damage> {
    let n = fees.len();
    let free = Fee { confirmation: Quote::of(0), returning: Quote::of(0) };
    let crossed = Fee { confirmation: Quote::between(1, 0), ..free };
    let (all, line) = (write(fees), write_line(n + 1, free));
    let (last, crossed) = (&all[all.len() - FEE_LINE_LENGTH..], write_line(n + 1, crossed));
    let more: [&[u8]; 10] = [b"\n", b" ", b"F", b"\0", b"T", &line[..29], &line, &crossed, last, &all];
    let damage = |more: &[u8]| Damage {
        name: "more behind it",
        before: n,
        taken: 0,
        put: more.to_vec(),
        due: Err((13, n + 1)),
    };
    more.into_iter().map(damage).collect()
}
