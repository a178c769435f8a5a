//! What the two columns of a report promise: every choice of fees within the quotes lands
//! between them, and both ends are reached.

use super::fees::{self, Fee, Quote};
use super::record::Record;
use super::settlements::{length_of, old_bytes, plan_of, Papers};
use super::{Case, Comparison, Outcome};
use crate::calls::place_of;
use crate::dice::Dice;
use crate::journal::LINE_LENGTH;
use crate::plan::Plan;
use crate::written_settlements::Ends;
use std::fmt::Debug;

/// A choice of fees landed between the columns.
pub const CHOSEN: &str = "settlements: a choice within the quotes";
/// Fees that were chosen anew for each line of the journal landed between the columns.
pub const EACH: &str = "settlements: a choice for each line of the journal";
/// The least fees, or the greatest, came to one of the columns.
pub const ENDS: &str = "settlements: an end of all quotes reached";

/// A report as its columns say.
#[derive(Debug, PartialEq)]
struct Report {
    /// Confirmations and returns of each booking.
    counts: Vec<(usize, usize)>,
    /// The two columns of each booking, then of each way, then of the total.
    costs: Vec<Ends>,
}

/// The numbers of a line that begins with this letter, in columns of these widths.
fn numbers<const N: usize>(line: &str, letter: char, widths: [usize; N]) -> Option<[usize; N]> {
    let mut rest = line.strip_prefix(letter)?.strip_suffix('\n')?;
    let mut numbers = [0; N];
    for (number, width) in numbers.iter_mut().zip(widths) {
        let (columns, behind) = rest.split_at_checked(width)?;
        *number = columns.trim_start_matches(' ').parse().ok()?;
        rest = behind;
    }
    rest.is_empty().then_some(numbers)
}

/// A report on a plan, read back.
fn read(plan: &Plan, report: &[u8]) -> Option<Report> {
    let text = std::str::from_utf8(report).ok()?;
    let mut lines = text.split_inclusive('\n');
    let (mut counts, mut costs) = (Vec::new(), Vec::new());
    for booking in plan.bookings() {
        let [number, confirmed, returned, least, greatest] = numbers(lines.next()?, 'S', [4, 6, 6, 12, 12])?;
        counts.push((confirmed, returned));
        costs.push((number == booking).then_some((least, greatest))?);
    }
    for way in plan.way_numbers() {
        let [number, least, greatest] = numbers(lines.next()?, 'M', [4, 12, 12])?;
        costs.push((number == way).then_some((least, greatest))?);
    }
    let [least, greatest] = numbers(lines.next()?, 'T', [12, 12])?;
    costs.push((least, greatest));
    lines.next().is_none().then_some(Report { counts, costs })
}

impl Report {
    /// One column alone, in the place of both.
    fn at(&self, end: fn(Ends) -> usize) -> Report {
        let costs = self.costs.iter().map(|&ends| (end(ends), end(ends)));
        Report { counts: self.counts.clone(), costs: costs.collect() }
    }

    /// Whether another report, with one fee for each quote, lies between the columns of this one.
    fn has_between(&self, chosen: &Report) -> bool {
        let between = |(ends, cost): (&Ends, &Ends)| cost.0 == cost.1 && ends.0 <= cost.0 && cost.0 <= ends.1;
        self.counts == chosen.counts && self.costs.iter().zip(&chosen.costs).all(between)
    }

    /// Whether amounts, one for each booking, and their sum lie between the columns.
    fn encloses(&self, amounts: &[usize]) -> bool {
        let between = |ends: &Ends, amount: usize| ends.0 <= amount && amount <= ends.1;
        let total = self.costs.last().is_some_and(|ends| between(ends, amounts.iter().sum()));
        total && self.costs.iter().zip(amounts).all(|(ends, &amount)| between(ends, amount))
    }
}

/// What each booking comes to where each of its lines has a fee of its own within the quotes.
fn charged_each(dice: &mut Dice, fees: &[Fee], journal: &[u8]) -> Vec<usize> {
    let mut amounts = vec![0; fees.len()];
    for line in journal.chunks_exact(LINE_LENGTH) {
        let booking: usize = std::str::from_utf8(&line[1..5]).unwrap().trim().parse().unwrap();
        let fee = fees[booking - 1];
        amounts[booking - 1] += match line[0] {
            b'Y' => fees::any_within(dice, fee.confirmation),
            b'G' => fees::any_within(dice, fee.returning),
            _ => 0,
        };
    }
    amounts
}

/// Of each quote one end alone.
fn fees_at(fees: &[Fee], end: fn(Ends) -> usize) -> Vec<Fee> {
    let alone = |quote: Quote| Quote::of(end(quote.ends()));
    let fee = |fee: &Fee| Fee { confirmation: alone(fee.confirmation), returning: alone(fee.returning) };
    fees.iter().map(fee).collect()
}

impl Comparison<'_> {
    /// The first version's own report, read back.
    fn read_back(&mut self, case: &Case, record: &Record, fees: &[Fee]) -> Outcome<Report> {
        let plan = plan_of(case);
        let papers = Papers::new(&fees::write(fees), &record.journal);
        let settled = self.settlement(case, &papers, &old_bytes(length_of(plan)))?;
        let text = &settled.report[..place_of(settled.answer) as usize];
        read(plan, text).ok_or(format!("DIFFERENCE in {}\nno report:\n{}\n", self.part, text.escape_ascii()))
    }

    /// Fees that are chosen within the quotes come to what lies between the columns of the first
    /// version's report, also those of each line alone; all the least and all the greatest come
    /// to the columns themselves.
    pub fn choices(&mut self, case: &Case, record: &Record, fees: &[Fee], dice: &mut Dice) -> Outcome {
        let quoted = self.read_back(case, record, fees)?;
        for end in [|ends: Ends| ends.0, |ends: Ends| ends.1] {
            let reached = self.read_back(case, record, &fees_at(fees, end))?;
            self.tally.event(ENDS);
            self.demand_alike(reached == quoted.at(end), &quoted, &reached)?;
        }
        for _ in 0..3 {
            let chosen = self.read_back(case, record, &fees::choice(dice, fees))?;
            self.tally.event(CHOSEN);
            self.demand_alike(quoted.has_between(&chosen), &quoted, &chosen)?;
            let amounts = charged_each(dice, fees, &record.journal);
            self.tally.event(EACH);
            self.demand_alike(quoted.encloses(&amounts), &quoted, &amounts)?;
        }
        Ok(())
    }

    fn demand_alike(&self, holds: bool, quoted: &Report, chosen: &impl Debug) -> Outcome {
        if holds {
            return Ok(());
        }
        Err(format!("DIFFERENCE in {}\nthe quotes come to {quoted:?}\nthe choice to {chosen:?}\n", self.part))
    }
}

#[cfg(test)]
mod tests {
    use super::*;
    use crate::flights::plan_of;

    const REPORT: &str = "\
S   1     2     1          50          75
S   2     0     0           0           0
M   1          40          60
M   2          20          30
T          50          75
";

    fn read(report: &str) -> Option<Report> {
        super::read(&plan_of("CC", &[], &[&[1, 2], &[1]]), report.as_bytes())
    }

    #[test]
    fn reports_are_read_by_their_columns() {
        let report = read(REPORT).unwrap();
        assert_eq!(report.counts, [(2, 1), (0, 0)]);
        assert_eq!(report.costs, [(50, 75), (0, 0), (40, 60), (20, 30), (50, 75)]);
        for (from, to) in
            [("M   2", "M   3"), ("T", "M"), ("S   2", "S   1"), ("  75", " 75 "), ("   0", "    ")]
        {
            assert_eq!(read(&REPORT.replacen(from, to, 1)), None, "{from}");
        }
        assert_eq!(read(&REPORT[..REPORT.len() - 1]), None);
        assert_eq!(read(&(REPORT.to_string() + "\n")), None);
    }

    #[test]
    fn a_choice_lies_between_the_columns() {
        let report = read(REPORT).unwrap();
        let chosen = |amount: usize, way: usize, count: usize| Report {
            counts: vec![(count, 1), (0, 0)],
            costs: [amount, 0, way, 25, amount].map(|cost| (cost, cost)).to_vec(),
        };
        for (amount, way) in [(50, 40), (75, 60), (60, 50)] {
            assert!(report.has_between(&chosen(amount, way, 2)));
            assert!(!report.has_between(&chosen(amount, way, 1)));
        }
        for (amount, way) in [(49, 40), (76, 60), (60, 39), (60, 61)] {
            assert!(!report.has_between(&chosen(amount, way, 2)));
        }
        assert!(!report.has_between(&report));
        assert!(report.at(|ends| ends.0).has_between(&report.at(|ends| ends.0)));
    }

    #[test]
    fn each_line_has_a_fee_of_its_own() {
        let journal = b"Q   1\nY   1\nU   1\nK   1\nU   1\nG   1\nQ   2\nN   2\nQ   1\nY   1\n";
        let fee = |quote: Quote| Fee { confirmation: quote, returning: Quote::of(1_000) };
        let fees = [fee(Quote::between(1, 9)), fee(Quote::between(20, 90))];
        let mut met = std::collections::BTreeSet::new();
        for seed in 0..400 {
            let amounts = charged_each(&mut Dice::new(seed), &fees, journal);
            assert_eq!(amounts[1], 0);
            met.insert(amounts[0]);
        }
        assert_eq!(met, (1_002..=1_018).collect());
    }

    #[test]
    fn amounts_and_their_sum_lie_between_the_columns() {
        let report = read(REPORT).unwrap();
        for amounts in [[50, 0], [75, 0], [60, 0]] {
            assert!(report.encloses(&amounts));
        }
        for amounts in [[49, 0], [76, 0], [60, 1]] {
            assert!(!report.encloses(&amounts));
        }
        let total = Report { counts: vec![], costs: vec![(0, 9), (0, 9), (3, 8)] };
        assert!(total.encloses(&[3, 5]));
        assert!(!total.encloses(&[3, 6]) && !total.encloses(&[1, 1]));
    }
}
