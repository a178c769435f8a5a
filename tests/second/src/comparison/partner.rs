//! The partner range's check: each sheet that check gets, held against our own check and then
//! against the second version; every head; sheets around their limits, and longer than they lend.

use super::{shown_answer, Call, Case, Comparison, Made, Outcome};
use crate::calls::{self, kind_of, pack, place_of, refusal_of, ACCEPTED, REFUSED};
use crate::dice::Dice;
use crate::flights;
use crate::generate::{self, Size, SMALL};
use crate::partner::{LONGEST_SHEET, MOST_BOOKINGS, MOST_WAYS};
use crate::plan::{self, number_in_columns, Plan};

const TOO_LARGE: u32 = 16;

/// Bytes of a head.
const HEAD: usize = 18;

/// A gateway may lend so many bytes at most: one more than a sheet within its limits can have.
const FRONT: usize = LONGEST_SHEET + 1;

/// Their answer is ours: accepted, then by refusal.
const AS_OURS: [&str; 9] = [
    "partner: accepted as by ours",
    "partner: refused with 1 as by ours",
    "partner: refused with 2 as by ours",
    "partner: refused with 3 as by ours",
    "partner: refused with 4 as by ours",
    "partner: refused with 5 as by ours",
    "partner: refused with 6 as by ours",
    "partner: refused with 7 as by ours",
    "partner: refused with 8 as by ours",
];

/// Their answer is 16, by ours.
const TURNED_AWAY: [&str; 9] = [
    "partner: 16, ours accepting",
    "partner: 16, ours refusing with 1",
    "partner: 16, ours refusing with 2",
    "partner: 16, ours refusing with 3",
    "partner: 16, ours refusing with 4",
    "partner: 16, ours refusing with 5",
    "partner: 16, ours refusing with 6",
    "partner: 16, ours refusing with 7",
    "partner: 16, ours refusing with 8",
];

const AT_THEIR_LIMITS: &str = "partner: accepted with 16 bookings and 4 ways";
const BOOKINGS: &str = "partner: 16 for the bookings alone";
const ONE_BOOKING: &str = "partner: 16 for one booking too many";
const WAYS: &str = "partner: 16 for the ways alone";
const ONE_WAY: &str = "partner: 16 for one way too many";
const BOTH: &str = "partner: 16 for the bookings and the ways";
const LARGE_1: &str = "partner: 1 on a head that is too large for them too";
const LARGE_2: &str = "partner: 2 on a head that is too large for them too";
const LARGE_2_ELSEWHERE: &str = "partner: 2 for the links or the limit alone, on such a head";

const HEADS: &str = "partner: heads";
const BODIES: &str = "partner: heads with all their lines";
const NEAR: &str = "partner: sheets of 15 to 17 bookings in 3 to 5 ways";

const CUT: &str = "partner: more than 5,611 bytes, cut there";
const CUT_16: &str = "partner: more than 5,611 bytes, cut there, 16";
const CUT_BEHIND: &str = "partner: more than 5,611 bytes, cut there, the first of them a sheet that passes";

/// What the report says where an answer can't stand beside that of our check.
pub const BESIDE_OURS: &str = "not an answer beside our check's: ";

/// What it says where the front of a long sheet gets another answer than the whole.
pub const OTHER_FRONT: &str = "its first 5,611 bytes alone: ";

/// What must have been met so often before the rounds, or too little was shown.
const FEWEST: [(&str, u64); 33] = [
    (AS_OURS[0], 300),
    (AS_OURS[1], 10_000),
    (AS_OURS[2], 50_000),
    (AS_OURS[3], 100),
    (AS_OURS[4], 40),
    (AS_OURS[5], 40),
    (AS_OURS[6], 40),
    (AS_OURS[7], 40),
    (AS_OURS[8], 40),
    (TURNED_AWAY[0], 2_000),
    (TURNED_AWAY[1], 10_000),
    (TURNED_AWAY[2], 50),
    (TURNED_AWAY[3], 50),
    (TURNED_AWAY[4], 50),
    (TURNED_AWAY[5], 50),
    (TURNED_AWAY[6], 50),
    (TURNED_AWAY[7], 50),
    (TURNED_AWAY[8], 50),
    (AT_THEIR_LIMITS, 20),
    (BOOKINGS, 2_500),
    (ONE_BOOKING, 300),
    (WAYS, 2_500),
    (ONE_WAY, 600),
    (BOTH, 8_000),
    (LARGE_1, 7_000),
    (LARGE_2, 50_000),
    (LARGE_2_ELSEWHERE, 15_000),
    (HEADS, 45_000),
    (BODIES, 2_800),
    (NEAR, 1_000),
    (CUT, 300),
    (CUT_16, 100),
    (CUT_BEHIND, 90),
];

/// The number in this field of the head, by its columns alone.
pub fn field(sheet: &[u8], field: usize) -> Option<usize> {
    number_in_columns(sheet.get(1 + 4 * field..5 + 4 * field)?)
}

/// Bookings and ways, by the columns of the head alone.
fn bookings_and_ways(sheet: &[u8]) -> Option<(usize, usize)> {
    Some((field(sheet, 0)?, field(sheet, 2)?))
}

fn is_too_large(sheet: &[u8]) -> bool {
    bookings_and_ways(sheet).is_some_and(|(n, a)| n > MOST_BOOKINGS || a > MOST_WAYS)
}

/// Our check refuses the head, so that nothing else counts.
fn head_is_refused(ours: u32) -> bool {
    matches!((refusal_of(ours), place_of(ours)), (1 | 2, 1))
}

/// What is wrong with their answer beside ours, by the columns of the head alone.
fn wrong_beside(sheet: &[u8], ours: u32, theirs: u32) -> Option<&'static str> {
    let turned_away = refusal_of(theirs) == TOO_LARGE;
    let faults = [
        (refusal_of(ours) == TOO_LARGE, "ours is 16"),
        (turned_away && theirs != pack(REFUSED, TOO_LARGE, 1), "16 not for line 1"),
        (turned_away && head_is_refused(ours), "16 on a head that ours refuses"),
        (turned_away && !is_too_large(sheet), "16 on a head within their limits"),
        (!turned_away && theirs != ours, "neither 16 nor the same"),
        (
            !turned_away && !head_is_refused(ours) && is_too_large(sheet),
            "not 16, though only their limits are passed",
        ),
        (kind_of(theirs) == ACCEPTED && sheet.len() > LONGEST_SHEET, "accepted, though it is too long"),
    ];
    faults.into_iter().find(|(is_met, _)| *is_met).map(|(_, told)| told)
}

/// What a head was turned away for, by its columns.
fn reasons(n: usize, a: usize) -> Vec<&'static str> {
    let reasons = [
        (BOOKINGS, a <= MOST_WAYS),
        (ONE_BOOKING, a <= MOST_WAYS && n == MOST_BOOKINGS + 1),
        (WAYS, n <= MOST_BOOKINGS),
        (ONE_WAY, n <= MOST_BOOKINGS && a == MOST_WAYS + 1),
        (BOTH, n > MOST_BOOKINGS && a > MOST_WAYS),
    ];
    reasons.into_iter().filter(|(_, holds)| *holds).map(|(name, _)| name).collect()
}

/// What an answer is counted as.
fn events(sheet: &[u8], ours: u32, theirs: u32) -> Vec<&'static str> {
    let (n, a) = bookings_and_ways(sheet).unwrap_or((0, 0));
    let refusal = refusal_of(ours) as usize;
    if refusal_of(theirs) == TOO_LARGE {
        return [vec![TURNED_AWAY[refusal]], reasons(n, a)].concat();
    }
    let mut events = vec![AS_OURS[refusal]];
    if theirs == pack(ACCEPTED, 0, 0) && (n, a) == (MOST_BOOKINGS, MOST_WAYS) {
        events.push(AT_THEIR_LIMITS);
    }
    if head_is_refused(theirs) && is_too_large(sheet) {
        events.push(if refusal == 1 { LARGE_1 } else { LARGE_2 });
        let ours = (1..=plan::MOST_BOOKINGS).contains(&n) && (1..=plan::MOST_WAYS).contains(&a);
        if refusal == 2 && ours {
            events.push(LARGE_2_ELSEWHERE);
        }
    }
    events
}

/// The numbers up to this one, and some far above.
fn numbers(most: usize) -> Vec<usize> {
    (0..=most).chain([99, 100, 256 + 16, 999, 1000, 9999]).collect()
}

/// Heads of their form with these bookings and ways, and links and limits of matters around ours.
fn right_heads(n: usize, a: usize) -> Vec<String> {
    let others = [0, 1, 512, 513].into_iter().flat_map(|m| [1, 64, 65, 0].map(|limit| (m, limit)));
    others.map(|(m, limit)| format!("P{n:4}{m:4}{a:4}{limit:4}\n")).collect()
}

/// Heads with these bookings and ways that are not of their form, but for some with four digits.
fn misformed_heads(n: usize, a: usize) -> [String; 6] {
    [
        format!("P{n:4}   0{a:4}  64"),
        format!("P{n:4}   0{a:4}  64 \n"),
        format!("p{n:4}   0{a:4}  64\n"),
        format!("P{n:04}   0{a:4}  64\n"),
        format!("P{n:4}   0{a:<4}  64\n"),
        format!("P{n:4}    {a:4}  64\n"),
    ]
}

/// A plan of returnables with so many of each. The ways are different as far as they can be: each
/// leaves out others of the last five bookings, but not all there are.
pub fn returnables(n: usize, m: usize, a: usize) -> Plan {
    let mut plan = flights::returnables(n, m);
    let different = (1 << n.min(5)) - 1;
    let leaves_out = |way: usize, b: usize| n - b < 5 && way % different >> (n - b) & 1 == 1;
    plan.ways = (0..a).map(|way| plan.bookings().filter(|&b| !leaves_out(way, b)).collect()).collect();
    plan
}

/// As many links as there can be without a circle, and four ways that go together with them.
fn in_a_row() -> Plan {
    let mut plan = flights::returnables(16, 120);
    plan.ways = (13..=16).rev().map(|last| (1..=last).collect()).collect();
    plan
}

/// The longest lines of a head within their limits. That many links can't rise, but they have their form.
fn longest_form() -> Plan {
    let mut plan = returnables(16, 0, 4);
    let pairs = (1..=16).flat_map(|u| (1..=16).map(move |v| (u, v)));
    plan.links = pairs.cycle().take(plan::MOST_LINKS).collect();
    plan.ways = vec![plan.bookings().collect(); 4];
    plan
}

/// A random plan of so many bookings and ways.
fn random_plan(dice: &mut Dice, n: usize, a: usize) -> Plan {
    let size = Size { fewest: n, most: n, ways: a, ..SMALL };
    loop {
        let plan = generate::random_plan(dice, size);
        if plan.ways.len() == a {
            return plan;
        }
    }
}

/// A random sheet of so many bookings and ways, its head being right.
fn random_sheet(dice: &mut Dice, n: usize, a: usize) -> Vec<u8> {
    let mut plan = random_plan(dice, n, a);
    let manner = dice.below(8);
    if manner == 0 {
        link_back(dice, &mut plan);
    }
    let sheet = plan::write(&plan).into_bytes();
    match manner {
        1 => with_wrong_count(dice, sheet, n),
        2 => {
            let (head, rest) = sheet.split_at(HEAD);
            [head, &generate::spoil_sheet(dice, rest)].concat()
        }
        _ => sheet,
    }
}

/// A link more, which closes a circle.
fn link_back(dice: &mut Dice, plan: &mut Plan) {
    let itself = dice.between(1, plan.count());
    let (u, v) = if plan.links.is_empty() { (itself, itself) } else { dice.pick(&plan.links) };
    plan.links.push((v, u));
    plan.links.sort();
    plan.links.dedup();
}

/// The last way has another count, often one outside its limits.
fn with_wrong_count(dice: &mut Dice, mut sheet: Vec<u8>, n: usize) -> Vec<u8> {
    let at = 1 + sheet.iter().rposition(|&byte| byte == b'A').expect("a way");
    sheet[at..at + 4].copy_from_slice(format!("{:4}", dice.pick(&[0, n, n + 1, 64, 9999])).as_bytes());
    sheet
}

impl Comparison<'_> {
    /// What the partner range answers where our check gave this answer.
    pub fn partner_too(&mut self, case: &Case, ours: u32) -> Outcome {
        let sheet = case.sheet.bytes();
        let theirs = self.first.partner_check(Some(sheet));
        self.tally.note("partner check", theirs);
        self.history.push((Made::PartnerCheck, theirs));
        if let Some(told) = wrong_beside(sheet, ours, theirs) {
            return Err(self.report(case, &[], &format!("{BESIDE_OURS}{told}\n")));
        }
        let second = calls::partner_check(sheet);
        if theirs != second || !case.sheet.is_whole() {
            let told = format!("the partner range's check, second version: {}\n", shown_answer(second));
            return Err(self.report(case, &[], &told));
        }
        events(sheet, ours, theirs).into_iter().for_each(|event| self.tally.event(event));
        self.cut_for_a_gateway(case, theirs)
    }

    /// The front of a long sheet gets the answer of the whole.
    fn cut_for_a_gateway(&mut self, case: &Case, whole: u32) -> Outcome {
        let Some(front) = case.sheet.bytes().get(..FRONT) else { return Ok(()) };
        if front.len() == case.sheet.bytes().len() {
            return Ok(());
        }
        let answer = self.first.partner_check(Some(front));
        self.tally.note("partner check", answer);
        self.tally.event(CUT);
        if refusal_of(answer) == TOO_LARGE {
            self.tally.event(CUT_16);
        }
        if answer != whole || !case.sheet.is_whole() {
            let told = format!("{OTHER_FRONT}{}\n", shown_answer(answer));
            return Err(self.report(case, &[], &told));
        }
        Ok(())
    }

    /// What is fixed about the partner range's check, and random sheets around its limits.
    pub fn partner(&mut self, seed: u64) -> Outcome {
        let mut dice = Dice::new(seed);
        self.no_sheet()?;
        self.every_head()?;
        self.every_body()?;
        self.long_sheets(&mut dice)?;
        for (n, a) in (15..=17).flat_map(|n| (3..=5).map(move |a| (n, a))) {
            self.near_the_partners_limits(n, a, &mut dice)?;
        }
        Ok(())
    }

    pub fn enough_for_the_partner(&self) -> Outcome {
        self.tally.demand(&FEWEST)
    }

    fn check_both(&mut self, sheet: &[u8]) -> Outcome<u32> {
        self.call(&Case::new(sheet), &mut Vec::new(), Call::Check)
    }

    /// An empty sheet, and none at all.
    fn no_sheet(&mut self) -> Outcome {
        self.part = "no sheet for the partner range".to_string();
        self.check_both(b"")?;
        match self.first.partner_check(None) {
            answer if answer == pack(REFUSED, 1, 1) => Ok(()),
            answer => Err(format!("DIFFERENCE in {}: {}\n", self.part, shown_answer(answer))),
        }
    }

    /// All bookings and ways of a head around all limits, with links and limits of matters around theirs.
    fn every_head(&mut self) -> Outcome {
        self.part = "every head".to_string();
        for (n, a) in numbers(70).into_iter().flat_map(|n| numbers(20).into_iter().map(move |a| (n, a))) {
            for head in right_heads(n, a) {
                self.tally.event(HEADS);
                self.check_both(head.as_bytes())?;
                self.check_both(format!("{head}B   1 C   1\nB   2 X   1\n").as_bytes())?;
            }
            for head in misformed_heads(n, a) {
                self.tally.event(HEADS);
                self.check_both(head.as_bytes())?;
            }
        }
        Ok(())
    }

    /// Heads with all the lines that they announce.
    fn every_body(&mut self) -> Outcome {
        self.part = "heads with all their lines".to_string();
        let few = (1..=70).flat_map(|n| (1..=20).flat_map(move |a| [(n, 0, a), (n, usize::from(n > 1), a)]));
        let many = [33, 48, 64].into_iter().flat_map(|n| [1, 4, 5, 16].map(|a| (n, 512, a)));
        let row = (14..=18).flat_map(|n| [1, 4, 5].map(|a| (n, n * (n - 1) / 2, a)));
        for (n, m, a) in few.chain(many).chain(row) {
            self.tally.event(BODIES);
            self.check_both(plan::write(&returnables(n, m, a)).as_bytes())?;
        }
        Ok(())
    }

    /// Sheets of each length around the longest that they lend, and far longer ones.
    fn long_sheets(&mut self, dice: &mut Dice) -> Outcome {
        self.part = "sheets longer than the partner range's".to_string();
        let within = [returnables(1, 0, 1), flights::tanker(), returnables(16, 0, 4), in_a_row()];
        let above = [returnables(17, 0, 4), returnables(16, 0, 5), returnables(64, 512, 16)];
        for plan in within.iter().chain(&above) {
            let sheet = plan::write(plan).into_bytes();
            let fillings: [&[u8]; 6] = [b"A   1   1\n", b"L   1   2\n", b"\n", b" ", b"\0", &sheet];
            for filling in fillings {
                for length in [FRONT - 2, FRONT - 1, FRONT, FRONT + 1, FRONT + 2, 2 * FRONT, 70_000] {
                    let behind = filling.iter().copied().cycle().take(length.saturating_sub(sheet.len()));
                    let long: Vec<u8> = sheet.iter().copied().chain(behind).collect();
                    self.check_both(&long)?;
                    if long.len() > FRONT && plan.count() <= MOST_BOOKINGS && plan.ways.len() <= MOST_WAYS {
                        self.tally.event(CUT_BEHIND);
                    }
                }
            }
        }
        self.longest_forms(dice)
    }

    /// The longest lines within their limits, cut, damaged, and with more behind them.
    fn longest_forms(&mut self, dice: &mut Dice) -> Outcome {
        let sheet = plan::write(&longest_form()).into_bytes();
        for length in LONGEST_SHEET - 80..=sheet.len() {
            self.check_both(&sheet[..length])?;
        }
        for _ in 0..300 {
            let at = dice.below(sheet.len());
            let mut damaged = sheet.clone();
            damaged[at] = dice.pick(&generate::damages(sheet[at]));
            damaged.extend(vec![dice.byte(); dice.pick(&[0, 1, 2, 5_000])]);
            self.check_both(&damaged)?;
        }
        Ok(())
    }

    /// Random sheets of so many bookings and ways, until our check has passed some of them and refused
    /// some with each of 1 to 8, none of them for its head.
    fn near_the_partners_limits(&mut self, n: usize, a: usize, dice: &mut Dice) -> Outcome {
        const EACH: usize = 10;
        self.part = format!("random sheets of {n} bookings and {a} ways");
        let mut met = [0; 9];
        for _ in 0..5_000 {
            if met.iter().all(|&met| met >= EACH) {
                return Ok(());
            }
            self.tally.event(NEAR);
            let ours = self.check_both(&random_sheet(dice, n, a))?;
            met[refusal_of(ours) as usize] += 1;
        }
        Err(format!("TOO FEW {}: by our refusal {met:?}, but {EACH} each are due\n", self.part))
    }

    /// One more of these in a round.
    pub fn some_near_the_partners_limits(&mut self, dice: &mut Dice) -> Outcome {
        let (n, a) = (dice.between(14, 18), dice.between(3, 5));
        self.check_both(&random_sheet(dice, n, a)).map(drop)
    }
}

#[cfg(test)]
mod tests {
    use super::*;

    #[test]
    fn plans_have_the_size_they_are_made_for() {
        assert_eq!(plan::write(&longest_form()).len(), LONGEST_SHEET);
        let answer = |plan: &Plan| calls::partner_check(plan::write(plan).as_bytes());
        assert_eq!(answer(&longest_form()), pack(REFUSED, 3, 1 + 16 + 257));
        assert_eq!(answer(&in_a_row()), pack(ACCEPTED, 0, 0));
        assert_eq!(answer(&returnables(16, 0, 4)), pack(ACCEPTED, 0, 0));
        let size = |plan: Plan| (plan.count(), plan.links.len(), plan.ways.len());
        assert_eq!(size(returnables(64, 512, 16)), (64, 512, 16));
        let mut dice = Dice::new(1);
        for _ in 0..200 {
            assert_eq!(bookings_and_ways(&random_sheet(&mut dice, 17, 3)), Some((17, 3)));
        }
    }
}
