//! One campaign out of two: each joined sheet is held against the lines of the two sheets and against
//! what the same version's check says, and then against the second version; campaigns on joined sheets.

use super::groupings;
use super::join_plans::{
    any_plan, firm_half, full_size_plans, random_plans, sheet_of, soft_half, some_room, with_fault,
};
use super::joined::{claim_answer, claim_kept, claim_lines, claim_verdict, Claim, Joined, Part};
use super::joined::{columns, excess, is_too_large, length, together, TOO_LARGE};
use super::lent::Lent;
use super::partner::returnables;
use super::settlements::old_bytes;
use super::{shown_answer, shown_sheet, Case, Comparison, Outcome};
use crate::calls::{self, kind_of, pack, place_of, refusal_of, Judged, ACCEPTED, REFUSED};
use crate::dice::Dice;
use crate::flights;
use crate::generate;
use crate::join;
use crate::plan::{Plan, LONGEST_SHEET, MOST_BOOKINGS, MOST_LINKS, MOST_WAYS};
use crate::written_joins::{self, RADAR, SMALLEST, TANKER};

/// The answer is that of check to the first sheet.
const FIRST_REFUSED: [&str; 7] = [
    "joins: refused with 1 for the first sheet",
    "joins: refused with 2 for the first sheet",
    "joins: refused with 3 for the first sheet",
    "joins: refused with 4 for the first sheet",
    "joins: refused with 5 for the first sheet",
    "joins: refused with 6 for the first sheet",
    "joins: refused with 7 for the first sheet",
];

/// The answer is that of check to the second sheet.
const SECOND_REFUSED: [&str; 7] = [
    "joins: refused with 1 for the second sheet",
    "joins: refused with 2 for the second sheet",
    "joins: refused with 3 for the second sheet",
    "joins: refused with 4 for the second sheet",
    "joins: refused with 5 for the second sheet",
    "joins: refused with 6 for the second sheet",
    "joins: refused with 7 for the second sheet",
];

const BOTH_REFUSED: &str = "joins: refused for the first sheet, the second having another fault";
const LATER_RULE: &str = "joins: refused with 4 to 7 for the first sheet, the second having 1 to 3";
const FIRST_LARGE: &str = "joins: refused for the first sheet, 17 being due too";
const SECOND_LARGE: &str = "joins: refused for the second sheet, 17 being due too";
const REFUSED_SHORT: &str = "joins: refused for a sheet, with no room at all";

const BOOKINGS: &str = "joins: 17 for the bookings alone";
const BOOKINGS_65: &str = "joins: 17 for 65 bookings";
const LINKS: &str = "joins: 17 for the links alone";
const LINKS_513: &str = "joins: 17 for 513 links";
const WAYS: &str = "joins: 17 for the ways alone";
const WAYS_18: &str = "joins: 17 for 18 ways";
const SEVERAL: &str = "joins: 17 for two of the three";
const ALL: &str = "joins: 17 for all three";
const LARGE_SHORT: &str = "joins: 17, with no room either";
const LARGE_8: &str = "joins: 17, a sheet being refused with 8 by check";

const SHORT: &str = "joins: refused for a short buffer";
const SHORT_BY_1: &str = "joins: refused for a buffer that is a byte too short";

const WRITTEN: &str = "joins: written";
const EXACT: &str = "joins: written, a buffer of the sheet's length";
const LONGER: &str = "joins: written, a longer buffer";
const PASSES: &str = "joins: written, and it passes";
const STRANDS: &str = "joins: written and refused with 8 by check, both parts passing";
const FIRST_8: &str = "joins: written, the first being refused with 8 by check";
const SECOND_8: &str = "joins: written, the second being refused with 8 by check";
const AT_64: &str = "joins: written with 64 bookings";
const AT_512: &str = "joins: written with 512 links";
const AT_16: &str = "joins: written with 16 ways";
const FULL_SIZE: &str = "joins: written with 64 bookings, 512 links and 16 ways";
const FULL_SIZE_PASSES: &str = "joins: written with 64 bookings, 512 links and 16 ways, and it passes";
const FIRST_LIMIT: &str = "joins: written, the first's limit being smaller";
const SECOND_LIMIT: &str = "joins: written, the second's limit being smaller";
const OTHER_KINDS: &str = "joins: written, with other kinds at the same places";
const OTHER_DESKS: &str = "joins: written, with other desks at the same places";
const BOTH_LINKED: &str = "joins: written, both with links";
const SEVERAL_WAYS: &str = "joins: written, both with several ways";
const ITSELF: &str = "joins: of a sheet with itself";
const NULL: &str = "joins: something lent as null";

const DAMAGED: &str = "joins: of a damaged sheet";
const PAIRS: &str = "joins: random pairs";
const PLAYED: &str = "joins: campaigns on a joined sheet";
const PLAYED_LARGE: &str = "joins: campaigns on a joined sheet of 64 bookings and 16 ways";

/// What the report says where an answer or a sheet does not fit the two sheets.
pub const NOT_JOINED: &str = "not the joining of these sheets: ";

/// What must have been met so often before the rounds, or too little was shown.
const FEWEST: [(&str, u64); 63] = [
    (FIRST_REFUSED[0], 5_000),
    (FIRST_REFUSED[1], 400),
    (FIRST_REFUSED[2], 700),
    (FIRST_REFUSED[3], 300),
    (FIRST_REFUSED[4], 350),
    (FIRST_REFUSED[5], 350),
    (FIRST_REFUSED[6], 450),
    (SECOND_REFUSED[0], 5_000),
    (SECOND_REFUSED[1], 180),
    (SECOND_REFUSED[2], 450),
    (SECOND_REFUSED[3], 110),
    (SECOND_REFUSED[4], 130),
    (SECOND_REFUSED[5], 130),
    (SECOND_REFUSED[6], 160),
    (BOTH_REFUSED, 1_500),
    (LATER_RULE, 400),
    (FIRST_LARGE, 800),
    (SECOND_LARGE, 280),
    (REFUSED_SHORT, 1_000),
    (BOOKINGS, 300),
    (BOOKINGS_65, 160),
    (LINKS, 120),
    (LINKS_513, 40),
    (WAYS, 600),
    (WAYS_18, 30),
    (SEVERAL, 80),
    (ALL, 20),
    (LARGE_SHORT, 400),
    (LARGE_8, 250),
    (SHORT, 4_500),
    (SHORT_BY_1, 1_400),
    (WRITTEN, 4_000),
    (EXACT, 1_400),
    (LONGER, 2_800),
    (PASSES, 1_900),
    (STRANDS, 1_100),
    (FIRST_8, 550),
    (SECOND_8, 550),
    (AT_64, 300),
    (AT_512, 130),
    (AT_16, 300),
    (FULL_SIZE, 200),
    (FULL_SIZE_PASSES, 60),
    (FIRST_LIMIT, 1_200),
    (SECOND_LIMIT, 1_200),
    (OTHER_KINDS, 2_800),
    (OTHER_DESKS, 3_000),
    (BOTH_LINKED, 2_000),
    (SEVERAL_WAYS, 1_600),
    (ITSELF, 500),
    (NULL, 1_500),
    (DAMAGED, 9_000),
    (PAIRS, 2_000),
    (PLAYED, 150),
    (PLAYED_LARGE, 30),
    (groupings::SAME, 300),
    (groupings::PASSES, 90),
    (groupings::AT_A_LIMIT, 60),
    (groupings::FULL_SIZE, 20),
    (groupings::EARLY_17, 20),
    (groupings::MIXED_17, 45),
    (groupings::LATE_17, 110),
    (groupings::COMPARED, 250),
];

/// What must follow: the joined sheet, or the refusal and its place.
type Due = Result<Vec<u8>, (u32, u32)>;

/// One joining by both versions.
impl Comparison<'_> {
    pub fn to_join(&mut self, sheet: &[u8]) -> Part {
        self.cut_to_join(sheet, b"A   1   1\nA   1   1\n")
    }

    /// A sheet with bytes behind it that are not lent.
    fn cut_to_join(&mut self, sheet: &[u8], rest: &[u8]) -> Part {
        self.judged_to_join(Lent::with_rest(sheet, rest), &calls::judge(sheet))
    }

    fn judged_to_join(&mut self, sheet: Lent, judged: &Judged) -> Part {
        let checked = self.first.check(sheet.bytes());
        self.tally.note("check", checked);
        Part { checked, plan: join::joinable(judged, sheet.bytes()), sheet }
    }

    /// Joins with both versions over old bytes of a buffer of this length.
    fn joining(&mut self, first: &Part, second: &Part, room: usize) -> Outcome<Joined> {
        let old = old_bytes(room);
        let mut buffer = old.clone();
        let answer = calls::join_judged(&first.plan, &second.plan, &mut buffer);
        let due = Joined { answer, buffer };
        let joined = self.joined(first, second, &old, &due, false)?;
        self.note_joined(first, second, &joined);
        if first.bytes().is_empty() || second.bytes().is_empty() || old.is_empty() {
            self.tally.event(NULL);
            self.joined(first, second, &old, &due, true)?;
        }
        Ok(joined)
    }

    /// What the first version joins, which must fit the two sheets and be the second version's. What is
    /// empty may be lent as null; nothing else follows then.
    fn joined(
        &mut self,
        first: &Part,
        second: &Part,
        old: &[u8],
        due: &Joined,
        null: bool,
    ) -> Outcome<Joined> {
        let mut lent = Lent::new(old);
        let given = |bytes: &[u8]| !null || !bytes.is_empty();
        let [one, two] = [first, second].map(|part| Some(part.bytes()).filter(|bytes| given(bytes)));
        let answer = self.first.join(one, two, Some(lent.bytes_mut()).filter(|bytes| given(bytes)));
        self.tally.note("join", answer);
        let joined = Joined { answer, buffer: lent.bytes().to_vec() };
        let whole = lent.guards_are_whole() && first.sheet.is_whole() && second.sheet.is_whole();
        let told = match self.join_claims(first, second, &joined, old) {
            _ if !whole => format!("{NOT_JOINED}a byte of the sheets or not lent has changed\n"),
            Err(told) => format!("{NOT_JOINED}{told}\n"),
            Ok(()) if joined != *due => "the joined sheets differ\n".to_string(),
            Ok(()) => return Ok(joined),
        };
        let shown = |name: &str, joined: &Joined| {
            format!("{name}: {}\n  \"{}\"\n", shown_answer(joined.answer), joined.buffer.escape_ascii())
        };
        let told = told + &shown("first version", &joined) + &shown("second version", due);
        Err(self.join_report(&[first, second], &format!("join, {} bytes lent\n{told}", old.len())))
    }

    /// What can be said of a joining without the second version.
    fn join_claims(&mut self, first: &Part, second: &Part, joined: &Joined, old: &[u8]) -> Claim {
        let text = claim_kept(joined, old)?;
        claim_answer(first, second, old.len(), joined.answer)?;
        if !joined.is_written() {
            return Ok(());
        }
        claim_lines(first.bytes(), second.bytes(), text)?;
        claim_verdict(first, second, self.first.check(text))
    }

    /// What to print when something differs.
    pub fn join_report(&self, parts: &[&Part], told: &str) -> String {
        let mut text = format!("DIFFERENCE in {}\n", self.part);
        for (number, part) in (1..).zip(parts) {
            text += &shown_sheet(&format!("sheet {number}"), part.bytes());
            text += &format!("check: {}\n", shown_answer(part.checked));
        }
        text + told
    }

    /// A joining from which this must follow.
    fn expect_joining(&mut self, first: &Part, second: &Part, room: usize, due: &Due) -> Outcome {
        let joined = self.joining(first, second, room)?;
        let (answer, text) = match due {
            Ok(text) => (pack(ACCEPTED, 0, text.len() as u32), &text[..]),
            Err((refusal, place)) => (pack(REFUSED, *refusal, *place), &[][..]),
        };
        if joined.answer == answer && joined.text() == text {
            return Ok(());
        }
        let told = format!("due: {}\n{}", shown_answer(answer), String::from_utf8_lossy(text));
        Err(self.join_report(&[first, second], &told))
    }

    /// In a buffer with room for any sheet; if it is written, also in one of its length, in one that is a
    /// byte shorter and in one of any length. Gives the joined sheet, if there is one.
    pub fn any_joining(&mut self, first: &Part, second: &Part, dice: &mut Dice) -> Outcome<Option<Vec<u8>>> {
        let joined = self.joining(first, second, LONGEST_SHEET)?;
        let needed = joined.text().len();
        self.joining(first, second, some_room(dice, first, second, needed))?;
        if !joined.is_written() {
            return Ok(None);
        }
        self.joining(first, second, needed)?;
        self.joining(first, second, needed - 1)?;
        Ok(Some(joined.text().to_vec()))
    }

    /// Any sheet, joined with a small one either way round: what is wrong with it comes first.
    pub fn plain_join(&mut self, case: &Case) -> Outcome {
        let small = self.to_join(SMALLEST.as_bytes());
        let part = self.judged_to_join(Lent::new(case.sheet.bytes()), &case.judged);
        let room = part.bytes().len() + 100;
        self.joining(&part, &small, room)?;
        self.joining(&small, &part, room).map(drop)
    }
}

/// What was met.
impl Comparison<'_> {
    pub fn note_all(&mut self, met: &[(&str, bool)]) {
        met.iter().filter(|(_, met)| *met).for_each(|(name, _)| self.tally.event(name));
    }

    fn note_joined(&mut self, first: &Part, second: &Part, joined: &Joined) {
        let room = joined.buffer.len();
        if std::ptr::eq(first, second) {
            self.tally.event(ITSELF);
        }
        match refusal_of(joined.answer) {
            refusal @ 1..=7 => self.note_refused(first, second, refusal, room),
            TOO_LARGE => self.note_too_large(first, second, room),
            10 => {
                let needed = length(first.bytes(), second.bytes());
                self.note_all(&[(SHORT, true), (SHORT_BY_1, needed == Some(room + 1))]);
            }
            _ => self.note_written_sheet(first, second, joined),
        }
    }

    fn note_refused(&mut self, first: &Part, second: &Part, refusal: u32, room: usize) {
        let large = is_too_large(first.bytes(), second.bytes());
        let at_first = first.is_refused();
        let rule = (4..=7).contains(&refusal);
        let names = if at_first { &FIRST_REFUSED } else { &SECOND_REFUSED };
        self.note_all(&[
            (names[refusal as usize - 1], true),
            (BOTH_REFUSED, at_first && second.is_refused() && second.checked != first.checked),
            (LATER_RULE, at_first && rule && (1..=3).contains(&refusal_of(second.checked))),
            (FIRST_LARGE, at_first && large),
            (SECOND_LARGE, !at_first && large),
            (REFUSED_SHORT, room == 0),
        ]);
    }

    fn note_too_large(&mut self, first: &Part, second: &Part, room: usize) {
        let Some(together) = together(first.bytes(), second.bytes()) else { return };
        let [n, m, a, _] = together;
        let excess = excess(together);
        let exceeded = excess.iter().filter(|&&is_exceeded| is_exceeded).count();
        self.note_all(&[
            (BOOKINGS, excess == [true, false, false]),
            (BOOKINGS_65, excess == [true, false, false] && n == MOST_BOOKINGS + 1),
            (LINKS, excess == [false, true, false]),
            (LINKS_513, excess == [false, true, false] && m == MOST_LINKS + 1),
            (WAYS, excess == [false, false, true]),
            (WAYS_18, excess == [false, false, true] && a == 18),
            (SEVERAL, exceeded == 2),
            (ALL, exceeded == 3),
            (LARGE_SHORT, room == 0),
            (LARGE_8, first.has_8() || second.has_8()),
        ]);
    }

    fn note_written_sheet(&mut self, first: &Part, second: &Part, joined: &Joined) {
        let text = joined.text();
        let (Ok(one), Ok(two), Some([n, m, a, _])) = (&first.plan, &second.plan, columns(text)) else {
            return;
        };
        let passes = kind_of(self.first.check(text)) == ACCEPTED;
        let parts_pass = !first.has_8() && !second.has_8();
        let full_size = [n, m, a] == [MOST_BOOKINGS, MOST_LINKS, MOST_WAYS];
        self.note_all(&[
            (WRITTEN, true),
            (EXACT, joined.buffer.len() == text.len()),
            (LONGER, joined.buffer.len() > text.len()),
            (PASSES, passes),
            (STRANDS, !passes && parts_pass),
            (FIRST_8, first.has_8()),
            (SECOND_8, second.has_8()),
            (AT_64, n == MOST_BOOKINGS),
            (AT_512, m == MOST_LINKS),
            (AT_16, a == MOST_WAYS),
            (FULL_SIZE, full_size),
            (FULL_SIZE_PASSES, full_size && passes),
            (FIRST_LIMIT, one.limit < two.limit),
            (SECOND_LIMIT, two.limit < one.limit),
            (OTHER_KINDS, one.kinds.iter().zip(&two.kinds).any(|(a, b)| a != b)),
            (OTHER_DESKS, one.desks.iter().zip(&two.desks).any(|(a, b)| a != b)),
            (BOTH_LINKED, !one.links.is_empty() && !two.links.is_empty()),
            (SEVERAL_WAYS, one.ways.len() > 1 && two.ways.len() > 1),
        ]);
    }
}

/// What is fixed, and random pairs.
impl Comparison<'_> {
    /// What is fixed about joining, three sheets in both groupings, then so many random pairs, and threes
    /// among them.
    pub fn joins(&mut self, seed: u64, fewest: u64) -> Outcome {
        let mut dice = Dice::new(seed);
        self.written_joins(&mut dice)?;
        self.no_sheet_to_join()?;
        self.every_number_of_ways()?;
        self.every_number_of_bookings()?;
        self.numbers_of_links()?;
        self.several_too_many()?;
        self.faults_of_either()?;
        self.full_size_joins(&mut dice)?;
        self.damaged_before_joining()?;
        self.flights_joined(&mut dice)?;
        self.groupings(seed, fewest / 4)?;
        self.part = "random sheets joined".to_string();
        for _ in 0..fewest / 8 {
            self.some_three(&mut dice)?;
            (0..8).try_for_each(|_| self.some_pair(&mut dice))?;
        }
        Ok(())
    }

    /// Whether enough was compared before the rounds.
    pub fn enough_joins(&self) -> Outcome {
        self.tally.demand(&FEWEST)
    }

    /// Each with buffers of every length up to some more than is needed, and longer ones. The verdict of
    /// check is written down too; what passes is played.
    fn written_joins(&mut self, dice: &mut Dice) -> Outcome {
        for written in written_joins::written() {
            self.part = format!("written join \"{}\"", written.name);
            self.tally.event("joins: with the sheet written down");
            let [first, second] = [written.first, written.second].map(|sheet| self.to_join(sheet.as_bytes()));
            let text = written.joined.as_bytes().to_vec();
            for room in [LONGEST_SHEET, 70_000].into_iter().chain(0..=text.len() + 20) {
                let due = if room < text.len() { Err((10, 0)) } else { Ok(text.clone()) };
                self.expect_joining(&first, &second, room, &due)?;
            }
            let verdict = self.to_join(&text).checked;
            if (refusal_of(verdict), place_of(verdict)) != written.verdict {
                return Err(self.join_report(&[&first, &second], "not the verdict written down\n"));
            }
            (0..4).try_for_each(|_| self.play_joined(&text, dice))?;
        }
        Ok(())
    }

    /// Empty sheets, and none at all: they are not of their form. Nor are such with bytes behind them.
    fn no_sheet_to_join(&mut self) -> Outcome {
        self.part = "no sheet to join".to_string();
        let (nothing, tanker) = (self.to_join(b""), self.to_join(TANKER.as_bytes()));
        for room in [0, 1, LONGEST_SHEET] {
            self.expect_joining(&nothing, &nothing, room, &Err((1, 1)))?;
            self.expect_joining(&nothing, &tanker, room, &Err((1, 1)))?;
            self.expect_joining(&tanker, &nothing, room, &Err((1, 1)))?;
        }
        self.part = "bytes behind a sheet to join".to_string();
        for (behind, count) in [("\n", 1), ("\n", 70_000), ("A   3   1   2   4\n", 6_000), (TANKER, 1)] {
            // The Tanker's sheet has ten lines.
            let long = self.to_join((TANKER.to_string() + &behind.repeat(count)).as_bytes());
            for room in [0, 300, LONGEST_SHEET] {
                self.expect_joining(&long, &tanker, room, &Err((1, 11)))?;
                self.expect_joining(&tanker, &long, room, &Err((1, 11)))?;
                self.expect_joining(&long, &nothing, room, &Err((1, 11)))?;
                self.expect_joining(&nothing, &long, room, &Err((1, 1)))?;
            }
        }
        self.expect_joining(&tanker, &tanker, 0, &Err((10, 0)))
    }

    /// Two plans of returnables, too large together or not, in buffers of some lengths.
    fn demand_too_large(&mut self, first: &Part, second: &Part, too_large: bool) -> Outcome {
        if too_large {
            self.expect_joining(first, second, 0, &Err((TOO_LARGE, 0)))?;
            return self.expect_joining(first, second, LONGEST_SHEET, &Err((TOO_LARGE, 0)));
        }
        let joined = self.joining(first, second, LONGEST_SHEET)?;
        if !joined.is_written() {
            return Err(self.join_report(&[first, second], "not joined, though there is room for all\n"));
        }
        self.joining(first, second, joined.text().len())?;
        self.expect_joining(first, second, joined.text().len() - 1, &Err((10, 0)))
    }

    pub fn parts_of(&mut self, plans: &[Plan]) -> Vec<Part> {
        plans.iter().map(|plan| self.to_join(&sheet_of(plan))).collect()
    }

    /// 1 to 16 ways with 1 to 16.
    fn every_number_of_ways(&mut self) -> Outcome {
        self.part = "every number of ways".to_string();
        let plans: Vec<Plan> =
            (1..=16).map(|a| returnables(5, 0, a).with_desks(&[1, 2, 3, 4, 5], a)).collect();
        let parts = self.parts_of(&plans);
        for (first, a1) in parts.iter().zip(1..) {
            for (second, a2) in parts.iter().zip(1..) {
                self.demand_too_large(first, second, a1 * a2 > 16)?;
            }
        }
        Ok(())
    }

    /// 1 to 64 bookings with so many that they are some fewer or some more than 64 together.
    fn every_number_of_bookings(&mut self) -> Outcome {
        self.part = "every number of bookings".to_string();
        let parts = self.parts_of(&(1..=64).map(|n| returnables(n, 0, 1)).collect::<Vec<_>>());
        for n1 in 1..=64 {
            for n2 in [1, 2, 62, 63, 64, 65, 66, 128].into_iter().filter_map(|n: usize| n.checked_sub(n1)) {
                if (1..=64).contains(&n2) {
                    self.demand_too_large(&parts[n1 - 1], &parts[n2 - 1], n1 + n2 > 64)?;
                }
            }
        }
        Ok(())
    }

    /// Links that are some fewer or some more than 512 together, of 64 bookings in all.
    fn numbers_of_links(&mut self) -> Outcome {
        self.part = "numbers of links".to_string();
        for (n1, m1) in [(32, 256), (32, 496), (32, 16), (40, 512), (40, 100), (40, 276), (24, 276), (24, 0)]
        {
            for all in [510, 511, 512, 513, 514, 700, 768] {
                let n2 = 64 - n1;
                if all >= m1 && all - m1 <= (n2 * (n2 - 1) / 2).min(512) {
                    let parts = self.parts_of(&[(n1, m1), (n2, all - m1)].map(|(n, m)| returnables(n, m, 1)));
                    self.demand_too_large(&parts[0], &parts[1], all > 512)?;
                    self.demand_too_large(&parts[1], &parts[0], all > 512)?;
                }
            }
        }
        Ok(())
    }

    /// Any of the three too many, together with others or not.
    fn several_too_many(&mut self) -> Outcome {
        self.part = "several too many".to_string();
        let sizes =
            [(64, 512, 16), (33, 300, 4), (33, 300, 5), (31, 0, 4), (31, 212, 4), (31, 213, 4), (32, 256, 3)];
        let parts = self.parts_of(&sizes.map(|(n, m, a)| returnables(n, m, a)));
        for (first, (n1, m1, a1)) in parts.iter().zip(sizes) {
            for (second, (n2, m2, a2)) in parts.iter().zip(sizes) {
                self.demand_too_large(first, second, n1 + n2 > 64 || m1 + m2 > 512 || a1 * a2 > 16)?;
            }
        }
        Ok(())
    }

    /// Right sheets and such with each fault, each with each: small ones, and such as have too many bookings,
    /// links or ways together; in no room, too little and enough.
    fn faults_of_either(&mut self) -> Outcome {
        self.part = "faults of either sheet".to_string();
        let plans = [(2, 0, 1), (40, 0, 1), (26, 300, 1), (5, 0, 16)].map(|(n, m, a)| returnables(n, m, a));
        let mut sheets = Vec::new();
        for (plan, refusal) in plans.iter().flat_map(|plan| (0..=8).map(move |refusal| (plan, refusal))) {
            let (sheet, verdict) = with_fault(plan.clone(), refusal);
            sheets.push((self.to_join(&sheet), verdict));
        }
        for (first, verdict1) in &sheets {
            for (second, verdict2) in &sheets {
                let sizes = together(first.bytes(), second.bytes()).expect("heads with numbers");
                let due = match (verdict1, verdict2) {
                    ((1..=7, _), _) => Some(*verdict1),
                    (_, (1..=7, _)) => Some(*verdict2),
                    _ if excess(sizes).contains(&true) => Some((TOO_LARGE, 0)),
                    _ => None,
                };
                self.expect_joining(first, second, 0, &Err(due.unwrap_or((10, 0))))?;
                self.expect_joining(first, second, 40, &Err(due.unwrap_or((10, 0))))?;
                match due {
                    Some(refusal) => self.expect_joining(first, second, LONGEST_SHEET, &Err(refusal))?,
                    None => drop(self.joining(first, second, LONGEST_SHEET)?),
                }
            }
        }
        Ok(())
    }

    /// Halves and other shares of a sheet with as many bookings, links and ways as there can be.
    fn full_size_joins(&mut self, dice: &mut Dice) -> Outcome {
        self.part = "halves of a full sheet".to_string();
        let (soft, firm) = (self.to_join(&sheet_of(&soft_half())), self.to_join(&sheet_of(&firm_half())));
        for (first, second) in [(&soft, &firm), (&firm, &soft), (&soft, &soft), (&firm, &firm)] {
            for _ in 0..10 {
                if let Some(text) = self.any_joining(first, second, dice)? {
                    self.play_joined(&text, dice)?;
                }
            }
        }
        self.part = "shares of a full sheet".to_string();
        for _ in 0..60 {
            let parts = self.parts_of(&full_size_plans(dice, 2));
            self.any_joining(&parts[0], &parts[1], dice)?;
        }
        Ok(())
    }

    /// Each byte of two sheets changed, and each end cut off, with the other sheet beside it.
    fn damaged_before_joining(&mut self) -> Outcome {
        self.part = "damaged sheets to join".to_string();
        let (radar, tanker) = (self.to_join(RADAR.as_bytes()), self.to_join(TANKER.as_bytes()));
        for sheet in [RADAR.as_bytes(), TANKER.as_bytes()] {
            for at in 0..sheet.len() {
                for value in generate::damages(sheet[at]) {
                    let mut damaged = sheet.to_vec();
                    damaged[at] = value;
                    let damaged = self.to_join(&damaged);
                    self.tally.event(DAMAGED);
                    self.joining(&damaged, &tanker, 600)?;
                    self.joining(&radar, &damaged, 600)?;
                }
                let cut = self.cut_to_join(&sheet[..at], &sheet[at..]);
                self.tally.event(DAMAGED);
                self.joining(&cut, &tanker, 600)?;
                self.joining(&radar, &cut, 600)?;
            }
        }
        Ok(())
    }

    /// The named sheets and those at the boundaries with some others, and each with itself.
    fn flights_joined(&mut self, dice: &mut Dice) -> Outcome {
        let others = [SMALLEST, RADAR, TANKER].map(|sheet| self.to_join(sheet.as_bytes()));
        for flight in flights::named().iter().chain(&flights::boundaries()) {
            self.part = format!("flight \"{}\" joined", flight.name);
            let part = self.to_join(&flight.sheet);
            for other in &others {
                self.any_joining(&part, other, dice)?;
                self.any_joining(other, &part, dice)?;
            }
            self.any_joining(&part, &part, dice)?;
        }
        Ok(())
    }

    /// Two random sheets, some of them damaged, and now and then one with itself; some of what passes is
    /// played.
    fn some_pair(&mut self, dice: &mut Dice) -> Outcome {
        self.tally.event(PAIRS);
        let plans = random_plans(dice, 2);
        let mut sheets: Vec<Vec<u8>> = plans.iter().map(sheet_of).collect();
        if dice.percent(25) {
            let spoiled = dice.below(2);
            sheets[spoiled] = generate::spoil_sheet(dice, &sheets[spoiled]);
        }
        let parts: Vec<Part> = sheets.iter().map(|sheet| self.to_join(sheet)).collect();
        let (first, second) = (&parts[0], &parts[if dice.percent(5) { 0 } else { 1 }]);
        match self.any_joining(first, second, dice)? {
            Some(text) if dice.percent(40) => self.play_joined(&text, dice),
            _ => Ok(()),
        }
    }

    /// A whole campaign on a joined sheet, if it passes.
    pub fn play_joined(&mut self, text: &[u8], dice: &mut Dice) -> Outcome {
        let case = Case::new(text);
        self.compare_sheet(&case, dice)?;
        let Some(network) = case.network() else { return Ok(()) };
        let large = network.plan.count() == MOST_BOOKINGS && network.plan.ways.len() == MOST_WAYS;
        self.note_all(&[(PLAYED, true), (PLAYED_LARGE, large)]);
        let record = self.campaign(&case, dice)?;
        self.some_listings(&case, &record, dice)
    }

    /// The sheet of a round with another, and a pair or three others.
    pub fn some_joins(&mut self, sheet: &[u8], dice: &mut Dice) -> Outcome {
        let other = sheet_of(&any_plan(dice));
        let (part, other) = (self.to_join(sheet), self.to_join(&other));
        let (first, second) = if dice.percent(50) { (&part, &other) } else { (&other, &part) };
        if let Some(text) = self.any_joining(first, second, dice)? {
            if dice.percent(15) {
                self.play_joined(&text, dice)?;
            }
        }
        if dice.percent(30) {
            return self.some_three(dice);
        }
        self.some_pair(dice)
    }
}
