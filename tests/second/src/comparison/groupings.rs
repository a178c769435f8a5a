//! Three sheets joined in both groupings: the version is held against itself.

use super::join_plans::{full_size_plans, right_plans};
use super::joined::{columns, excess, Part, TOO_LARGE};
use super::partner::returnables;
use super::settlements::old_bytes;
use super::{shown_answer, shown_sheet, Comparison, Outcome};
use crate::calls::{kind_of, pack, place_of, ACCEPTED, REFUSED};
use crate::dice::Dice;
use crate::plan::{Plan, LONGEST_SHEET, MOST_BOOKINGS, MOST_LINKS, MOST_WAYS};
use crate::written_joins;

pub const SAME: &str = "groupings: the same bytes";
pub const PASSES: &str = "groupings: the same bytes, and the sheet passes";
pub const AT_A_LIMIT: &str = "groupings: the same bytes, with 64 bookings, 512 links or 16 ways";
pub const FULL_SIZE: &str = "groupings: the same bytes, with 64 bookings, 512 links and 16 ways";
pub const EARLY_17: &str = "groupings: 17 at the first join of both";
pub const MIXED_17: &str = "groupings: 17 at the first join of one only";
pub const LATE_17: &str = "groupings: 17 at the second join of both";
pub const COMPARED: &str = "groupings: each join compared with the second version";

/// What the report says where three sheets differ by their grouping.
pub const OTHER_GROUPING: &str = "not the same in both groupings: ";

/// What a version joined, or its refusal.
type Bare = Result<Vec<u8>, u32>;

/// Bookings, links and ways of three sheets together, by the columns of their heads.
fn all_three(parts: &[Part]) -> Option<[usize; 4]> {
    parts.iter().try_fold([0, 0, 1, 0], |[n, m, a, _], part| {
        let [n3, m3, a3, _] = columns(part.bytes())?;
        Some([n + n3, m + m3, a * a3, 0])
    })
}

/// What is wrong with what the two groupings came to.
fn wrong_between(left: &Bare, right: &Bare, too_large: bool) -> Option<&'static str> {
    match (left, right) {
        (Ok(left), Ok(right)) if left != right => Some("other bytes"),
        (Ok(_), Err(_)) | (Err(_), Ok(_)) => Some("one is refused"),
        (Err(left), Err(right)) if left != right => Some("other refusals"),
        (Err(left), _) if *left != pack(REFUSED, TOO_LARGE, 0) => Some("a refusal that is not 17"),
        (Err(_), _) if !too_large => Some("17, though the heads are not too large together"),
        (Ok(_), _) if too_large => Some("not 17, though the heads are too large together"),
        _ => None,
    }
}

fn shown_bare(name: &str, joined: &Bare) -> String {
    match joined {
        Ok(text) => shown_sheet(name, text),
        Err(answer) => format!("{name}: {}\n", shown_answer(*answer)),
    }
}

/// Plans of so many bookings, links or ways each, alone.
fn of_bookings(n: usize) -> Plan {
    returnables(n, 0, 1)
}

fn of_links(m: usize) -> Plan {
    let n = (1..).find(|n| n * (n - 1) / 2 >= m).expect("so many bookings");
    returnables(n, m, 1)
}

fn of_ways(a: usize) -> Plan {
    returnables(6, 0, a)
}

/// Three numbers each: as large as they can be together, or too large by two of them or by all three.
const BOOKINGS: &str =
    "40 40 1, 1 40 40, 40 1 40, 40 40 40, 64 64 64, 32 31 1, 32 32 1, 1 32 32, 21 21 22, 22 21 22";
const LINKS: &str =
    "300 213 0, 0 300 213, 150 0 363, 171 171 171, 170 171 171, 300 212 0, 0 0 512, 300 300 300";
const WAYS: &str =
    "2 2 4, 4 2 2, 2 4 2, 16 1 1, 1 16 1, 1 1 16, 4 4 2, 2 4 4, 2 8 2, 4 2 4, 16 1 2, 3 3 2, 16 16 16, 5 4 5";

/// The plans for such numbers.
fn threes(numbers: &str, of: impl Fn(usize) -> Plan) -> Vec<Vec<Plan>> {
    let three = |numbers: &str| {
        numbers.split_whitespace().map(|number| of(number.parse().expect("a number"))).collect()
    };
    numbers.split(", ").map(three).collect()
}

impl Comparison<'_> {
    /// Those written down, those at the limits, then so many random ones.
    pub fn groupings(&mut self, seed: u64, fewest: u64) -> Outcome {
        let mut dice = Dice::new(seed);
        self.part = "written groupings".to_string();
        for (sheets, text) in written_joins::THREES {
            let parts = sheets.map(|sheet| self.to_join(sheet.as_bytes()));
            if self.three(&parts)?.as_deref() != Some(text.as_bytes()) {
                let told = format!("{OTHER_GROUPING}not the sheet written down\n");
                return Err(self.join_report(&parts.iter().collect::<Vec<_>>(), &told));
            }
        }
        self.part = "groupings at the limits".to_string();
        let bookings = threes(BOOKINGS, of_bookings);
        for plans in bookings.iter().chain(&threes(LINKS, of_links)).chain(&threes(WAYS, of_ways)) {
            let parts = self.parts_of(plans);
            self.three(&parts)?;
        }
        for _ in 0..20 {
            let parts = self.parts_of(&full_size_plans(&mut dice, 3));
            self.three(&parts)?;
        }
        self.part = "random groupings".to_string();
        for _ in 0..fewest {
            let parts = self.parts_of(&right_plans(&mut dice, 3));
            self.three(&parts)?;
        }
        Ok(())
    }

    /// What the first version joins in a buffer with room for any sheet.
    fn bare_join(&mut self, first: &[u8], second: &[u8]) -> Bare {
        let mut buffer = old_bytes(LONGEST_SHEET);
        let answer = self.first.join(Some(first), Some(second), Some(&mut buffer));
        self.tally.note("join", answer);
        match kind_of(answer) == ACCEPTED && place_of(answer) as usize <= LONGEST_SHEET {
            true => Ok(buffer[..place_of(answer) as usize].to_vec()),
            false => Err(answer),
        }
    }

    /// Three sheets without any of 1 to 7: the same bytes, or 17 at either join, and that by the heads
    /// alone. Gives what they are joined to.
    fn three(&mut self, parts: &[Part]) -> Outcome<Option<Vec<u8>>> {
        let [one, two, three] = [&parts[0], &parts[1], &parts[2]];
        let front = self.bare_join(one.bytes(), two.bytes());
        let back = self.bare_join(two.bytes(), three.bytes());
        let left = front.clone().and_then(|front| self.bare_join(&front, three.bytes()));
        let right = back.clone().and_then(|back| self.bare_join(one.bytes(), &back));
        let together = all_three(parts).expect("heads of sheets that check lets pass");
        if let Some(told) = wrong_between(&left, &right, excess(together).contains(&true)) {
            let shown = shown_bare("the first two first", &left) + &shown_bare("the last two first", &right);
            return Err(self.join_report(&[one, two, three], &format!("{OTHER_GROUPING}{told}\n{shown}")));
        }
        let [n, m, a, _] = together;
        let passes = left.as_ref().is_ok_and(|text| kind_of(self.first.check(text)) == ACCEPTED);
        self.note_all(&[
            (SAME, left.is_ok()),
            (PASSES, passes),
            (FULL_SIZE, left.is_ok() && [n, m, a] == [MOST_BOOKINGS, MOST_LINKS, MOST_WAYS]),
            (AT_A_LIMIT, left.is_ok() && (n == MOST_BOOKINGS || m == MOST_LINKS || a == MOST_WAYS)),
            (EARLY_17, front.is_err() && back.is_err()),
            (MIXED_17, front.is_err() != back.is_err()),
            (LATE_17, left.is_err() && front.is_ok() && back.is_ok()),
        ]);
        Ok(left.ok())
    }

    /// Three random sheets, and then each join of theirs compared as any other; some of what passes is
    /// played.
    pub fn some_three(&mut self, dice: &mut Dice) -> Outcome {
        let parts = self.parts_of(&right_plans(dice, 3));
        let joined = self.three(&parts)?;
        self.tally.event(COMPARED);
        if let Some(front) = self.any_joining(&parts[0], &parts[1], dice)? {
            let front = self.to_join(&front);
            self.any_joining(&front, &parts[2], dice)?;
        }
        if let Some(back) = self.any_joining(&parts[1], &parts[2], dice)? {
            let back = self.to_join(&back);
            self.any_joining(&parts[0], &back, dice)?;
        }
        match joined {
            Some(text) if dice.percent(40) => self.play_joined(&text, dice),
            _ => Ok(()),
        }
    }
}
