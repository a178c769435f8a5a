//! The ways passed over: the same listing from both versions, and each line held against the bytes
//! of the state; states, sheets and buffers of every sort.

use super::journals::{any_state, case_of, passing};
use super::lent::Lent;
use super::record::Record;
use super::settlements::{old_bytes, plan_of};
use super::walks::changed;
use super::{shown_answer, Case, Comparison, Outcome};
use crate::calls::{self, kind_of, pack, place_of, refusal_of, ACCEPTED, REFUSED};
use crate::dice::Dice;
use crate::flights::{self, state_of};
use crate::generate::{self, LIMITS, MIDDLE, SMALL};
use crate::passed::{LONGEST_LISTING, PASSED_LINE_LENGTH};
use crate::plan::{number_in_columns, Plan, MOST_BOOKINGS, MOST_LINKS, MOST_WAYS};
use crate::run::{State, HELD, LOST, REQUESTED, STATE_LENGTH};

const LISTED: &str = "listings: written";
const EMPTY: &str = "listings: of no line, way 1 being current";
const CALLED_OFF: &str = "listings: of a campaign being called off";
const BOTH: &str = "listings: with N and with H";
const LONG: &str = "listings: of 15 lines";
const LONGEST: &str = "listings: of 16 lines";
const FULL_SIZE: &str = "listings: with 64 bookings and 16 ways";
const FULL_SIZE_H: &str = "listings: with 64 bookings and 16 ways, and with H";
const LINKS: &str = "listings: with 64 bookings, 512 links and 16 ways";
const EXACT: &str = "listings: a buffer of the listing's length";
const LONGER: &str = "listings: a longer buffer";
const NULL: &str = "listings: something lent as null";

const LINE_N: &str = "listings: a line N";
const LOST_TOO: &str = "listings: a line N, a higher one of the way being lost too";
const LOST_OUTSIDE: &str = "listings: a line N, a lower one being lost outside the way";
const LACKED_TOO: &str = "listings: a line N, a held firm one being lacked too";
const LINE_H: &str = "listings: a line H";
const HIGHER_LACKED: &str = "listings: a line H, a higher one being lacked too";
const LOWER_IN_WAY: &str = "listings: a line H, a lower held firm one being in the way";
const LOWER_SOFT: &str = "listings: a line H, a lower one being held that can be given back";
const LOWER_REQUESTED: &str = "listings: a line H, a lower firm one being requested";
const LOST_ELSEWHERE: &str = "listings: a line H, one being lost outside the way";

const SHEET: &str = "listings: refused for the sheet";
const LENGTH: &str = "listings: refused for the state's length";
const UNSOUND: &str = "listings: refused for an unsound state";
const ROOM: &str = "listings: refused for a short buffer";
const EARLIER: &str = "listings: of several faults the earliest";

const EVERY: &str = "listings: every state of small plans";
const EVERY_SOUND: &str = "listings: every sound state of small plans";
const CAMPAIGNS: &str = "listings: of campaigns and beside them";

/// What the report says where a listing does not tell what the state's own bytes say.
pub const NOT_TRUE: &str = "not the listing of this state: ";

/// What must have been met so often before the rounds, or too little was shown.
const FEWEST: [(&str, u64); 30] = [
    (LISTED, 50_000),
    (EMPTY, 20_000),
    (CALLED_OFF, 5_000),
    (BOTH, 300),
    (LONG, 1_000),
    (LONGEST, 200),
    (FULL_SIZE, 2_000),
    (FULL_SIZE_H, 1_000),
    (LINKS, 1_000),
    (EXACT, 8_000),
    (LONGER, 40_000),
    (NULL, 5_000),
    (LINE_N, 30_000),
    (LOST_TOO, 7_000),
    (LOST_OUTSIDE, 4_000),
    (LACKED_TOO, 1_500),
    (LINE_H, 5_000),
    (HIGHER_LACKED, 700),
    (LOWER_IN_WAY, 1_000),
    (LOWER_SOFT, 300),
    (LOWER_REQUESTED, 200),
    (LOST_ELSEWHERE, 800),
    (SHEET, 5_000),
    (LENGTH, 1_500),
    (UNSOUND, 200_000),
    (ROOM, 8_000),
    (EARLIER, 3_000),
    (EVERY, 200_000),
    (EVERY_SOUND, 6_000),
    (CAMPAIGNS, 20_000),
];

/// What a version answered, and what stands in the buffer then.
#[derive(PartialEq)]
struct Listed {
    answer: u32,
    buffer: Vec<u8>,
}

/// What must follow: the text of the listing, or the refusal and its place.
type Due = Result<String, (u32, u32)>;

// The claims on a listing, each by the bytes of the state and the plan alone.

type Claim<T = ()> = Result<T, &'static str>;

fn demand(holds: bool, told: &'static str) -> Claim {
    if holds {
        Ok(())
    } else {
        Err(told)
    }
}

/// Letter and booking on the line of this way.
fn read_line(line: &[u8], way: usize) -> Option<(u8, usize)> {
    let number = number_in_columns(line.get(1..5)?)?;
    let booking = number_in_columns(line.get(6..10)?)?;
    let framed = line.len() == PASSED_LINE_LENGTH && line[0] == b'V' && line[10] == b'\n';
    (framed && number == way).then_some((line[5], booking))
}

/// Held, and its desk does not take it back: kinds P and R.
fn is_stuck(plan: &Plan, state: &[u8], booking: usize) -> bool {
    state[booking] == HELD && "PR".contains(plan.kind(booking).letter())
}

/// Of the booking on a line `N`.
fn claim_lost(plan: &Plan, state: &[u8], way: usize, booking: usize) -> Claim {
    demand(plan.is_in_way(booking, way), "a booking that the way has not")?;
    demand(state[booking] == LOST, "a booking that is not lost")?;
    let lower = |&b: &usize| b < booking && state[b] == LOST;
    demand(!plan.way(way).iter().any(lower), "a lower booking of the way is lost")
}

/// Of the booking on a line `H`.
fn claim_lacked(plan: &Plan, state: &[u8], way: usize, booking: usize) -> Claim {
    demand(plan.way(way).iter().all(|&b| state[b] != LOST), "a booking of the way is lost")?;
    demand(state[booking] == HELD, "a booking that is not held")?;
    demand(is_stuck(plan, state, booking), "a booking that can be given back")?;
    demand(!plan.is_in_way(booking, way), "a booking that the way has")?;
    let lower = |b: usize| is_stuck(plan, state, b) && !plan.is_in_way(b, way);
    demand(!(1..booking).any(lower), "the way lacks a lower one")
}

fn claim_line(plan: &Plan, state: &[u8], way: usize, line: &[u8]) -> Claim {
    let (letter, booking) = read_line(line, way).ok_or("a line that is not that of its way")?;
    demand(plan.bookings().contains(&booking), "a booking that the plan has not")?;
    match letter {
        b'N' => claim_lost(plan, state, way, booking),
        b'H' => claim_lacked(plan, state, way, booking),
        _ => Err("a letter that is neither N nor H"),
    }
}

/// A line for each way before the current one, lowest first, and no other; each is true.
fn claim_listing(plan: &Plan, state: &[u8], text: &[u8]) -> Claim {
    let before = if state[0] == 0 { plan.ways.len() } else { usize::from(state[0]) - 1 };
    demand(text.len() == before * PASSED_LINE_LENGTH, "not one line for each way before the current one")?;
    let mut lines = (1..).zip(text.chunks(PASSED_LINE_LENGTH));
    lines.try_for_each(|(way, line)| claim_line(plan, state, way, line))
}

/// The listing that a version claims to have written over these old bytes, if they are kept behind it.
fn claimed<'a>(listed: &'a Listed, old: &[u8]) -> Claim<&'a [u8]> {
    let length = if kind_of(listed.answer) == ACCEPTED { place_of(listed.answer) as usize } else { 0 };
    demand(length <= old.len(), "longer than the buffer")?;
    demand(listed.buffer[length..] == old[length..], "a byte behind it, or of a refused call, has changed")?;
    Ok(&listed.buffer[..length])
}

// What is listed.

/// Room for a listing, and more behind it.
fn rooms(needed: usize) -> Vec<usize> {
    let mut rooms = vec![needed, needed + 1, LONGEST_LISTING, 200, 0];
    if needed > 0 {
        rooms.extend([needed - 1, needed / 2]);
    }
    rooms.sort();
    rooms.dedup();
    rooms
}

fn some_room(dice: &mut Dice) -> usize {
    match dice.below(6) {
        0 => dice.below(LONGEST_LISTING),
        1 => PASSED_LINE_LENGTH * dice.between(0, MOST_WAYS),
        2 => (PASSED_LINE_LENGTH * dice.between(1, MOST_WAYS)) - 1,
        _ => LONGEST_LISTING + dice.pick(&[0, 0, 1, 24, 1_000]),
    }
}

/// A state whose length is another one. What would make it whole stands behind what is lent.
fn of_other_length(dice: &mut Dice, state: &[u8]) -> Lent {
    match dice.pick(&[0, 1, 2, 63, 64, 64, 66, 66, 67, 130]) {
        length if length < STATE_LENGTH => Lent::with_rest(&state[..length], &state[length..]),
        length => {
            let mut longer = state.to_vec();
            longer.resize(length, dice.pick(&[0, 0, 1, 255]));
            Lent::new(&longer)
        }
    }
}

/// The text of a listing from its lines.
fn text_of(lines: &[(usize, char, usize)]) -> String {
    lines.iter().map(|(way, letter, booking)| format!("V{way:4}{letter}{booking:4}\n")).collect()
}

/// A slot, a tanker that comes after it and that many ways lack, and other bookings. Once the tanker
/// is held, ways without it are passed over though nothing of theirs is lost; the last way has the
/// two alone.
fn tanker_held(dice: &mut Dice, n: usize, ways: usize) -> Plan {
    let firm = dice.pick(&["P", "R"]);
    let kinds: String = (2..n).map(|_| dice.pick(&["C", "C", "C", "D"])).collect();
    let mut plan = flights::plan_of(&format!("C{kinds}{firm}"), &[(1, n)], &[]);
    plan.ways.push((1..=n).collect());
    while plan.ways.len() < ways - 1 {
        let (share, with_tanker) = (dice.pick(&[10, 30, 60]), dice.percent(40));
        let is_in = |&b: &usize| b == 1 || b == n && with_tanker || b < n && dice.percent(share);
        let way: Vec<usize> = (1..=n).filter(is_in).collect();
        if way.len() > 2 && !plan.ways.contains(&way) {
            plan.ways.push(way);
        }
    }
    plan.ways.push(vec![1, n]);
    plan
}

/// As many bookings, links and ways as there can be: 51 that come before ten repeatables, and three
/// more. Way i lacks one of the ten, or two; way 16 has them all. Each of the three is in three of
/// the first nine ways.
fn full_size() -> Plan {
    let links = (1..=51).flat_map(|u| (55..=64).map(move |v| (u, v))).chain([(1, 2), (1, 3)]);
    let mut links: Vec<(usize, usize)> = links.collect();
    links.sort();
    let lacks = |way: usize, b: usize| match way {
        1..=9 => b == 54 + way || (52..=54).contains(&b) && b != 52 + (way - 1) / 3,
        10 => (52..=54).contains(&b) || b == 64,
        11..=15 => (52..=54).contains(&b) || b == 44 + way || b == 49 + way,
        _ => (52..=54).contains(&b),
    };
    let mut plan = flights::plan_of(&("C".repeat(54) + &"R".repeat(10)), &links, &[]);
    plan.ways = (1..=MOST_WAYS).map(|way| (1..=64).filter(|&b| !lacks(way, b)).collect()).collect();
    plan
}

/// A state of that plan with way 16 current, the first 51 and these held, and these lost.
fn full_size_state(held: &[usize], lost: &[usize]) -> State {
    let mut state = state_of(&[2; 52]);
    state[0] = 16;
    held.iter().for_each(|&b| state[b] = HELD);
    lost.iter().for_each(|&b| state[b] = LOST);
    state
}

/// Sixteen ways of a booking each, all of which may be lost.
fn separate() -> Plan {
    let mut plan = flights::returnables(16, 0);
    plan.ways = (1..=16).map(|booking| vec![booking]).collect();
    plan
}

/// Sound states with their listings, worked out by hand.
fn written() -> Vec<(Plan, State, String)> {
    let slot_tanker = || flights::plan_of("CCP", &[(2, 3)], &[&[1, 2, 3], &[2], &[2, 3]]);
    let repeatables = || flights::plan_of("RR", &[], &[&[1], &[2]]);
    let mixed = || flights::plan_of("DRRCC", &[], &[&[2, 4], &[2, 5], &[2, 3], &[1, 4]]);
    let small: [(Plan, &[u8], &[(usize, char, usize)]); 12] = [
        (flights::tanker(), &[1], &[]),
        (flights::tanker(), &[1, 2, 2, 1], &[]),
        (flights::tanker(), &[2, 2, 2, 3, 1], &[(1, 'N', 3)]),
        (flights::tanker(), &[0, 2, 3], &[(1, 'N', 2), (2, 'N', 2)]),
        (flights::tanker(), &[0, 3], &[(1, 'N', 1), (2, 'N', 1)]),
        (slot_tanker(), &[2, 3, 1], &[(1, 'N', 1)]),
        (slot_tanker(), &[3, 3, 2, 2], &[(1, 'N', 1), (2, 'H', 3)]),
        (slot_tanker(), &[0, 3, 3], &[(1, 'N', 1), (2, 'N', 2), (3, 'N', 2)]),
        (repeatables(), &[2, 0, 2], &[(1, 'H', 2)]),
        // 1 is held and can be given back, 2 is in the ways, 3 is what they lack.
        (mixed(), &[3, 2, 2, 2], &[(1, 'H', 3), (2, 'H', 3)]),
        (mixed(), &[3, 2, 2, 2, 0, 3], &[(1, 'H', 3), (2, 'N', 5)]),
        (mixed(), &[3, 0, 1, 2, 3], &[(1, 'N', 4), (2, 'H', 3)]),
    ];
    let mut all: Vec<_> =
        small.into_iter().map(|(plan, state, lines)| (plan, state_of(state), text_of(lines))).collect();
    all.extend(written_long());
    all
}

/// The same with 15 lines and with 16.
fn written_long() -> Vec<(Plan, State, String)> {
    let alone: Vec<_> = (1..=16).map(|way| (way, 'N', way)).collect();
    let [mut last, mut off] = [state_of(&[3; 17]), state_of(&[3; 17])];
    (last[0], last[16], off[0]) = (16, 0, 0);
    let ten: Vec<usize> = (55..=64).collect();
    let lacked = |way: usize| (way, 'H', if way <= 10 { 54 + way } else { 44 + way });
    let all_held: Vec<_> = (1..=15).map(lacked).collect();
    let lost = |way: usize| if (4..=6).contains(&way) { (way, 'N', 53) } else { lacked(way) };
    let one_lost: Vec<_> = (1..=15).map(lost).collect();
    let all_off: Vec<_> = (1..=16).map(|way| (way, 'N', 51)).collect();
    let mut off_late = state_of(&[2; 51]);
    (off_late[0], off_late[51]) = (0, LOST);
    vec![
        (separate(), last, text_of(&alone[..15])),
        (separate(), off, text_of(&alone)),
        (full_size(), full_size_state(&ten, &[]), text_of(&all_held)),
        (full_size(), full_size_state(&ten, &[53]), text_of(&one_lost)),
        (full_size(), off_late, text_of(&all_off)),
    ]
}

/// One listing by both versions.
impl Comparison<'_> {
    /// Lists with both versions over these old bytes of a buffer.
    fn listing(&mut self, case: &Case, state: &Lent, old: &[u8]) -> Outcome<Listed> {
        self.begin(None);
        let mut buffer = old.to_vec();
        let answer = calls::passed_ways_judged(&case.judged, state.bytes(), &mut buffer);
        let second = Listed { answer, buffer };
        let first = self.listed(case, state, old, &second, false)?;
        self.note_listing(case, state.bytes(), &first);
        if state.bytes().is_empty() || old.is_empty() {
            self.tally.event(NULL);
            self.listed(case, state, old, &second, true)?;
        }
        Ok(first)
    }

    /// The first version's listing, which must be true of the state and that of the second version.
    /// What is empty may be lent as null; nothing else follows then.
    fn listed(
        &mut self,
        case: &Case,
        state: &Lent,
        old: &[u8],
        second: &Listed,
        null: bool,
    ) -> Outcome<Listed> {
        let mut lent = Lent::new(old);
        let given = |bytes: &[u8]| !null || !bytes.is_empty();
        let lent_state = Some(state.bytes()).filter(|bytes| given(bytes));
        let listing = Some(lent.bytes_mut()).filter(|bytes| given(bytes));
        let answer = self.first.passed_ways(case.sheet.bytes(), lent_state, listing);
        self.tally.note("passed ways", answer);
        let first = Listed { answer, buffer: lent.bytes().to_vec() };
        let whole = lent.guards_are_whole() && case.sheet.is_whole() && state.is_whole();
        let told = match self.claims(case, state.bytes(), &first, old) {
            Err(told) => format!("{NOT_TRUE}{told}\n"),
            Ok(()) if first != *second => "the listings differ\n".to_string(),
            Ok(()) if !whole => "a byte of the sheet, of the state or not lent has changed\n".to_string(),
            Ok(()) => return Ok(first),
        };
        let shown = |name: &str, listed: &Listed| {
            format!("{name}: {}\n  \"{}\"\n", shown_answer(listed.answer), listed.buffer.escape_ascii())
        };
        let told = told + &shown("first version", &first) + &shown("second version", second);
        Err(self.report(case, state.bytes(), &format!("passed ways, {} bytes lent\n{told}", old.len())))
    }

    /// What can be said of a listing without the second version.
    fn claims(&self, case: &Case, state: &[u8], listed: &Listed, old: &[u8]) -> Claim {
        let text = claimed(listed, old)?;
        match case.network() {
            Some(network) if kind_of(listed.answer) == ACCEPTED && state.len() == STATE_LENGTH => {
                claim_listing(&network.plan, state, text)
            }
            _ => Ok(()),
        }
    }

    /// A listing from which this must follow.
    fn expect_listing(&mut self, case: &Case, state: &Lent, length: usize, due: &Due) -> Outcome {
        let mut buffer = old_bytes(length);
        let listed = self.listing(case, state, &buffer)?;
        let answer = match due {
            Ok(text) => {
                buffer[..text.len()].copy_from_slice(text.as_bytes());
                pack(ACCEPTED, 0, text.len() as u32)
            }
            Err((refusal, place)) => pack(REFUSED, *refusal, *place),
        };
        if listed == (Listed { answer, buffer }) {
            return Ok(());
        }
        let told = format!("due: {}\n{}", shown_answer(answer), due.as_deref().unwrap_or_default());
        Err(self.report(case, state.bytes(), &told))
    }

    /// Any sheet, with a state that is sound on many: what is wrong with the sheet comes first.
    pub fn plain_listing(&mut self, case: &Case) -> Outcome {
        self.listing(case, &Lent::new(&state_of(&[0, 3])), &old_bytes(22)).map(drop)
    }
}

/// What was met.
impl Comparison<'_> {
    fn note_listing(&mut self, case: &Case, state: &[u8], listed: &Listed) {
        let Some(network) = case.network() else { return self.tally.event(SHEET) };
        match refusal_of(listed.answer) {
            0 => self.note_written(&network.plan, state, listed),
            10 => self.tally.event(ROOM),
            _ if state.len() != STATE_LENGTH => self.tally.event(LENGTH),
            _ => self.tally.event(UNSOUND),
        }
    }

    fn note_written(&mut self, plan: &Plan, state: &[u8], listed: &Listed) {
        let length = place_of(listed.answer) as usize;
        let lines: Vec<&[u8]> = listed.buffer[..length].chunks(PASSED_LINE_LENGTH).collect();
        let has = |letter: u8| lines.iter().any(|line| line[5] == letter);
        let full = plan.count() == MOST_BOOKINGS && plan.ways.len() == MOST_WAYS;
        let met = [
            (LISTED, true),
            (EMPTY, lines.is_empty()),
            (CALLED_OFF, state[0] == 0),
            (BOTH, has(b'N') && has(b'H')),
            (LONG, lines.len() == 15),
            (LONGEST, lines.len() == 16),
            (FULL_SIZE, full),
            (FULL_SIZE_H, full && has(b'H')),
            (LINKS, full && plan.links.len() == MOST_LINKS),
            (EXACT, listed.buffer.len() == length),
            (LONGER, listed.buffer.len() > length),
        ];
        self.note_met(&met);
        for (way, line) in (1..).zip(lines) {
            self.note_line(plan, state, way, line);
        }
    }

    fn note_met(&mut self, met: &[(&str, bool)]) {
        met.iter().filter(|(_, met)| *met).for_each(|(name, _)| self.tally.event(name));
    }

    /// Why another booking could have been mistaken for the one on the line.
    fn note_line(&mut self, plan: &Plan, state: &[u8], way: usize, line: &[u8]) {
        let (letter, booking) = read_line(line, way).expect("a line that was compared");
        let some = |holds: &dyn Fn(usize) -> bool| plan.bookings().any(holds);
        let lacked = |b: usize| is_stuck(plan, state, b) && !plan.is_in_way(b, way);
        let lost = |b: usize, inside: bool| state[b] == LOST && plan.is_in_way(b, way) == inside;
        if letter == b'N' {
            return self.note_met(&[
                (LINE_N, true),
                (LOST_TOO, some(&|b| b > booking && lost(b, true))),
                (LOST_OUTSIDE, some(&|b| b < booking && lost(b, false))),
                (LACKED_TOO, some(&lacked)),
            ]);
        }
        let soft = |b: usize| state[b] == HELD && !plan.kind(b).is_firm() && !plan.is_in_way(b, way);
        let requested = |b: usize| state[b] == REQUESTED && plan.kind(b).is_firm() && !plan.is_in_way(b, way);
        self.note_met(&[
            (LINE_H, true),
            (HIGHER_LACKED, some(&|b| b > booking && lacked(b))),
            (LOWER_IN_WAY, some(&|b| b < booking && is_stuck(plan, state, b))),
            (LOWER_SOFT, some(&|b| b < booking && soft(b))),
            (LOWER_REQUESTED, some(&|b| b < booking && requested(b))),
            (LOST_ELSEWHERE, some(&|b| lost(b, false))),
        ]);
    }
}

/// What is fixed, and campaigns.
impl Comparison<'_> {
    /// What is fixed about listings, every state of small plans, then listings of campaigns until
    /// so many here were asked for.
    pub fn passed_ways(&mut self, seed: u64, fewest: u64) -> Outcome {
        let mut dice = Dice::new(seed);
        self.written_listings()?;
        self.refused_before_listings(&mut dice)?;
        self.unsound_before_listings(&mut dice)?;
        self.every_small_listing()?;
        self.every_listing_of_a_few(300, &mut dice)?;
        self.listings_at_the_limits(&mut dice)?;
        let mut cases = passing();
        cases.extend(flights::wide().iter().map(case_of));
        let enough = self.tally.count_of_events(CAMPAIGNS) + fewest;
        while self.tally.count_of_events(CAMPAIGNS) < enough {
            self.part = "listings of campaigns".to_string();
            if dice.percent(50) {
                self.listings_beside_a_tanker(&mut dice)?;
                continue;
            }
            let case = &cases[dice.below(cases.len())];
            let record = self.campaign(case, &mut dice)?;
            self.some_listings(case, &record, &mut dice)?;
        }
        Ok(())
    }

    /// A campaign in which ways are passed over for a tanker that is held: few random plans have such.
    pub fn listings_beside_a_tanker(&mut self, dice: &mut Dice) -> Outcome {
        let (n, ways) = (dice.between(5, 12), dice.between(3, 8));
        let case = case_of(&tanker_held(dice, n, ways));
        let record = self.campaign(&case, dice)?;
        self.some_listings(&case, &record, dice)
    }

    /// Whether enough was compared before the rounds.
    pub fn enough_listings(&self) -> Outcome {
        self.tally.demand(&FEWEST)
    }

    /// Each with buffers of every length up to some more than is needed.
    fn written_listings(&mut self) -> Outcome {
        for (at, (plan, state, text)) in written().into_iter().enumerate() {
            self.part = format!("written listing {}", at + 1);
            self.tally.event("listings: with the text written down");
            let case = case_of(&plan);
            for length in [LONGEST_LISTING, 177, 1_000, 70_000].into_iter().chain(0..=text.len() + 20) {
                let due = if length < text.len() { Err((10, 0)) } else { Ok(text.clone()) };
                self.expect_listing(&case, &Lent::new(&state), length, &due)?;
            }
        }
        Ok(())
    }

    /// A refused sheet comes first, whatever else is wrong; also where nothing is.
    fn refused_before_listings(&mut self, dice: &mut Dice) -> Outcome {
        let states = [&state_of(&[0, 3])[..], &state_of(&[1]), &[9; 65], &[0; 64], &[0; 66], &[]];
        for (name, sheet, verdict) in flights::refused_sheets() {
            self.part = format!("listings on the refused sheet \"{name}\"");
            let case = Case::new(&sheet);
            for state in states {
                for length in [0, 1, 11, LONGEST_LISTING, 300] {
                    self.tally.event(EARLIER);
                    self.expect_listing(&case, &Lent::new(state), length, &Err(verdict))?;
                }
            }
        }
        self.part = "listings on damaged sheets".to_string();
        for flight in flights::named() {
            for _ in 0..200 {
                let case = Case::new(&generate::spoil_sheet(dice, &flight.sheet));
                self.listing(&case, &Lent::new(&state_of(&[0, 3])), &old_bytes(some_room(dice)))?;
            }
        }
        Ok(())
    }

    /// An unsound state comes before a short buffer.
    fn unsound_before_listings(&mut self, dice: &mut Dice) -> Outcome {
        self.part = "listings of unsound states".to_string();
        for unsound in flights::unsound_states() {
            let case = case_of(&unsound.plan);
            for length in [0, 1, 10, 11, 22, LONGEST_LISTING, 300] {
                self.tally.event(EARLIER);
                self.expect_listing(&case, &Lent::new(&unsound.state), length, &Err((11, 0)))?;
            }
        }
        self.part = "listings of states of another length".to_string();
        for (plan, state, _) in written() {
            let case = case_of(&plan);
            for _ in 0..60 {
                let state = of_other_length(dice, &state);
                self.tally.event(EARLIER);
                self.expect_listing(&case, &state, some_room(dice), &Err((11, 0)))?;
            }
        }
        Ok(())
    }

    /// Every state of this plan, as it is; those that are sound with buffers of some lengths.
    pub fn every_listing(&mut self, case: &Case, states: &[State]) -> Outcome {
        for state in states {
            self.tally.event(EVERY);
            let lent = Lent::new(state);
            let listed = self.listing(case, &lent, &old_bytes(LONGEST_LISTING))?;
            if kind_of(listed.answer) != ACCEPTED {
                continue;
            }
            self.tally.event(EVERY_SOUND);
            for room in rooms(place_of(listed.answer) as usize) {
                self.listing(case, &lent, &old_bytes(room))?;
            }
        }
        Ok(())
    }

    /// As many bookings and ways as there can be, and most links.
    fn listings_at_the_limits(&mut self, dice: &mut Dice) -> Outcome {
        self.part = "listings at the limits".to_string();
        for plan in [full_size(), separate(), tanker_held(dice, 64, 16), tanker_held(dice, 64, 16)] {
            let case = case_of(&plan);
            for _ in 0..6 {
                let record = self.campaign(&case, dice)?;
                (0..10).try_for_each(|_| self.some_listings(&case, &record, dice))?;
            }
        }
        let case = case_of(&full_size());
        for _ in 0..1_000 {
            // With all ten held it is sound, with fewer only if enough is lost.
            let held: Vec<usize> = (55..=64).filter(|_| dice.percent(95)).collect();
            let lost: Vec<usize> = (52..=54).filter(|_| dice.percent(50)).collect();
            let state = full_size_state(&held, &lost);
            self.any_listing(&case, &state, dice)?;
        }
        for round in 0..60 {
            let size = [SMALL, MIDDLE, MIDDLE, LIMITS][round % 4];
            let case = case_of(&generate::random_plan(dice, size));
            if case.network().is_some() {
                let record = self.campaign(&case, dice)?;
                self.some_listings(&case, &record, dice)?;
            }
        }
        Ok(())
    }
}

/// Listings of campaigns.
impl Comparison<'_> {
    /// From some states of a campaign, from states beside them, and from some of another length.
    pub fn some_listings(&mut self, case: &Case, record: &Record, dice: &mut Dice) -> Outcome {
        let plan = plan_of(case);
        for _ in 0..3 {
            let state = record.state_after(dice.between(0, record.lines()));
            self.any_listing(case, state, dice)?;
            let beside = changed(dice, plan, state.try_into().expect("65 bytes"));
            self.any_listing(case, &beside, dice)?;
        }
        let last = record.state_after(record.lines());
        self.any_listing(case, last, dice)?;
        self.any_listing(case, &any_state(dice), dice)?;
        self.tally.event(EARLIER);
        self.expect_listing(case, &of_other_length(dice, last), some_room(dice), &Err((11, 0)))
    }

    /// In a buffer of any length, and if it is listed in one of its length and in one that is shorter.
    fn any_listing(&mut self, case: &Case, state: &[u8], dice: &mut Dice) -> Outcome {
        self.tally.event(CAMPAIGNS);
        let state = Lent::new(state);
        self.listing(case, &state, &old_bytes(some_room(dice)))?;
        let listed = self.listing(case, &state, &old_bytes(LONGEST_LISTING))?;
        let needed = place_of(listed.answer) as usize;
        if kind_of(listed.answer) == ACCEPTED && needed > 0 {
            let text = String::from_utf8_lossy(&listed.buffer[..needed]).into_owned();
            self.expect_listing(case, &state, needed, &Ok(text))?;
            let any = dice.below(needed);
            let short = dice.pick(&[needed - 1, needed - 1, 0, any]);
            self.expect_listing(case, &state, short, &Err((10, 0)))?;
        }
        Ok(())
    }
}
