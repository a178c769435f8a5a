//! Wrong versions of the partner range's check: the comparison must find each by our own check, or by
//! its own answer to the front of a long sheet, without the second version.

use second::as_second;
use second::calls::{self, kind_of, pack, place_of, refusal_of, Judged, ACCEPTED, REFUSED};
use second::comparison::partner::{BESIDE_OURS, OTHER_FRONT};
use second::comparison::{Campaign, Comparison};
use second::partner::{LONGEST_SHEET, MOST_BOOKINGS, MOST_WAYS};
use second::plan::{self, Plan};

/// The second version itself, but for one fault.
#[derive(Clone, Copy, Debug, PartialEq)]
enum Fault {
    Faultless,
    // Another idea of what is too large.
    OurLimits,
    Takes17Bookings,
    Takes5Ways,
    Lacks16Bookings,
    Lacks4Ways,
    BookingsAlone,
    WaysAlone,
    BothTogether,
    Product,
    LinksToo,
    MattersToo,
    // 16 at another time.
    BeforeTheForm,
    BeforeTheLineFeed,
    BeforeOurLimits,
    BeforeTheLinks,
    BeforeTheLimit,
    BehindTheLines,
    BehindTheRules,
    BehindAllOurs,
    // Another answer for 16.
    IsForm,
    IsCount,
    Is17,
    NoPlace,
    NextLine,
    KindAccepted,
    // What our check finds and this one does not.
    DropsRefusal(u32),
    LinesCountedFrom0,
    LimitNotLookedAt,
    Booking16HasNoLinks,
    Takes119Links,
    Way4IsNoRefuge,
    // What is long.
    LongIsRefused,
    LongIsTurnedAway,
    LongIsAccepted,
    ReadsAThousandBytes,
    NeedsMoreThanTheFront,
    FrontIsAccepted,
    NullIsAccepted,
    // Our own check has their limits.
    OursTurnsAway,
}

use Fault::*;

struct Faulty(Fault);

const AWAY: u32 = 0x0010_0001;

/// The four numbers of the head, by their columns; 0 where no number stands.
fn numbers(sheet: &[u8]) -> [usize; 4] {
    [1, 5, 9, 13].map(|at| sheet.get(at..at + 4).and_then(plan::number_in_columns).unwrap_or(0))
}

fn head_is_refused(ours: u32) -> bool {
    matches!((refusal_of(ours), place_of(ours)), (1 | 2, 1))
}

/// Our check on the plan as a version takes it, of a sheet that can be read.
fn with_other_plan(sheet: &[u8], other: impl FnOnce(&mut Plan)) -> u32 {
    let Ok(mut plan) = plan::read(sheet) else { return calls::check(sheet) };
    other(&mut plan);
    calls::check(plan::write(&plan).as_bytes())
}

/// On a head that our check lets pass, what a version with another idea of too large says.
fn with_other_limits(fault: Fault, sheet: &[u8]) -> u32 {
    let [n, m, a, limit] = numbers(sheet);
    let is_too_large = match fault {
        OurLimits => false,
        Takes17Bookings => n > MOST_BOOKINGS + 1 || a > MOST_WAYS,
        Takes5Ways => n > MOST_BOOKINGS || a > MOST_WAYS + 1,
        Lacks16Bookings => n >= MOST_BOOKINGS || a > MOST_WAYS,
        Lacks4Ways => n > MOST_BOOKINGS || a >= MOST_WAYS,
        BookingsAlone => n > MOST_BOOKINGS,
        WaysAlone => a > MOST_WAYS,
        BothTogether => n > MOST_BOOKINGS && a > MOST_WAYS,
        Product => n * a > MOST_BOOKINGS * MOST_WAYS,
        LinksToo => n > MOST_BOOKINGS || a > MOST_WAYS || m > 128,
        MattersToo => n > MOST_BOOKINGS || a > MOST_WAYS || limit > MOST_BOOKINGS,
        _ => unreachable!(),
    };
    match calls::check(sheet) {
        ours if !head_is_refused(ours) && is_too_large => AWAY,
        ours => ours,
    }
}

/// Whether a version comes to 16 before what the second version refuses this head for.
fn comes_earlier(fault: Fault, sheet: &[u8], right: u32) -> bool {
    let [n, m, a, limit] = numbers(sheet);
    let is_count = right == pack(REFUSED, 2, 1);
    let is_within_ours = (1..=plan::MOST_BOOKINGS).contains(&n) && (1..=plan::MOST_WAYS).contains(&a);
    let is_too_large = n > MOST_BOOKINGS || a > MOST_WAYS;
    is_too_large
        && match fault {
            BeforeTheForm => head_is_refused(right),
            BeforeTheLineFeed => right == pack(REFUSED, 1, 1) && is_within_ours && (1..=64).contains(&limit),
            BeforeOurLimits => is_count,
            BeforeTheLinks => is_count && is_within_ours && m > plan::MOST_LINKS,
            BeforeTheLimit => is_count && is_within_ours && m <= plan::MOST_LINKS,
            _ => false,
        }
}

/// What a version says where 16 is due.
fn instead_of_16(fault: Fault, ours: u32) -> u32 {
    match fault {
        BehindTheLines if (1..=3).contains(&refusal_of(ours)) => ours,
        BehindTheRules if refusal_of(ours) > 3 => ours,
        BehindAllOurs if kind_of(ours) == REFUSED => ours,
        IsForm => pack(REFUSED, 1, 1),
        IsCount => pack(REFUSED, 2, 1),
        Is17 => pack(REFUSED, 17, 1),
        NoPlace => pack(REFUSED, 16, 0),
        NextLine => pack(REFUSED, 16, 2),
        KindAccepted => pack(ACCEPTED, 16, 1),
        _ => AWAY,
    }
}

/// What a version says of a sheet within their limits.
fn instead_of_ours(fault: Fault, sheet: &[u8], right: u32) -> u32 {
    let refusal = refusal_of(right);
    match fault {
        DropsRefusal(dropped) if refusal == dropped => pack(ACCEPTED, 0, 0),
        LinesCountedFrom0 if (1..=3).contains(&refusal) => right - 1,
        LimitNotLookedAt if right == pack(REFUSED, 2, 1) => {
            let mut mended = sheet.to_vec();
            mended[13..17].copy_from_slice(b"   1");
            calls::partner_check(&mended)
        }
        Booking16HasNoLinks => {
            with_other_plan(sheet, |plan| plan.links.retain(|&(u, v)| u < MOST_BOOKINGS && v < MOST_BOOKINGS))
        }
        Takes119Links => with_other_plan(sheet, |plan| plan.links.truncate(119)),
        Way4IsNoRefuge if right == pack(ACCEPTED, 0, 0) => {
            match with_other_plan(sheet, |plan| plan.ways.truncate(MOST_WAYS - 1)) {
                other if refusal_of(other) == 8 => other,
                _ => right,
            }
        }
        _ => right,
    }
}

/// What a version says of a sheet by its length.
fn by_length(fault: Fault, sheet: &[u8], right: u32) -> u32 {
    let front = LONGEST_SHEET + 1;
    match fault {
        LongIsRefused if sheet.len() > LONGEST_SHEET => pack(REFUSED, 1, 1),
        LongIsTurnedAway if sheet.len() > LONGEST_SHEET => AWAY,
        LongIsAccepted if sheet.len() > front && refusal_of(right) == 1 => pack(ACCEPTED, 0, 0),
        ReadsAThousandBytes if sheet.len() > 1_000 => calls::partner_check(&sheet[..1_000]),
        NeedsMoreThanTheFront if sheet.len() == front => pack(REFUSED, 1, 1),
        FrontIsAccepted if sheet.len() == front && kind_of(right) == REFUSED => pack(ACCEPTED, 0, 0),
        _ => right,
    }
}

fn faulty_check(fault: Fault, sheet: &[u8]) -> u32 {
    let right = calls::partner_check(sheet);
    match fault {
        OurLimits | Takes17Bookings | Takes5Ways | Lacks16Bookings | Lacks4Ways | BookingsAlone
        | WaysAlone | BothTogether | Product | LinksToo | MattersToo => with_other_limits(fault, sheet),
        _ if comes_earlier(fault, sheet, right) => AWAY,
        _ => by_length(
            fault,
            sheet,
            match right {
                AWAY => instead_of_16(fault, calls::check(sheet)),
                _ => instead_of_ours(fault, sheet, right),
            },
        ),
    }
}

impl Faulty {
    fn judged<T>(&self, sheet: &[u8], with: impl FnOnce(&Judged) -> T) -> T {
        with(&calls::judge(sheet))
    }
}

impl Campaign for Faulty {
    as_second!(start, next_order, reply, reply_block, restart, journal_line, settle, passed_ways, join);

    fn check(&self, sheet: &[u8]) -> u32 {
        match self.0 {
            OursTurnsAway => calls::partner_check(sheet),
            _ => calls::check(sheet),
        }
    }

    fn partner_check(&self, sheet: Option<&[u8]>) -> u32 {
        match sheet {
            None if self.0 == NullIsAccepted => pack(ACCEPTED, 0, 0),
            _ => faulty_check(self.0, sheet.unwrap_or(b"")),
        }
    }
}

/// What the comparison tells of a version.
fn told(fault: Fault) -> Option<String> {
    Comparison::new(&Faulty(fault), true).partner(1).err()
}

fn demand_found_by(faults: &[Fault], by: &str) {
    for &fault in faults {
        let told = told(fault).unwrap_or_else(|| panic!("{fault:?} is not found"));
        assert!(told.contains(by), "{fault:?} is found by something else:\n{told}");
    }
}

/// Found by what our own check says of the sheet.
fn demand_found(faults: &[Fault]) {
    demand_found_by(faults, BESIDE_OURS);
}

#[test]
fn the_second_version_does_not_differ_from_itself_and_enough_is_met() {
    let faulty = Faulty(Faultless);
    let mut comparison = Comparison::new(&faulty, true);
    assert!(comparison.enough_for_the_partner().is_err());
    assert_eq!(comparison.partner(1), Ok(()));
    assert_eq!(comparison.enough_for_the_partner(), Ok(()));
    for round in (0..100).filter(|round| round % 16 != 15) {
        assert_eq!(comparison.round(1, round), Ok(()));
    }
}

#[test]
fn other_limits_are_found() {
    demand_found(&[OurLimits, Takes17Bookings, Takes5Ways, Lacks16Bookings, Lacks4Ways]);
    demand_found(&[BookingsAlone, WaysAlone, BothTogether, Product, LinksToo, MattersToo]);
}

#[test]
fn a_16_at_another_time_is_found() {
    demand_found(&[BeforeTheForm, BeforeTheLineFeed, BeforeOurLimits, BeforeTheLinks, BeforeTheLimit]);
    demand_found(&[BehindTheLines, BehindTheRules, BehindAllOurs]);
}

#[test]
fn another_answer_than_16_is_found() {
    demand_found(&[IsForm, IsCount, Is17, NoPlace, NextLine, KindAccepted]);
}

#[test]
fn other_verdicts_within_both_limits_are_found() {
    (1..=8).for_each(|refusal| demand_found(&[DropsRefusal(refusal)]));
    demand_found(&[LinesCountedFrom0, LimitNotLookedAt]);
    demand_found(&[Booking16HasNoLinks, Takes119Links, Way4IsNoRefuge]);
}

#[test]
fn other_verdicts_on_long_sheets_are_found() {
    demand_found(&[LongIsRefused, LongIsTurnedAway, LongIsAccepted, ReadsAThousandBytes]);
    demand_found_by(&[NeedsMoreThanTheFront, FrontIsAccepted], OTHER_FRONT);
}

#[test]
fn an_answer_to_no_sheet_is_found() {
    assert!(told(NullIsAccepted).is_some());
}

#[test]
fn a_16_of_our_own_check_is_found() {
    assert!(told(OursTurnsAway).is_some());
}
