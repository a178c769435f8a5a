//! The pairs of sheets that are joined: those that are measured, those around the limits, and random ones.

use crate::calls::pack;
use crate::campaign::Dice;
use crate::join::{BOOKING_LINE, FIELD, HEAD_LINE, LINK_LINE, WAY_LINE};
use crate::plan::bit;
use crate::sheets::{example, grown, longest_text, main_sheets, write_sheet, write_with_desks, Sheet};
use std::collections::BTreeSet;

/// Room for as many bookings, links and ways as there can be.
pub const LONGEST_SHEET: usize =
    HEAD_LINE + BOOKING_LINE * 64 + LINK_LINE * 512 + (WAY_LINE + FIELD * 64) * 16;

/// Two sheets, how many bytes are lent for the joined one, and what the answer must be.
pub struct Pair {
    pub name: String,
    pub first: Vec<u8>,
    pub second: Vec<u8>,
    pub room: usize,
    pub due: u32,
}

fn joined(name: &str, first: &Sheet, second: &Sheet, length: u32) -> Pair {
    let (first, second) = (first.bytes.clone(), second.bytes.clone());
    Pair { name: name.to_string(), first, second, room: LONGEST_SHEET, due: pack(6, 0, length) }
}

fn refused(name: &str, first: &Sheet, second: &Sheet, number: u32, place: u32) -> Pair {
    Pair { due: pack(0, number, place), ..joined(name, first, second, 0) }
}

/// A range slot and a radar van, or else hours in a simulator.
fn radar() -> Sheet {
    let bytes = write_sheet("CDD", &[(1, 2)], &[vec![1, 2], vec![3]]);
    Sheet { name: "radar (3, 1, 2)".to_string(), bytes }
}

/// Small pairs; full size out of two halves, and out of much and little: the second sheet is the one that is
/// renumbered; and those that are refused, each as late as it can be. The lengths are counted by hand.
pub fn measured(examples: &str) -> Vec<Pair> {
    let sheets = main_sheets(examples);
    let (smallest, tanker, full) = (&sheets[0], &sheets[1], &sheets[2]);
    let (half, much, little) = (&grown(32, 256, 4), &grown(60, 506, 16), &grown(4, 6, 1));
    let short = refused("32 and 32 bookings, a byte short: 10", half, half, 10, 0);
    vec![
        joined("smallest, smallest (2, 0, 1)", smallest, smallest, 56),
        joined("Tanker, Tanker (8, 6, 4)", tanker, tanker, 294),
        joined("radar, Tanker (7, 4, 4)", &radar(), tanker, 238),
        joined("32 and 32 bookings (64, 512, 4 x 4)", half, half, 9_906),
        joined("60 and 4 bookings (64, 512, 16 x 1)", much, little, 9_618),
        joined("4 and 60 bookings (64, 512, 1 x 16)", little, much, 9_618),
        refused("full size, full size: 17", full, full, 17, 0),
        Pair { room: 9_905, ..short },
        refused("longest text, full size: 7", &longest_text(), full, 7, 2),
    ]
}

/// Two sheets, and the joined one as it follows from the rules by hand.
pub fn worked(examples: &str) -> [Vec<u8>; 3] {
    let ways = [vec![1, 2, 4, 5, 6], vec![1, 2, 4, 5, 7], vec![3, 4, 5, 6], vec![3, 4, 5, 7]];
    let joined = write_sheet("CDDCPCR", &[(1, 2), (4, 5), (5, 6), (5, 7)], &ways);
    [radar().bytes, example(examples, "tanker", "Tanker (4, 3, 2)").bytes, joined]
}

type Size = (usize, usize, usize);

/// Sizes of two sheets, and whether they are over a limit together: just within it, then just over it.
const AROUND_LIMITS: [(Size, Size, bool); 16] = [
    ((60, 0, 1), (4, 0, 1), false),
    ((60, 0, 1), (5, 0, 1), true),
    ((1, 0, 1), (63, 0, 1), false),
    ((1, 0, 1), (64, 0, 1), true),
    ((40, 500, 1), (8, 12, 1), false),
    ((40, 500, 1), (8, 13, 1), true),
    ((2, 1, 1), (40, 511, 1), false),
    ((2, 1, 1), (40, 512, 1), true),
    ((4, 0, 4), (4, 0, 4), false),
    ((4, 0, 4), (5, 0, 5), true),
    ((3, 0, 3), (5, 0, 5), false),
    ((3, 0, 3), (6, 0, 6), true),
    ((16, 0, 16), (1, 0, 1), false),
    ((16, 0, 16), (2, 0, 2), true),
    ((2, 0, 2), (8, 0, 8), false),
    ((2, 0, 2), (9, 0, 9), true),
];

/// Two sheets, and whether they are too large together.
pub fn around_limits() -> Vec<(Vec<u8>, Vec<u8>, bool)> {
    let sheet = |(n, m, a): Size| grown(n, m, a).bytes;
    AROUND_LIMITS.iter().map(|&(first, second, over)| (sheet(first), sheet(second), over)).collect()
}

type Links = BTreeSet<(usize, usize)>;

/// What is wrong with a random sheet's links or ways.
#[derive(Clone, Copy, PartialEq)]
enum Flaw {
    None,
    Circle,
    OpenWay,
    Unused,
    Twice,
}

/// Links from left to right in a random order of the bookings.
fn any_links(dice: &mut Dice, n: usize, flaw: Flaw) -> Links {
    let mut order: Vec<usize> = (1..=n).collect();
    (1..n).for_each(|at| order.swap(at, dice.below(at + 1)));
    let most = [1, n + 1, 4 * n, 512][dice.below(4)];
    let ends = (0..dice.below(most)).map(|_| (dice.below(n), dice.below(n))).collect::<Vec<_>>();
    let right = ends.into_iter().filter(|(from, to)| from < to || flaw == Flaw::Circle);
    right.map(|(from, to)| (order[from], order[to])).collect()
}

/// A set with all that comes before its members.
fn closed(mut set: u64, links: &Links) -> u64 {
    loop {
        let led_to = links.iter().filter(|(_, v)| set & bit(*v as u32) != 0);
        let before = led_to.fold(0, |all, (u, _)| all | bit(*u as u32));
        if before & !set == 0 {
            return set;
        }
        set |= before;
    }
}

/// Where nothing is wrong one way has all bookings.
fn any_ways(dice: &mut Dice, n: usize, links: &Links, flaw: Flaw) -> Vec<u64> {
    let all = !0 >> (64 - n);
    let mut ways = vec![if flaw == Flaw::Unused { closed(1, links) } else { all }];
    let most = [1, 2, 4, 8, 16][dice.below(5)];
    for _ in 0..dice.below(most) {
        let some = all & dice.below(usize::MAX) as u64 | 1 << dice.below(n);
        let way = if flaw == Flaw::OpenWay { some } else { closed(some, links) };
        if flaw == Flaw::Twice || !ways.contains(&way) {
            ways.push(way);
        }
    }
    let best = dice.below(ways.len());
    ways.rotate_left(best);
    ways
}

/// A random sheet of any size; most are not refused with 1 to 7.
fn any_sheet(dice: &mut Dice) -> Vec<u8> {
    let flaws = [Flaw::Circle, Flaw::OpenWay, Flaw::Unused, Flaw::Twice];
    let flaw = *flaws.get(dice.below(20)).unwrap_or(&Flaw::None);
    let most = [2, 6, 16, 32, 64][dice.below(5)];
    let n = 1 + dice.below(most);
    let kinds: String = (0..n).map(|_| ['C', 'P', 'R', 'D'][dice.below(4)]).collect();
    let links = any_links(dice, n, flaw);
    let members = |way: &u64| (1..=n).filter(|&b| way & bit(b as u32) != 0).collect();
    let ways: Vec<Vec<usize>> = any_ways(dice, n, &links, flaw).iter().map(members).collect();
    let links: Vec<_> = links.into_iter().collect();
    write_with_desks(&kinds, &links, &ways, 1 + dice.below(8), 1 + dice.below(64))
}

pub fn any_pair(dice: &mut Dice) -> (Vec<u8>, Vec<u8>) {
    (any_sheet(dice), any_sheet(dice))
}
