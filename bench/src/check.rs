//! Chains of links, and the check on whole sets.

use crate::plan::{Plan, DESKS};
use crate::refusal::Refusal;

pub struct Network {
    pub bookings: usize,
    pub exposed: u64,
    pub firm: u64,
    /// All that precedes a booking, by chains too; all that it precedes.
    pub before: [u64; 64],
    pub after: [u64; 64],
    pub way: [u64; 16],
    pub ways: usize,
    pub desks: [u64; DESKS],
    pub limit: u32,
}

/// The members of a set, lowest first, as indices.
pub fn members(mut set: u64) -> impl Iterator<Item = usize> {
    std::iter::from_fn(move || {
        if set == 0 {
            return None;
        }
        let member = set.trailing_zeros() as usize;
        set &= set - 1;
        Some(member)
    })
}

/// Warshall, a whole set at a time; without a branch, for the bits are hard to foretell.
fn close(before: &mut [u64; 64], bookings: usize) {
    for middle in 0..bookings {
        let earlier = before[middle];
        if earlier == 0 {
            continue;
        }
        for set in &mut before[..bookings] {
            let joined = (*set >> middle & 1).wrapping_neg();
            *set |= earlier & joined;
        }
    }
}

fn turned(before: &[u64; 64], bookings: usize) -> [u64; 64] {
    let mut after = [0; 64];
    for (booking, set) in before[..bookings].iter().enumerate() {
        for earlier in members(*set) {
            after[earlier] |= 1 << booking;
        }
    }
    after
}

impl Network {
    pub fn way_sets(&self) -> &[u64] {
        &self.way[..self.ways]
    }

    /// If x is lost on this way, what may be held for good by then.
    fn stuck(&self, way: u64, x: usize) -> u64 {
        way & self.firm & !(1 << x) & !self.after[x]
    }

    fn has_refuge(&self, later: &[u64], x: usize, stuck: u64) -> bool {
        let under_all = members(stuck).fold(!0, |set, s| set & (self.before[s] | 1 << s));
        let harmless = self.before[x] | under_all;
        later.iter().any(|way| stuck & !way == 0 && way & self.exposed & !harmless == 0)
    }

    fn stranding_point(&self) -> Option<(usize, usize)> {
        let ways = self.way_sets();
        for (i, &way) in ways.iter().enumerate() {
            for x in members(way & self.exposed) {
                let stuck = self.stuck(way, x);
                if stuck != 0 && !self.has_refuge(&ways[i + 1..], x, stuck) {
                    return Some((i, x));
                }
            }
        }
        None
    }

    fn fault(&self) -> Option<Refusal> {
        flaw(&self.before, self.bookings, self.way_sets()).or_else(|| {
            let (i, x) = self.stranding_point()?;
            Some(Refusal { number: 8, place: ((i + 1) * 256 + x + 1) as u32 })
        })
    }
}

fn is_open(before: &[u64; 64], way: u64) -> bool {
    members(way).any(|booking| before[booking] & !way != 0)
}

/// What is refused with 4 to 7; the chains of links are in the sets.
#[inline]
fn flaw(before: &[u64; 64], bookings: usize, ways: &[u64]) -> Option<Refusal> {
    let refusal = |number, place| Some(Refusal { number, place: place as u32 });
    if let Some(b) = (0..bookings).find(|&b| before[b] >> b & 1 != 0) {
        return refusal(4, b + 1);
    }
    if let Some(i) = ways.iter().position(|&way| is_open(before, way)) {
        return refusal(5, i + 1);
    }
    let used = ways.iter().fold(0, |all, way| all | way);
    if (used.trailing_ones() as usize) < bookings {
        return refusal(6, used.trailing_ones() as usize + 1);
    }
    if let Some(i) = (0..ways.len()).find(|&i| ways[..i].contains(&ways[i])) {
        return refusal(7, i + 1);
    }
    None
}

/// The network of a plan that passes.
pub fn check(plan: Plan) -> Result<Network, Refusal> {
    let Plan { bookings, ways, exposed, firm, mut before, way, desks, limit, .. } = plan;
    close(&mut before, bookings);
    let after = turned(&before, bookings);
    let network = Network { bookings, exposed, firm, before, after, way, ways, desks, limit };
    match network.fault() {
        Some(refusal) => Err(refusal),
        None => Ok(network),
    }
}

/// As check, but a plan that may strand is not refused.
pub fn check_but_stranding(plan: &Plan) -> Result<(), Refusal> {
    let mut before = plan.before;
    close(&mut before, plan.bookings);
    match flaw(&before, plan.bookings, &plan.way[..plan.ways]) {
        Some(refusal) => Err(refusal),
        None => Ok(()),
    }
}
