//! The ways passed over: for each way before the current one a line that says
//! why it can't be flown.

use crate::check::Network;
use crate::plan::MOST_WAYS;
use crate::run::{State, HELD, LOST};

pub const PASSED_LINE_LENGTH: usize = 11;

/// A line for each way there can be.
pub const LONGEST_LISTING: usize = MOST_WAYS * PASSED_LINE_LENGTH;

/// The ways before the current one; for a campaign being called off all of them.
fn ways_before(network: &Network, state: &State) -> Vec<usize> {
    let current = usize::from(state[0]);
    network.plan.way_numbers().filter(|&way| current == 0 || way < current).collect()
}

/// The lowest booking of the way that is lost.
fn lowest_lost(network: &Network, state: &State, way: usize) -> Option<usize> {
    network.plan.way(way).iter().copied().filter(|&b| state[b] == LOST).min()
}

/// The lowest booking that is held, can't be given back and has no place in the way.
fn lowest_lacked(network: &Network, state: &State, way: usize) -> Option<usize> {
    let stuck = |b: &usize| state[*b] == HELD && network.plan.kind(*b).is_firm();
    network.plan.bookings().filter(stuck).find(|&b| !network.plan.is_in_way(b, way))
}

/// A lost booking comes first. A way with neither would be live, and no way
/// before the current one is live in a sound state.
fn line(network: &Network, state: &State, way: usize) -> String {
    let (letter, booking) = match lowest_lost(network, state, way) {
        Some(lost) => ('N', lost),
        None => ('H', lowest_lacked(network, state, way).expect("a way that is not live")),
    };
    format!("V{way:4}{letter}{booking:4}\n")
}

/// The listing from a sound state; none of its lines if way 1 is the current one.
pub fn listing(network: &Network, state: &State) -> String {
    ways_before(network, state).into_iter().map(|way| line(network, state, way)).collect()
}

#[cfg(test)]
mod tests {
    use super::*;
    use crate::flights::{plan_of, state_of, tanker};

    fn listed(plan: crate::plan::Plan, state: &[u8]) -> String {
        listing(&Network::new(plan), &state_of(state))
    }

    #[test]
    fn lost_before_lacked_and_nothing_before_way_1() {
        assert_eq!(listed(tanker(), &[1, 2, 1]), "");
        assert_eq!(listed(tanker(), &[2, 2, 2, 3, 1]), "V   1N   3\n");
        assert_eq!(listed(tanker(), &[0, 2, 3]), "V   1N   2\nV   2N   2\n");
        // 1 chase aircraft, 2 slot, 3 tanker, which is held and which way 2 lacks.
        let plan = plan_of("CCP", &[(2, 3)], &[&[1, 2, 3], &[2], &[2, 3]]);
        assert_eq!(listed(plan, &[3, 3, 2, 2]), "V   1N   1\nV   2H   3\n");
    }
}
