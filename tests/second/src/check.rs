//! The check of a plan that was read: refusals 4 to 8.

use crate::plan::{Plan, Refusal};

/// A plan with its order: `precedes[u][v]` by one link or a chain of links.
#[derive(Clone, Debug)]
pub struct Network {
    pub plan: Plan,
    precedes: Vec<Vec<bool>>,
}

impl Network {
    pub fn new(plan: Plan) -> Network {
        let precedes = (0..=plan.count()).map(|from| reached(&plan, from)).collect();
        Network { plan, precedes }
    }

    pub fn precedes(&self, u: usize, v: usize) -> bool {
        self.precedes[u][v]
    }

    pub fn predecessors(&self, booking: usize) -> Vec<usize> {
        self.plan.bookings().filter(|&u| self.precedes(u, booking)).collect()
    }
}

/// Which bookings a search along the links reaches from here; the booking
/// itself only if a chain of links comes back to it.
fn reached(plan: &Plan, from: usize) -> Vec<bool> {
    let mut found = vec![false; plan.count() + 1];
    let mut to_visit = vec![from];
    while let Some(here) = to_visit.pop() {
        for &(u, v) in &plan.links {
            if u == here && !found[v] {
                found[v] = true;
                to_visit.push(v);
            }
        }
    }
    found
}

/// 4: the lowest booking that precedes itself.
fn circular_booking(network: &Network) -> Option<usize> {
    network.plan.bookings().find(|&b| network.precedes(b, b))
}

fn is_closed(network: &Network, way: &[usize]) -> bool {
    way.iter().all(|&b| network.predecessors(b).iter().all(|u| way.contains(u)))
}

/// 5: the first way that lacks something its bookings stand on.
fn unclosed_way(network: &Network) -> Option<usize> {
    let plan = &network.plan;
    plan.way_numbers().find(|&i| !is_closed(network, plan.way(i)))
}

/// 6: the lowest booking in no way.
fn unused_booking(plan: &Plan) -> Option<usize> {
    plan.bookings().find(|&b| !plan.way_numbers().any(|i| plan.is_in_way(b, i)))
}

/// 7: the first way that equals an earlier one.
fn repeated_way(plan: &Plan) -> Option<usize> {
    plan.way_numbers().find(|&i| (1..i).any(|earlier| plan.way(earlier) == plan.way(i)))
}

/// S: the firm bookings of the way, other than x, that may be held when x is
/// lost, because x does not precede them.
pub fn firm_beside(network: &Network, way: usize, x: usize) -> Vec<usize> {
    let plan = &network.plan;
    let beside = |&b: &usize| plan.kind(b).is_firm() && b != x && !network.precedes(x, b);
    plan.way(way).iter().copied().filter(beside).collect()
}

/// An exposed booking of the refuge must be settled by then: it precedes x,
/// or each member of S is the booking itself or stands on it.
fn is_settled(network: &Network, y: usize, x: usize, firm: &[usize]) -> bool {
    network.precedes(y, x) || firm.iter().all(|&s| y == s || network.precedes(y, s))
}

fn is_refuge(network: &Network, way: usize, x: usize, firm: &[usize]) -> bool {
    let plan = &network.plan;
    let holds_all = firm.iter().all(|&s| plan.is_in_way(s, way));
    let exposed = |&&y: &&usize| plan.kind(y).is_exposed();
    holds_all && plan.way(way).iter().filter(exposed).all(|&y| is_settled(network, y, x, firm))
}

fn is_stranding(network: &Network, way: usize, x: usize) -> bool {
    let firm = firm_beside(network, way, x);
    let mut later = way + 1..=network.plan.ways.len();
    !firm.is_empty() && !later.any(|j| is_refuge(network, j, x, &firm))
}

/// 8: the first way, then its lowest booking, where a loss strands.
fn stranding_point(network: &Network) -> Option<(usize, usize)> {
    let plan = &network.plan;
    for way in plan.way_numbers() {
        for &x in plan.way(way) {
            if plan.kind(x).is_exposed() && is_stranding(network, way, x) {
                return Some((way, x));
            }
        }
    }
    None
}

fn absent(found: Option<usize>, number: u32) -> Result<(), Refusal> {
    match found {
        Some(place) => Err(Refusal { number, place: place as u32 }),
        None => Ok(()),
    }
}

/// The network of a plan that passes, or the first refusal among 4 to 8.
pub fn check(plan: Plan) -> Result<Network, Refusal> {
    let network = Network::new(plan);
    absent(circular_booking(&network), 4)?;
    absent(unclosed_way(&network), 5)?;
    absent(unused_booking(&network.plan), 6)?;
    absent(repeated_way(&network.plan), 7)?;
    absent(stranding_point(&network).map(|(way, x)| way * 256 + x), 8)?;
    Ok(network)
}
