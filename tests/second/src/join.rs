//! One campaign out of two: the bookings and the links of both, and each way of
//! the first together with each way of the second.

use crate::calls::Judged;
use crate::plan::{self, Plan, Refusal, MOST_BOOKINGS, MOST_LINKS, MOST_WAYS};

/// What a sheet that is to be joined comes to: its plan, or a refusal among 1 to 7.
pub type Joinable = Result<Plan, Refusal>;

/// 8 does not count here: the joined sheet gets a verdict of its own.
pub fn joinable(judged: &Judged, sheet: &[u8]) -> Joinable {
    match judged {
        Ok(network) => Ok(network.plan.clone()),
        Err(refusal) if refusal.number == 8 => plan::read(sheet),
        Err(refusal) => Err(*refusal),
    }
}

fn is_too_large(first: &Plan, second: &Plan) -> bool {
    first.count() + second.count() > MOST_BOOKINGS
        || first.links.len() + second.links.len() > MOST_LINKS
        || first.ways.len() * second.ways.len() > MOST_WAYS
}

/// The second plan with its bookings numbered from behind the first's.
fn renumbered(second: &Plan, behind: usize) -> Plan {
    let mut plan = second.clone();
    plan.links.iter_mut().for_each(|(u, v)| (*u, *v) = (*u + behind, *v + behind));
    plan.ways.iter_mut().flatten().for_each(|booking| *booking += behind);
    plan
}

/// The first's most wanted way with each of the second's, then its next.
fn pairs(first: &[Vec<usize>], second: &[Vec<usize>]) -> Vec<Vec<usize>> {
    let with_each = |one: &Vec<usize>| second.iter().map(|two| [&one[..], two].concat()).collect::<Vec<_>>();
    first.iter().flat_map(with_each).collect()
}

/// The plan of both, or refusal 17.
pub fn join(first: &Plan, second: &Plan) -> Result<Plan, Refusal> {
    if is_too_large(first, second) {
        return Err(Refusal { number: 17, place: 0 });
    }
    let second = renumbered(second, first.count());
    Ok(Plan {
        kinds: [&first.kinds[..], &second.kinds].concat(),
        desks: [&first.desks[..], &second.desks].concat(),
        links: [&first.links[..], &second.links].concat(),
        ways: pairs(&first.ways, &second.ways),
        limit: first.limit.min(second.limit),
    })
}

#[cfg(test)]
mod tests {
    use crate::calls;
    use crate::flights::{plan_of, returnables};
    use crate::plan::{self, Plan};

    const SHORT: u32 = 0x000A_0000;
    const LARGE: u32 = 0x0011_0000;

    fn sheet(plan: &Plan) -> Vec<u8> {
        plan::write(plan).into_bytes()
    }

    /// Kind, refusal and place in sixteens; no byte may change if it is refused.
    fn answer(first: &[u8], second: &[u8], room: usize) -> u32 {
        let mut buffer = vec![b'?'; room];
        let answer = calls::join(first, second, &mut buffer);
        assert!(answer >> 24 == 6 || buffer == vec![b'?'; room]);
        answer
    }

    /// So many ways of a booking each.
    fn separate(a: usize) -> Vec<u8> {
        let mut plan = returnables(a, 0);
        plan.ways = (1..=a).map(|booking| vec![booking]).collect();
        sheet(&plan)
    }

    #[test]
    fn at_the_limits_and_above() {
        for (n1, n2, large) in
            [(32, 32, false), (63, 1, false), (1, 63, false), (64, 1, true), (33, 32, true)]
        {
            let (first, second) = (sheet(&returnables(n1, 0)), sheet(&returnables(n2, 0)));
            // A head, 12 bytes for each booking, and a way of all 64 with 4 bytes each.
            let due = if large { LARGE } else { 0x0600_0000 + 18 + 64 * 12 + 6 + 64 * 4 };
            assert_eq!(answer(&first, &second, 10_098), due, "{n1} and {n2} bookings");
        }
        for (m1, m2, large) in [(256, 256, false), (496, 16, false), (256, 257, true), (17, 496, true)] {
            let (first, second) = (sheet(&returnables(32, m1)), sheet(&returnables(32, m2)));
            let due = if large { LARGE } else { 0x0600_0000 + 18 + 64 * 12 + 512 * 10 + 6 + 64 * 4 };
            assert_eq!(answer(&first, &second, 10_098), due, "{m1} and {m2} links");
        }
        for (a1, a2) in [(4, 4), (2, 8), (8, 2), (16, 1), (1, 16)] {
            // 16 ways with a booking of each.
            let due = 0x0600_0000 + 18 + (a1 + a2) * 12 + 16 * 14;
            assert_eq!(answer(&separate(a1), &separate(a2), 10_098), due as u32, "{a1} and {a2} ways");
        }
        for (a1, a2) in [(3, 6), (6, 3), (2, 9), (5, 4), (16, 2), (2, 16), (16, 16)] {
            assert_eq!(answer(&separate(a1), &separate(a2), 10_098), LARGE, "{a1} and {a2} ways");
        }
    }

    #[test]
    fn the_first_sheets_refusal_then_the_seconds_then_17_then_10() {
        let good = sheet(&plan_of("C", &[], &[&[1]]));
        let circle = sheet(&plan_of("CC", &[(1, 2), (2, 1)], &[&[1, 2]]));
        let repeated = sheet(&plan_of("CC", &[], &[&[1, 2], &[1, 2]]));
        let (large, mut unused) = (sheet(&returnables(64, 0)), returnables(64, 0));
        unused.ways[0].pop();
        let unused = sheet(&unused);
        for (first, second, due) in [
            (&b""[..], &b""[..], 0x0001_0001),
            (&good, b"", 0x0001_0001),
            (&circle, b"", 0x0004_0001),
            (b"", &circle, 0x0001_0001),
            (&circle, &repeated, 0x0004_0001),
            (&repeated, &circle, 0x0007_0002),
            (&good, &repeated, 0x0007_0002),
            (&repeated, &good, 0x0007_0002),
            (&large, &repeated, 0x0007_0002),
            (&large, &unused, 0x0006_0040),
            (&unused, &large, 0x0006_0040),
            (&unused, &circle, 0x0006_0040),
            (&large, &large, LARGE),
            (&good, &large, LARGE),
            (&large, &good, LARGE),
            (&good, &good, SHORT),
        ] {
            assert_eq!(answer(first, second, 0), due);
            assert_eq!(answer(first, second, 49), due);
        }
        // Two bookings in one way: 18, 24 and 14 bytes.
        assert_eq!(answer(&good, &good, 55), SHORT);
        assert_eq!(answer(&good, &good, 56), 0x0600_0038);
        assert_eq!(answer(&good, &good, 57), 0x0600_0038);
    }

    #[test]
    fn a_stranding_point_does_not_count() {
        let (stranding, good) = (sheet(&plan_of("PP", &[], &[&[1, 2]])), sheet(&plan_of("C", &[], &[&[1]])));
        assert_eq!(calls::check(&stranding), 0x0008_0101);
        // Three bookings in one way: 18, 36 and 18 bytes.
        assert_eq!(answer(&stranding, &good, 72), 0x0600_0048);
        assert_eq!(answer(&good, &stranding, 72), 0x0600_0048);
        assert_eq!(answer(&stranding, &sheet(&returnables(63, 0)), 10_098), LARGE);
    }
}
