//! Plans to be joined: with a fault, halves of a full sheet, and random ones around the limits.

use super::joined::{Part, HEAD};
use super::partner::returnables;
use crate::calls::{self, refusal_of};
use crate::dice::Dice;
use crate::flights;
use crate::generate::{self, Size, MIDDLE, SMALL};
use crate::plan::{self, Kind, Plan, LONGEST_SHEET, MOST_BOOKINGS, MOST_WAYS};

pub fn sheet_of(plan: &Plan) -> Vec<u8> {
    plan::write(plan).into_bytes()
}

/// A fault for check, 1 to 8, put into a plan of returnables whose links begin with 1 to 2 if it has
/// any; with 0 it stays right. The sheet, and what check says of it.
pub fn with_fault(mut plan: Plan, refusal: u32) -> (Vec<u8>, (u32, u32)) {
    let (n, m, a) = (plan.count(), plan.links.len(), plan.ways.len());
    let lines = 1 + n + m + a;
    let place = match refusal {
        0 => 0,
        1 => lines + 1,
        2 => lines,
        3 => {
            plan.desks[0] = 9;
            2
        }
        4 => {
            plan.links.insert(0, (1, 1));
            1
        }
        5 => {
            plan.links.extend((m == 0).then_some((1, 2)));
            plan.ways[a - 1] = vec![2];
            a
        }
        6 => {
            plan.ways.iter_mut().for_each(|way| way.retain(|&b| b != n));
            n
        }
        7 => {
            plan.ways.truncate(MOST_WAYS - 1);
            plan.ways.push(plan.ways[0].clone());
            plan.ways.len()
        }
        _ => {
            // With a link between them only the loss of the later one strands the other.
            plan.kinds[..2].fill(Kind::Pivot);
            256 + if m == 0 { 1 } else { 2 }
        }
    };
    let mut sheet = sheet_of(&plan);
    match refusal {
        1 => sheet.push(b'\n'),
        2 => {
            let last = 1 + sheet.iter().rposition(|&byte| byte == b'A').expect("a way");
            sheet[last..last + 4].copy_from_slice(b"   0");
        }
        _ => {}
    }
    (sheet, (refusal, place as u32))
}

/// Half of a sheet of full size that passes: its first ways may be lost, its last one can't be.
pub fn soft_half() -> Plan {
    let within = |from: usize, to: usize| (from..=to).flat_map(move |u| (u + 1..=to).map(move |v| (u, v)));
    let mut links: Vec<(usize, usize)> = within(1, 16).chain(within(17, 32)).collect();
    links.extend((1..=16).map(|v| (17, v)));
    links.sort();
    let mut plan = flights::plan_of(&("C".repeat(16) + &"D".repeat(16)), &links, &[]);
    let way = |lost: usize, sure: usize| (1..=lost).chain(17..=sure).collect();
    plan.ways = vec![way(16, 32), way(8, 32), way(1, 20), way(0, 32)];
    plan.desks = (0..32).map(|at| 1 + at % 7).collect();
    plan.limit = 3;
    plan
}

/// The other half: 29 slots before a tanker, and behind it 31, which may be lost, or 32, which can't be.
pub fn firm_half() -> Plan {
    let before = (1..=29).flat_map(|u| (u + 1..=29).map(move |v| (u, v))).take(225);
    let mut links: Vec<(usize, usize)> = before.chain((1..=29).map(|u| (u, 30))).collect();
    links.extend([(30, 31), (30, 32)]);
    links.sort();
    let mut plan = flights::plan_of(&("C".repeat(29) + "PCR"), &links, &[]);
    let way = |behind: &[usize]| (1..=30).chain(behind.iter().copied()).collect();
    plan.ways = vec![way(&[31, 32]), way(&[31]), way(&[32]), way(&[])];
    plan.desks = (0..32).map(|at| 8 - at % 5).collect();
    plan.limit = 2;
    plan
}

fn random_plan(dice: &mut Dice, n: usize, ways: usize) -> Plan {
    let fill_links = dice.percent(30);
    generate::random_plan(dice, Size { fewest: n, most: n, ways, fill_links })
}

/// A plan of which nothing is firm, and whose last way can't be lost: many joined with such a one pass.
fn soft_plan(dice: &mut Dice) -> Plan {
    let (n, ways) = (dice.between(1, 8), dice.between(1, 4));
    let mut plan = random_plan(dice, n, ways);
    let last = plan.ways[plan.ways.len() - 1].clone();
    for booking in plan.bookings() {
        let sure = last.contains(&booking) || dice.percent(30);
        plan.kinds[booking - 1] = if sure { Kind::RepeatableReturnable } else { Kind::Returnable };
    }
    plan
}

pub fn any_plan(dice: &mut Dice) -> Plan {
    let size = dice.pick(&[SMALL, SMALL, SMALL, MIDDLE]);
    let ways = dice.pick(&[2, 3, 4, size.ways]);
    generate::random_plan(dice, Size { ways, ..size })
}

/// So many plans whose bookings are together 64, or some fewer or more.
fn plans_near_64(dice: &mut Dice, count: usize, ways: usize) -> Vec<Plan> {
    let mut left = dice.pick(&[63, 64, 64, 64, 65, 65, 66, 70]);
    let mut plans = Vec::new();
    for others in (0..count).rev() {
        let n = if others == 0 { left } else { dice.between(1, left - others) };
        left -= n;
        plans.push(random_plan(dice, n.min(MOST_BOOKINGS), ways));
    }
    plans
}

/// So many plans whose links are together 512, or some fewer or more, in ways of all bookings.
fn plans_near_512(dice: &mut Dice, count: usize) -> Vec<Plan> {
    let mut left = dice.pick(&[511, 512, 512, 513, 514, 600]);
    let n = 64 / count;
    let mut plans = Vec::new();
    for others in (0..count).rev() {
        let most = (n * (n - 1) / 2).min(left);
        let m = if others == 0 { most } else { dice.between(most * 3 / 5, most) };
        left -= m;
        let plan = returnables(n, m, dice.pick(&[1, 1, 2]));
        plans.push(generate::give_desks(dice, plan));
    }
    plans
}

/// Sizes, bookings, links and ways, that make a sheet of full size together.
const SHARES: [&[(usize, usize, usize)]; 5] = [
    &[(32, 256, 4), (32, 256, 4)],
    &[(16, 100, 2), (48, 412, 8)],
    &[(60, 506, 16), (4, 6, 1)],
    &[(63, 512, 16), (1, 0, 1)],
    &[(22, 170, 2), (21, 171, 2), (21, 171, 4)],
];

/// So many plans that make a sheet of full size, in any order, their kinds and desks at random.
pub fn full_size_plans(dice: &mut Dice, count: usize) -> Vec<Plan> {
    let fitting: Vec<_> = SHARES.iter().filter(|sizes| sizes.len() == count).collect();
    let mut sizes = dice.pick(&fitting).to_vec();
    dice.shuffle(&mut sizes);
    let mut plans = Vec::new();
    for (n, m, a) in sizes {
        let mut plan = returnables(n, m, a);
        let palette = dice.pick(&["C", "CD", "CD", "CR", "CPRD"]);
        plan.kinds = (0..n).map(|_| Kind::of_letter(dice.pick(palette.as_bytes())).unwrap()).collect();
        plans.push(generate::give_desks(dice, plan));
    }
    plans
}

/// Two such are often too large together.
fn large_plan(dice: &mut Dice) -> Plan {
    let (n, a) = (dice.between(5, 50), dice.between(1, 8));
    let plan = returnables(n, dice.below(n), a);
    generate::give_desks(dice, plan)
}

pub fn random_plans(dice: &mut Dice, count: usize) -> Vec<Plan> {
    match dice.below(14) {
        0 => plans_near_64(dice, count, if count == 2 { 4 } else { 2 }),
        1 => plans_near_512(dice, count),
        6 => (0..count).map(|_| large_plan(dice)).collect(),
        2..=5 => {
            let mut plans: Vec<Plan> = (1..count).map(|_| soft_plan(dice)).collect();
            plans.insert(dice.below(count), any_plan(dice));
            plans
        }
        _ => (0..count).map(|_| any_plan(dice)).collect(),
    }
}

/// The same, none of them refused with any of 1 to 7.
pub fn right_plans(dice: &mut Dice, count: usize) -> Vec<Plan> {
    let mut plans = random_plans(dice, count);
    for plan in &mut plans {
        while (1..=7).contains(&refusal_of(calls::check(&sheet_of(plan)))) {
            *plan = any_plan(dice);
        }
    }
    plans
}

/// Room for a joined sheet that needs so much, or for others.
pub fn some_room(dice: &mut Dice, first: &Part, second: &Part, needed: usize) -> usize {
    let (one, two) = (first.bytes().len(), second.bytes().len());
    match dice.below(5) {
        0 => dice.below(needed + 1),
        1 => dice.pick(&[0, 1, HEAD, one, two, one + two, one.max(two)]),
        2 => needed + 1,
        3 => dice.pick(&[LONGEST_SHEET, LONGEST_SHEET - 1, LONGEST_SHEET + 1]),
        _ => needed + dice.below(100),
    }
}

#[cfg(test)]
mod tests {
    use super::*;
    use crate::calls::{kind_of, pack, place_of, ACCEPTED, REFUSED};

    #[test]
    fn sheets_have_the_faults_they_are_made_for() {
        for (n, m, a) in [(2, 0, 1), (40, 0, 1), (26, 300, 1), (5, 0, 16)] {
            for refusal in 0..=8 {
                let (sheet, (number, place)) = with_fault(returnables(n, m, a), refusal);
                let due = if refusal == 0 { pack(ACCEPTED, 0, 0) } else { pack(REFUSED, number, place) };
                assert_eq!(calls::check(&sheet), due, "{n} bookings, {m} links, {a} ways, {refusal}");
            }
        }
    }

    #[test]
    fn shares_of_a_full_sheet_make_one() {
        for sizes in SHARES {
            let sum = |number: fn(&(usize, usize, usize)) -> usize| sizes.iter().map(number).sum::<usize>();
            assert_eq!((sum(|size| size.0), sum(|size| size.1)), (64, 512));
            assert_eq!(sizes.iter().map(|size| size.2).product::<usize>(), 16);
            for &(n, m, a) in sizes {
                let plan = returnables(n, m, a);
                assert_eq!((plan.links.len(), calls::check(&sheet_of(&plan))), (m, pack(ACCEPTED, 0, 0)));
            }
        }
    }

    #[test]
    fn halves_of_a_full_sheet_pass_joined() {
        for plan in [soft_half(), firm_half()] {
            assert_eq!((plan.count(), plan.links.len(), plan.ways.len()), (32, 256, 4));
        }
        let mut buffer = vec![0; LONGEST_SHEET];
        let answer = calls::join(&sheet_of(&soft_half()), &sheet_of(&firm_half()), &mut buffer);
        assert_eq!(kind_of(answer), ACCEPTED);
        assert_eq!(calls::check(&buffer[..place_of(answer) as usize]), pack(ACCEPTED, 0, 0));
    }
}
