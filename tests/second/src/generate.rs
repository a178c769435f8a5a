//! Random plans, many of which pass, and damaged sheets.

use crate::check::{self, Network};
use crate::dice::Dice;
use crate::plan::{Kind, Plan, HIGHEST_LIMIT, MOST_DESKS, MOST_LINKS, MOST_WAYS};

/// How big the plans are to be.
#[derive(Clone, Copy, Debug)]
pub struct Size {
    pub fewest: usize,
    pub most: usize,
    pub ways: usize,
    /// Add links that chains already give, up to the limit.
    pub fill_links: bool,
}

pub const SMALL: Size = Size { fewest: 1, most: 8, ways: 5, fill_links: false };
pub const MIDDLE: Size = Size { fewest: 6, most: 20, ways: 8, fill_links: false };
pub const LIMITS: Size = Size { fewest: 40, most: 64, ways: MOST_WAYS, fill_links: true };

/// A random plan; about half of them pass.
pub fn random_plan(dice: &mut Dice, size: Size) -> Plan {
    // At the limits most plans have every booking there can be.
    let n =
        if size.fill_links && dice.percent(70) { size.most } else { dice.between(size.fewest, size.most) };
    let mut plan = if dice.percent(40) { loose(dice, n, size) } else { ladder(dice, n, size) };
    if dice.percent(80) {
        for _ in 0..12 {
            if !mend(dice, &mut plan) {
                break;
            }
        }
    }
    if dice.percent(30) {
        spoil_plan(dice, &mut plan);
    }
    if size.fill_links {
        fill_links(dice, &mut plan);
    }
    tidy(&mut plan);
    give_desks(dice, plan)
}

/// Random desks, often few different ones, and a limit that is often reached.
pub fn give_desks(dice: &mut Dice, plan: Plan) -> Plan {
    let mut numbers: Vec<usize> = (1..=MOST_DESKS).collect();
    dice.shuffle(&mut numbers);
    numbers.truncate(dice.pick(&[1, 1, 2, 2, 3, 4, MOST_DESKS]));
    let desks: Vec<usize> = plan.bookings().map(|_| dice.pick(&numbers)).collect();
    let limit = match dice.below(20) {
        0..=7 => 1,
        8..=12 => 2,
        13..=15 => 3,
        16..=17 => HIGHEST_LIMIT,
        _ => dice.between(1, HIGHEST_LIMIT),
    };
    plan.with_desks(&desks, limit)
}

/// A random order of bookings, random links along it, random closed ways.
fn loose(dice: &mut Dice, n: usize, size: Size) -> Plan {
    let palette =
        dice.pick(&["C", "CCP", "CPR", "CRR", "PR", "D", "CD", "PDD", "CPRD", "CCCCPRRDD", "CCCCCCCR"]);
    let kinds = (0..n).map(|_| Kind::of_letter(dice.pick(palette.as_bytes())).unwrap()).collect();
    let order = numbering(dice, n);
    let density = dice.pick(&[0, 3, 10, 25, 50]) * 8 / n.max(8);
    let mut links = Vec::new();
    for later in 0..n {
        for earlier in 0..later {
            if dice.percent(density) {
                links.push((order[earlier], order[later]));
            }
        }
    }
    links.truncate(MOST_LINKS);
    let ways = dice.between(1, size.ways);
    let share = dice.pick(&[20, 50, 80, 100]);
    let ways = (0..ways).map(|_| (1..=n).filter(|_| dice.percent(share)).collect()).collect();
    let mut plan = Plan::at_one_desk(kinds, links, ways);
    use_every_booking(dice, &mut plan);
    close_ways(&mut plan);
    tidy(&mut plan);
    plan
}

/// The numbers 1 to n, in order or shuffled.
fn numbering(dice: &mut Dice, n: usize) -> Vec<usize> {
    let mut numbers: Vec<usize> = (1..=n).collect();
    if dice.percent(70) {
        dice.shuffle(&mut numbers);
    }
    numbers
}

/// C, or sometimes D.
fn returnable(dice: &mut Dice) -> Kind {
    if dice.percent(20) {
        Kind::RepeatableReturnable
    } else {
        Kind::Returnable
    }
}

/// Hands out the bookings of a ladder one after the other.
struct Ladder {
    numbers: Vec<usize>,
    plan: Plan,
}

impl Ladder {
    /// A new booking that stands on the given ones; none once all are used.
    fn add(&mut self, kind: Kind, standing_on: &[usize]) -> Option<usize> {
        let booking = self.numbers.pop()?;
        self.plan.kinds[booking - 1] = kind;
        self.plan.links.extend(standing_on.iter().map(|&u| (u, booking)));
        Some(booking)
    }

    /// New bookings of one kind, some of them D instead.
    fn add_some(&mut self, dice: &mut Dice, kind: Kind, count: usize, standing_on: &[usize]) -> Vec<usize> {
        let mixed = |dice: &mut Dice| if dice.percent(20) { Kind::RepeatableReturnable } else { kind };
        (0..count).filter_map(|_| self.add(mixed(dice), standing_on)).collect()
    }
}

/// Pivots one above the other, returnables before each, and after each some
/// ways that can fail and one of repeatables that can't; then ways of
/// returnables alone. Any of these may be D.
fn ladder(dice: &mut Dice, n: usize, size: Size) -> Plan {
    let kinds = (0..n).map(|_| returnable(dice)).collect();
    let plan = Plan::at_one_desk(kinds, Vec::new(), Vec::new());
    let mut ladder = Ladder { numbers: numbering(dice, n), plan };
    let spare = ladder.numbers.split_off(n - dice.between(0, n / 3));
    let width = 1 + n / 12;
    let mut stem = Vec::new();
    let mut rungs = Vec::new();
    let mut top = None;
    for _ in 0..dice.between(1, 1 + size.ways / 4) {
        let under: Vec<usize> = top.into_iter().collect();
        let count = dice.between(0, width);
        let before = ladder.add_some(dice, Kind::Returnable, count, &under);
        let standing_on = [under, before.clone()].concat();
        let Some(pivot) = ladder.add(Kind::Pivot, &standing_on) else { break };
        stem.extend(before);
        stem.push(pivot);
        top = Some(pivot);
        rungs.push(rung(dice, &mut ladder, &stem, pivot, width));
    }
    let mut plan = ladder.plan;
    plan.ways = rungs.into_iter().rev().flatten().collect();
    add_returnable_ways(dice, &mut plan, &[ladder.numbers, spare].concat(), size);
    limit_ways(&mut plan);
    tidy(&mut plan);
    use_every_booking(dice, &mut plan);
    close_ways(&mut plan);
    tidy(&mut plan);
    plan
}

/// Ways of spare bookings, linked in some order, behind or before the others.
fn add_returnable_ways(dice: &mut Dice, plan: &mut Plan, spare: &[usize], size: Size) {
    for pair in spare.windows(2) {
        if dice.percent(20) {
            plan.links.push((pair[0], pair[1]));
        }
    }
    let wanted = if dice.percent(60) { size.ways } else { dice.between(1, size.ways) };
    let behind = dice.percent(70);
    while plan.ways.len() < wanted && !spare.is_empty() {
        let way = spare.iter().copied().filter(|_| dice.percent(60)).collect();
        let at = if behind { plan.ways.len() } else { 0 };
        plan.ways.insert(at, way);
    }
}

/// The ways that leave the stem at this pivot, the sure one last.
fn rung(dice: &mut Dice, ladder: &mut Ladder, stem: &[usize], pivot: usize, width: usize) -> Vec<Vec<usize>> {
    let mut ways = Vec::new();
    for _ in 0..dice.between(0, 3) {
        let count = dice.between(1, width);
        let tail = ladder.add_some(dice, Kind::Returnable, count, &[pivot]);
        ways.push([stem, &tail].concat());
    }
    let count = dice.between(0, width);
    let sure = ladder.add_some(dice, Kind::Repeatable, count, &[pivot]);
    ways.push([stem, &sure].concat());
    ways
}

/// The last ways are the refuges, so the first are dropped.
fn limit_ways(plan: &mut Plan) {
    let extra = plan.ways.len().saturating_sub(MOST_WAYS);
    plan.ways.drain(..extra);
}

fn use_every_booking(dice: &mut Dice, plan: &mut Plan) {
    for booking in plan.bookings() {
        if !plan.ways.iter().any(|way| way.contains(&booking)) {
            let way = dice.below(plan.ways.len());
            plan.ways[way].push(booking);
        }
    }
}

/// Puts into each way everything its bookings stand on.
fn close_ways(plan: &mut Plan) {
    let network = Network::new(plan.clone());
    for way in &mut plan.ways {
        for booking in way.clone() {
            way.extend(network.predecessors(booking));
        }
    }
}

/// Sorts links and ways, and leaves no entry, no empty way and no link over
/// the limit behind. Equal ways are kept.
fn tidy(plan: &mut Plan) {
    plan.links.sort();
    plan.links.dedup();
    plan.links.truncate(MOST_LINKS);
    for way in &mut plan.ways {
        way.sort();
        way.dedup();
    }
    plan.ways.retain(|way| !way.is_empty());
    if plan.ways.is_empty() {
        plan.ways.push(plan.bookings().collect());
    }
    plan.ways.truncate(MOST_WAYS);
}

fn drop_repeated_ways(plan: &mut Plan) {
    let mut kept: Vec<Vec<usize>> = Vec::new();
    for way in std::mem::take(&mut plan.ways) {
        if !kept.contains(&way) {
            kept.push(way);
        }
    }
    plan.ways = kept;
}

/// Removes one reason for refusal; false if the plan passes as it is.
fn mend(dice: &mut Dice, plan: &mut Plan) -> bool {
    let Err(refusal) = check::check(plan.clone()) else { return false };
    match refusal.number {
        7 => drop_repeated_ways(plan),
        8 => mend_stranding(dice, plan, refusal.place as usize / 256, refusal.place as usize % 256),
        _ => {
            use_every_booking(dice, plan);
            close_ways(plan);
        }
    }
    tidy(plan);
    true
}

fn mend_stranding(dice: &mut Dice, plan: &mut Plan, way: usize, x: usize) {
    let network = Network::new(plan.clone());
    let firm = check::firm_beside(&network, way, x);
    match dice.below(8) {
        // Let the risky booking come first where it can.
        0..=3 => {
            let after = firm.iter().filter(|&&s| !network.precedes(s, x));
            plan.links.extend(after.map(|&s| (x, s)));
            tidy(plan);
            close_ways(plan);
        }
        // Give it a refuge.
        4..=5 => {
            let mut refuge = firm.clone();
            firm.iter().for_each(|&s| refuge.extend(network.predecessors(s)));
            plan.ways.push(refuge);
            limit_ways(plan);
            use_every_booking(dice, plan);
            close_ways(plan);
        }
        6 => plan.kinds[x - 1] = dice.pick(&[Kind::Repeatable, Kind::RepeatableReturnable]),
        _ => plan.kinds[dice.pick(&firm) - 1] = returnable(dice),
    }
}

/// Adds a fault that the check must find, or sometimes only changes the plan.
fn spoil_plan(dice: &mut Dice, plan: &mut Plan) {
    let n = plan.count();
    let way = dice.below(plan.ways.len());
    match dice.below(6) {
        0 => plan.links.push((dice.between(1, n), dice.between(1, n))),
        1 if plan.ways[way].len() > 1 => {
            let at = dice.below(plan.ways[way].len());
            plan.ways[way].remove(at);
        }
        2 => {
            let unused = dice.between(1, n);
            plan.ways.iter_mut().for_each(|way| way.retain(|&b| b != unused));
        }
        3 => plan.ways.push(plan.ways[way].clone()),
        4 => dice.shuffle(&mut plan.ways),
        _ => {
            plan.kinds[dice.below(n)] =
                dice.pick(&[Kind::Pivot, Kind::Repeatable, Kind::RepeatableReturnable])
        }
    }
    tidy(plan);
}

/// Adds links that chains already give: more links, the same order.
fn fill_links(dice: &mut Dice, plan: &mut Plan) {
    let network = Network::new(plan.clone());
    let pairs = plan.bookings().flat_map(|u| plan.bookings().map(move |v| (u, v)));
    let given = |link: &(usize, usize)| network.precedes(link.0, link.1) && !plan.links.contains(link);
    let mut more: Vec<(usize, usize)> = pairs.filter(given).collect();
    dice.shuffle(&mut more);
    more.truncate(MOST_LINKS.saturating_sub(plan.links.len()));
    plan.links.extend(more);
}

/// A sheet damaged in one random manner; now and then it stays good.
pub fn spoil_sheet(dice: &mut Dice, sheet: &[u8]) -> Vec<u8> {
    let mut text = sheet.to_vec();
    let at = dice.below(text.len());
    match dice.below(10) {
        0 => text.truncate(at),
        1 => text[at] = dice.byte(),
        2 => text[at] = dice.pick(b" 0123456789ABCDLPRX\n\r\t"),
        3 => drop(text.remove(at)),
        4 => text.insert(at, dice.pick(b" 0123456789ABCDLPRX\n")),
        5 => text.push(dice.byte()),
        6 => text = spoil_lines(dice, &text),
        _ => spoil_field(dice, &mut text),
    }
    text
}

/// A line doubled, dropped, or changed for its neighbour.
fn spoil_lines(dice: &mut Dice, text: &[u8]) -> Vec<u8> {
    let mut lines: Vec<&[u8]> = text.split_inclusive(|&byte| byte == b'\n').collect();
    let at = dice.below(lines.len());
    match dice.below(3) {
        0 => lines.insert(at, lines[at]),
        1 => drop(lines.remove(at)),
        _ => lines.swap(at, (at + 1).min(text.iter().filter(|&&b| b == b'\n').count() - 1)),
    }
    lines.concat()
}

/// Where the numbers of a line begin: a kind stands before a booking's desk.
pub fn fields_of(line: &[u8]) -> Vec<usize> {
    if line.starts_with(b"B") && line.len() == 11 {
        return vec![1, 7];
    }
    (0..line.len().saturating_sub(1) / 4).map(|field| 1 + 4 * field).collect()
}

/// Puts another number, or something like one, into four columns.
fn spoil_field(dice: &mut Dice, text: &mut [u8]) {
    let starts: Vec<usize> = (0..text.len()).filter(|&at| at == 0 || text[at - 1] == b'\n').collect();
    // The head and the last lines are few, so they get their own chance.
    let line = match dice.below(4) {
        0 => 0,
        1 => starts[starts.len() - 1],
        _ => dice.pick(&starts),
    };
    let end = line + text[line..].iter().position(|&byte| byte == b'\n').unwrap_or(0);
    let fields = fields_of(&text[line..end]);
    if fields.is_empty() {
        return;
    }
    let at = line + dice.pick(&fields);
    let odd = [
        "   0", "  01", "0001", "1   ", " 1  ", "    ", "  -1", "  +1", "  65", " 513", "  17", "9999",
        "0000", "  1 ", "1234", "   9", "  64", "   X",
    ];
    let field =
        if dice.percent(50) { dice.pick(&odd).to_string() } else { format!("{:4}", dice.between(0, 70)) };
    text[at..at + 4].copy_from_slice(field.as_bytes());
}

/// Every byte that may stand in for this one when a sheet is damaged.
pub fn damages(byte: u8) -> Vec<u8> {
    let mut values = vec![byte.wrapping_sub(1), byte.wrapping_add(1), byte ^ 128, byte ^ 32, 0, 255];
    values.extend(b"\n\r\t 0123456789/:ABCDGKLNPRXYabcdpr-+.");
    values.sort();
    values.dedup();
    values.retain(|&value| value != byte);
    values
}

#[cfg(test)]
mod tests {
    use super::*;
    use crate::calls::{check, kind_of, refusal_of};
    use crate::plan;

    fn shares(size: Size, count: u64) -> [usize; 9] {
        let mut hits = [0; 9];
        for round in 0..count {
            let plan = random_plan(&mut Dice::for_round(1, round), size);
            let answer = check(plan::write(&plan).as_bytes());
            hits[refusal_of(answer) as usize] += 1;
            assert_eq!(kind_of(answer) == 6, refusal_of(answer) == 0);
        }
        hits
    }

    #[test]
    fn plans_are_read_and_many_pass() {
        for (size, count) in [(SMALL, 2000), (MIDDLE, 500), (LIMITS, 60)] {
            let hits = shares(size, count);
            println!("{size:?}: {hits:?}");
            assert_eq!(hits[1..4], [0, 0, 0]);
            assert!(hits[0] * 10 > count as usize * 3);
        }
    }

    #[test]
    fn plans_that_pass_have_all_four_kinds() {
        for (size, count) in [(SMALL, 2000), (MIDDLE, 500), (LIMITS, 60)] {
            let mut hits = std::collections::BTreeMap::new();
            for round in 0..count {
                let plan = random_plan(&mut Dice::for_round(1, round), size);
                if let Ok(network) = check::check(plan) {
                    for kind in network.plan.kinds {
                        *hits.entry(kind.letter()).or_insert(0) += 1;
                    }
                }
            }
            println!("{size:?}: {hits:?}");
            let all: usize = hits.values().sum();
            assert!("CPRD".chars().all(|letter| hits[&letter] * 40 > all));
        }
    }

    #[test]
    fn desks_are_often_few_and_limits_often_small() {
        let plans: Vec<Plan> =
            (0..2000).map(|round| random_plan(&mut Dice::for_round(1, round), MIDDLE)).collect();
        let share = |has: &dyn Fn(&Plan) -> bool| plans.iter().filter(|plan| has(plan)).count();
        for desk in 1..=MOST_DESKS {
            assert!(share(&|plan| plan.desks.contains(&desk)) > 300, "desk {desk}");
        }
        for (limit, fewest) in [(1, 600), (2, 400), (3, 200), (HIGHEST_LIMIT, 150)] {
            assert!(share(&|plan| plan.limit == limit) > fewest, "limit {limit}");
        }
        assert!(share(&|plan| plan.desks.iter().all(|&desk| desk == plan.desks[0])) > 400);
    }

    #[test]
    fn damaged_sheets_reach_each_reader_refusal() {
        let mut hits = [0; 9];
        for round in 0..3000 {
            let mut dice = Dice::for_round(2, round);
            let text = plan::write(&random_plan(&mut dice, SMALL));
            let spoiled = spoil_sheet(&mut dice, text.as_bytes());
            hits[refusal_of(check(&spoiled)) as usize] += 1;
        }
        println!("{hits:?}");
        assert!(hits[..4].iter().all(|&count| count > 20));
    }
}
