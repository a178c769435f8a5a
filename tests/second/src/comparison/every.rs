//! Every plan of one or two bookings, of all kinds, with every state of it, and
//! every block of one or two replies: few enough to leave none out. Three bookings
//! beside each other too, for only then a desk can pass one over for another.

use super::blocks::BEHIND;
use super::lent::Lent;
use super::{Call, Case, Comparison, Outcome};
use crate::dice::Dice;
use crate::flights;
use crate::generate::{self, Size, SMALL};
use crate::journal;
use crate::plan::{self, Kind, Plan};
use crate::run::{self, State};

/// Few bookings, so that there are not too many states.
const FEW: Size = Size { fewest: 3, most: 4, ..SMALL };

const KINDS: [Kind; 4] = [Kind::Returnable, Kind::Pivot, Kind::Repeatable, Kind::RepeatableReturnable];

/// All that can be chosen from these, in their order.
fn choices<T: Clone>(all: &[T]) -> Vec<Vec<T>> {
    let chosen = |set: usize| (0..all.len()).filter(move |at| set >> at & 1 == 1);
    (0..1 << all.len()).map(|set| chosen(set).map(|at| all[at].clone()).collect()).collect()
}

/// All lists of so many of these.
fn lists<T: Clone>(all: &[T], length: usize) -> Vec<Vec<T>> {
    let longer = |list: &Vec<T>| {
        let list = list.clone();
        all.iter().map(move |one| [&list[..], std::slice::from_ref(one)].concat()).collect::<Vec<_>>()
    };
    (0..length).fold(vec![Vec::new()], |shorter, _| shorter.iter().flat_map(longer).collect())
}

/// All lists of ways over n bookings, equal ones among them.
fn way_lists(n: usize) -> Vec<Vec<Vec<usize>>> {
    let bookings: Vec<usize> = (1..=n).collect();
    let ways: Vec<Vec<usize>> = choices(&bookings).into_iter().filter(|way| !way.is_empty()).collect();
    (1..=ways.len()).flat_map(|length| lists(&ways, length)).collect()
}

/// Desks for so many bookings: which of them are the same is all that matters.
fn splits(n: usize) -> &'static [&'static [usize]] {
    match n {
        1 => &[&[8]],
        2 => &[&[1, 1], &[8, 3]],
        _ => &[&[1, 1, 1], &[1, 1, 8], &[1, 8, 1], &[8, 1, 1], &[3, 2, 1]],
    }
}

/// A plan with each split of its desks, and limits that one or two matters reach.
fn with_each_desk(plan: &Plan) -> Vec<Plan> {
    let desks = splits(plan.count()).iter().flat_map(|desks| [1, 2].map(|limit| (desks, limit)));
    desks.map(|(desks, limit)| plan.clone().with_desks(desks, limit)).collect()
}

/// Three bookings without links, of all kinds, in one way and in some two.
fn three_beside() -> Vec<Plan> {
    let ways = [vec![vec![1, 2, 3]], vec![vec![1, 2], vec![2, 3]], vec![vec![1, 2], vec![3]]];
    let plan = |kinds: &Vec<Kind>, ways| Plan::at_one_desk(kinds.clone(), Vec::new(), ways);
    let kinds = lists(&KINDS, 3);
    kinds.iter().flat_map(|kinds| ways.clone().map(|ways| plan(kinds, ways))).collect()
}

/// All plans of n bookings with no more ways than there are different ones, at each split of desks.
fn plans(n: usize) -> Vec<Plan> {
    plans_at_one_desk(n).iter().flat_map(with_each_desk).collect()
}

/// The same at one desk that is never full.
fn plans_at_one_desk(n: usize) -> Vec<Plan> {
    let pairs: Vec<(usize, usize)> = (1..=n).flat_map(|u| (1..=n).map(move |v| (u, v))).collect();
    let mut plans = Vec::new();
    for kinds in lists(&KINDS, n) {
        for links in choices(&pairs) {
            for ways in way_lists(n) {
                plans.push(Plan::at_one_desk(kinds.clone(), links.clone(), ways));
            }
        }
    }
    plans
}

/// Every way and every code, and one past each.
fn states(plan: &Plan) -> Vec<State> {
    states_of(plan, plan.ways.len() + 1, &[0, 1, 2, 3, 4, 5])
}

/// Every way and every code alone.
fn good_states(plan: &Plan) -> Vec<State> {
    states_of(plan, plan.ways.len(), &[0, 1, 2, 3, 4])
}

fn states_of(plan: &Plan, last_way: usize, codes: &[u8]) -> Vec<State> {
    let mut states = Vec::new();
    for way in 0..=last_way as u8 {
        for codes in lists(codes, plan.count()) {
            states.push(flights::state_of(&[&[way], &codes[..]].concat()));
        }
    }
    states
}

/// Four bookings, most of which can't be given back, in two to four ways: many ways lack one that is held.
fn mostly_firm(dice: &mut Dice) -> Plan {
    let kinds: Vec<Kind> = (0..4).map(|_| Kind::of_letter(dice.pick(b"RRRPCD")).unwrap()).collect();
    let links = if dice.percent(30) { vec![(1, dice.between(2, 4))] } else { Vec::new() };
    let some = choices(&[1, 2, 3, 4]);
    let ways = (0..dice.between(2, 4)).map(|_| some[dice.between(1, 15)].clone()).collect();
    generate::give_desks(dice, Plan::at_one_desk(kinds, links, ways))
}

/// All blocks of up to n replies to n bookings.
fn blocks(n: usize) -> Vec<Lent> {
    let replies: Vec<Vec<u8>> =
        (1..=n).flat_map(|b| b"YNGK".map(|letter| journal::write_line(letter, b))).collect();
    let blocks = (0..=n).flat_map(|length| lists(&replies, length));
    blocks.map(|block| Lent::with_rest(&block.concat(), BEHIND)).collect()
}

impl Comparison<'_> {
    pub fn every_small_plan(&mut self) -> Outcome {
        for plan in [plans(1), plans(2)].concat() {
            self.part = format!("every plan of {} bookings", plan.count());
            let case = Case::new(plan::write(&plan).as_bytes());
            self.tally.event("plans of one or two bookings");
            self.call(&case, &mut Vec::new(), Call::Check)?;
            if case.network().is_some() && !self.check_only {
                self.every_state(&case, &plan)?;
            }
        }
        Ok(())
    }

    /// Three bookings at each split of desks, with every state that is sound but
    /// for its desks.
    pub fn every_split_of_three(&mut self) -> Outcome {
        self.part = "every split of three bookings".to_string();
        for plan in three_beside().iter().flat_map(with_each_desk) {
            let case = Case::new(plan::write(&plan).as_bytes());
            let Some(network) = case.network() else { continue };
            let sound = |state: &State| {
                run::broken_sentences(network, state).iter().all(|&s| s == run::ABOVE_THE_LIMIT)
            };
            for state in states(&plan).into_iter().filter(sound) {
                self.tally.event("states of plans of three bookings");
                self.every_call(&case, &plan, &state)?;
            }
        }
        Ok(())
    }

    fn every_state(&mut self, case: &Case, plan: &Plan) -> Outcome {
        for state in states(plan) {
            self.tally.event("states of plans of one or two bookings");
            self.every_call(case, plan, &state)?;
        }
        Ok(())
    }

    /// From every sound state of these plans, every block of replies to their
    /// bookings, of no more lines than can fit.
    pub fn every_small_block(&mut self) -> Outcome {
        for plan in [plans(1), plans(2)].concat() {
            let case = Case::new(plan::write(&plan).as_bytes());
            let Some(network) = case.network() else { continue };
            self.part = format!("every block on every plan of {} bookings", plan.count());
            let blocks = blocks(plan.count());
            for state in states(&plan).into_iter().filter(|state| run::is_sound(network, state)) {
                for block in &blocks {
                    self.tally.event("blocks: all of one or two lines");
                    self.block_from(&case, &state, block)?;
                }
            }
        }
        Ok(())
    }

    /// From every sound state of plans of two and of three bookings, every pair
    /// of replies to different bookings.
    pub fn every_small_pair(&mut self) -> Outcome {
        for plan in plans(2).into_iter().chain(three_beside()) {
            let case = Case::new(plan::write(&plan).as_bytes());
            let Some(network) = case.network() else { continue };
            self.part = format!("every pair of replies on every plan of {} bookings", plan.count());
            for state in states(&plan).into_iter().filter(|state| run::is_sound(network, state)) {
                self.every_pair(&case, &plan, &state)?;
            }
        }
        Ok(())
    }

    /// The listing from every state of plans of one and of two bookings, and of three without links.
    pub fn every_small_listing(&mut self) -> Outcome {
        for plan in [plans_at_one_desk(1), plans_at_one_desk(2), three_beside()].concat() {
            self.part = format!("the listings of every plan of {} bookings", plan.count());
            let case = Case::new(plan::write(&plan).as_bytes());
            if case.network().is_some() {
                self.every_listing(&case, &states(&plan))?;
            }
        }
        Ok(())
    }

    /// The same for so many random plans of three or four bookings that pass and have more than one way.
    pub fn every_listing_of_a_few(&mut self, plans: usize, dice: &mut Dice) -> Outcome {
        self.part = "every listing of random plans".to_string();
        let mut met = 0;
        while met < plans {
            let plan = if met % 2 == 0 { generate::random_plan(dice, FEW) } else { mostly_firm(dice) };
            let case = Case::new(plan::write(&plan).as_bytes());
            if case.network().is_some() && plan.ways.len() > 1 {
                self.every_listing(&case, &good_states(&plan))?;
                met += 1;
            }
        }
        Ok(())
    }

    fn every_call(&mut self, case: &Case, plan: &Plan, state: &[u8]) -> Outcome {
        self.call(case, &mut state.to_vec(), Call::NextOrder)?;
        for booking in plan.bookings() {
            for letter in *b"YNGK" {
                self.call(case, &mut state.to_vec(), Call::Reply(letter, booking as u32))?;
            }
        }
        Ok(())
    }
}
