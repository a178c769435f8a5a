//! Desks and the limit of their matters: what is fixed, campaigns in which
//! orders are passed over, states above the limit; and how often each was met.

use super::journals::case_of;
use super::lent::Lent;
use super::record::Record;
use super::replies::{open_orders, right_block};
use super::sheets::BLANK_FIELD;
use super::{Call, Case, Comparison, Outcome};
use crate::calls::{kind_of, pack, place_of, refusal_of, ACCEPTED, REFUSED, REQUEST, RETURN, WAIT};
use crate::check::Network;
use crate::dice::Dice;
use crate::flights;
use crate::generate;
use crate::plan::{self, number_in_columns, Plan};
use crate::run::{self, State, REQUESTED, RETURNING};
use crate::written_desks;

/// An order was passed over, in one of the four manners below.
const PASSED_OVER: &str = "desks: orders passed over";
const LOWER_RETURN: &str = "desks: a return, a lower one being passed over";
const LOWER_REQUEST: &str = "desks: a request, a lower one being passed over";
const EVERY_RETURN: &str = "desks: a wait, every return being passed over";
const EVERY_REQUEST: &str = "desks: a wait, every request being passed over";

/// A sheet refused for one of the new fields, the rest of its line being right.
const WRONG_LIMIT: &str = "desks: sheets refused for the limit, 2";
const MISFORMED_LIMIT: &str = "desks: sheets refused for the limit, 1";
const WRONG_DESK: &str = "desks: sheets refused for a desk, 3";
const MISFORMED_DESK: &str = "desks: sheets refused for a desk, 1";

const ABOVE: &str = "desks: states above the limit and else sound";

/// What must have been met so often before the rounds, or too little was shown.
const FEWEST: [(&str, u64); 11] = [
    (PASSED_OVER, 10_000),
    (LOWER_RETURN, 300),
    (LOWER_REQUEST, 2_000),
    (EVERY_RETURN, 1_000),
    (EVERY_REQUEST, 2_000),
    (WRONG_LIMIT, 1_000),
    (MISFORMED_LIMIT, 1_000),
    (WRONG_DESK, 1_000),
    (MISFORMED_DESK, 1_000),
    (ABOVE, 2_000),
    (BLANK_FIELD, 400),
];

/// Many bookings beside each other, so that desks fill up with requests and, when
/// one is lost, with returns.
fn crowded() -> Vec<Plan> {
    vec![
        flights::returnables(8, 0),
        flights::plan_of("CDDDDDDDDD", &[], &[&[1, 2, 3, 4, 5, 6, 7, 8, 9], &[9, 10]]),
        flights::plan_of("DDDDDDDDPDDD", &[(8, 9)], &[&[1, 2, 3, 4, 5, 6, 7, 8, 9], &[10, 11, 12]]),
    ]
}

/// In which manner an order was passed over when this answer was given, if one was.
fn passed_over(network: &Network, before: &State, answer: u32) -> Option<&'static str> {
    let (returns, requests) = (run::to_return(network, before), run::to_request(network, before));
    let is_lower = |due: &[usize]| due.first().is_some_and(|&b| b < place_of(answer) as usize);
    let returning = !run::with_code(network, before, RETURNING).is_empty();
    match kind_of(answer) {
        RETURN if is_lower(&returns) => Some(LOWER_RETURN),
        REQUEST if is_lower(&requests) => Some(LOWER_REQUEST),
        WAIT if !run::lost_in_current_way(network, before).is_empty() => None,
        WAIT if !returns.is_empty() => Some(EVERY_RETURN),
        WAIT if !returning && !requests.is_empty() => Some(EVERY_REQUEST),
        _ => None,
    }
}

/// The states that follow if what a full desk keeps waiting is ordered all the same.
fn above_the_limit(network: &Network, state: &State) -> Vec<State> {
    let ordered = |code: u8| {
        move |b: usize| {
            let mut after = *state;
            after[b] = code;
            after
        }
    };
    let returns = run::to_return(network, state).into_iter().map(ordered(RETURNING));
    let requests = run::to_request(network, state).into_iter().map(ordered(REQUESTED));
    let alone = |after: &State| run::broken_sentences(network, after) == [run::ABOVE_THE_LIMIT];
    returns.chain(requests).filter(alone).collect()
}

/// Which new field a sheet is refused for, if a right one there helps.
fn field_at_fault(sheet: &[u8], refusal: u32, line: usize) -> Option<&'static str> {
    let bookings = number_in_columns(sheet.get(1..5)?)?;
    let (at, name) = match (line, refusal) {
        (1, 1) => (13, MISFORMED_LIMIT),
        (1, 2) => (13, WRONG_LIMIT),
        (_, 1) if line <= bookings + 1 => (18 + 12 * (line - 2) + 7, MISFORMED_DESK),
        (_, 3) if line <= bookings + 1 => (18 + 12 * (line - 2) + 7, WRONG_DESK),
        _ => return None,
    };
    let mut mended = sheet.to_vec();
    mended.get_mut(at..at + 4)?.copy_from_slice(b"   1");
    let still = plan::read(&mended).is_err_and(|refusal| refusal.place as usize <= line);
    (!still).then_some(name)
}

impl Comparison<'_> {
    /// Counts an order that was given, or not given, over another one.
    pub fn note_passed_over(&mut self, case: &Case, before: &[u8], answer: u32) {
        let (Some(network), Ok(before)) = (case.network(), before.try_into()) else { return };
        if kind_of(answer) == REFUSED {
            return;
        }
        if let Some(name) = passed_over(network, &before, answer) {
            self.tally.event(name);
            self.tally.event(PASSED_OVER);
        }
    }

    /// With nothing open at any desk, an order or the end is still there.
    pub fn demand_no_stranding(&mut self, case: &Case, before: &[u8], answer: u32) -> Outcome {
        let Some(network) = case.network().filter(|_| kind_of(answer) != REFUSED) else { return Ok(()) };
        if !open_orders(&network.plan, before).is_empty() {
            return Ok(());
        }
        self.tally.event("desks: nothing open, and an order or the end");
        match kind_of(answer) {
            WAIT => Err(self.report(case, before, "a wait with nothing open\n")),
            _ => Ok(()),
        }
    }

    /// Counts a sheet that is refused for one of the new fields.
    pub fn note_field(&mut self, case: &Case) {
        let Err(refusal) = &case.judged else { return };
        let line = refusal.place as usize;
        if refusal.number <= 3 {
            if let Some(name) = field_at_fault(case.sheet.bytes(), refusal.number, line) {
                self.tally.event(name);
            }
        }
    }

    /// Whether enough was compared before the rounds.
    pub fn enough_desks(&self) -> Outcome {
        self.tally.demand(&FEWEST)
    }

    /// What is fixed about desks, then campaigns with desks of all sorts until so
    /// many orders were passed over in them, but no more campaigns than that.
    pub fn desks(&mut self, seed: u64, fewest: u64) -> Outcome {
        let mut dice = Dice::new(seed);
        self.written_campaigns()?;
        self.judged_states()?;
        self.part = "campaigns with desks".to_string();
        let named = flights::named().into_iter().filter_map(|flight| plan::read(&flight.sheet).ok());
        let plans: Vec<Plan> = named.chain(flights::wide()).chain(crowded()).collect();
        let enough = self.tally.count_of_events(PASSED_OVER) + fewest;
        // Some are passed over in most campaigns; if not, too few are told in the end.
        for _ in 0..fewest {
            if self.tally.count_of_events(PASSED_OVER) >= enough {
                break;
            }
            // Half of the campaigns are crowded.
            let last = if dice.percent(50) { crowded().len() } else { plans.len() };
            let plan = plans[plans.len() - 1 - dice.below(last)].clone();
            let case = case_of(&generate::give_desks(&mut dice, plan));
            if case.network().is_some() {
                self.desk_campaign(&case, &mut dice)?;
            }
        }
        Ok(())
    }

    fn desk_campaign(&mut self, case: &Case, dice: &mut Dice) -> Outcome {
        self.tally.event("desks: campaigns");
        let record = self.campaign(case, dice)?;
        self.some_above_the_limit(case, &record, dice)?;
        if dice.percent(20) {
            self.some_journals(case, &record, dice)?;
        }
        Ok(())
    }

    /// Every number as the limit, and every number as a desk.
    pub fn every_limit_and_desk(&mut self) -> Outcome {
        self.part = "every limit and every desk".to_string();
        for number in 0..=9999 {
            let limit = if (1..=64).contains(&number) { pack(ACCEPTED, 0, 0) } else { pack(REFUSED, 2, 1) };
            let desk = if (1..=8).contains(&number) { pack(ACCEPTED, 0, 0) } else { pack(REFUSED, 3, 3) };
            let plan = |desk, limit| flights::plan_of("CC", &[], &[&[1, 2]]).with_desks(&[8, desk], limit);
            for (plan, due) in [(plan(1, number), limit), (plan(number, 64), desk)] {
                let case = case_of(&plan);
                self.note_field(&case);
                if self.call(&case, &mut Vec::new(), Call::Check)? != due {
                    return Err(self.report(&case, &[], "not the verdict written down\n"));
                }
            }
        }
        Ok(())
    }

    fn written_campaigns(&mut self) -> Outcome {
        for (at, written) in written_desks::campaigns().into_iter().enumerate() {
            self.part = format!("written campaign {} of desks", at + 1);
            self.tally.event("desks: campaigns with answers written down");
            let case = case_of(&written.plan);
            let mut state = vec![9; 65];
            self.call(&case, &mut state, Call::Start)?;
            for (call, due) in written.calls {
                if self.call(&case, &mut state, call)? != due {
                    return Err(self.report(&case, &state, "not the answer written down\n"));
                }
            }
        }
        Ok(())
    }

    fn judged_states(&mut self) -> Outcome {
        for judged in written_desks::states() {
            self.part = "states at the limit and above it".to_string();
            let case = case_of(&judged.plan);
            self.all_calls(&case, &judged.state)?;
            let mut state = judged.state.to_vec();
            let answer = self.call(&case, &mut state, Call::NextOrder)?;
            if (refusal_of(answer) != 11) != judged.sound {
                return Err(self.report(&case, &judged.state, "not as it is written down\n"));
            }
        }
        Ok(())
    }

    /// Some of a campaign's states, with one order more than a desk takes on.
    pub fn some_above_the_limit(&mut self, case: &Case, record: &Record, dice: &mut Dice) -> Outcome {
        let network = case.network().expect("a sheet that passes");
        for _ in 0..record.lines().min(4) {
            let near = record.state_after(dice.between(0, record.lines()));
            let above = above_the_limit(network, near.try_into().expect("65 bytes"));
            if !above.is_empty() {
                self.unsound_for_a_desk(case, &above[dice.below(above.len())], dice)?;
            }
        }
        Ok(())
    }

    /// Each call that looks at the state must refuse it.
    fn unsound_for_a_desk(&mut self, case: &Case, state: &State, dice: &mut Dice) -> Outcome {
        let plan = &case.network().expect("a sheet that passes").plan;
        self.tally.broke_alone(run::ABOVE_THE_LIMIT);
        self.tally.event(ABOVE);
        let due = (pack(REFUSED, 11, 0), &state[..]);
        let block = right_block(dice, plan, state);
        self.expect_block(case, state, &Lent::new(&block), due)?;
        let order = self.call(case, &mut state.to_vec(), Call::NextOrder)?;
        let open = open_orders(plan, state);
        let letter = if state[open[0]] == REQUESTED { b'Y' } else { b'G' };
        let reply = self.call(case, &mut state.to_vec(), Call::Reply(letter, open[0] as u32))?;
        if (order, reply) == (due.0, due.0) {
            return Ok(());
        }
        Err(self.report(case, state, "a desk is above its limit\n"))
    }
}
