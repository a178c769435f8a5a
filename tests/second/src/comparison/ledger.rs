//! The claim about a whole campaign, counted from the calls and the answers
//! of the first version alone.

use super::Call;
use crate::calls::{kind_of, place_of, ACCEPTED, CALLED_OFF, FLOWN, REQUEST, RETURN};
use crate::plan::Plan;
use std::collections::BTreeMap;

type Counts = BTreeMap<usize, usize>;

#[derive(Default)]
pub struct Ledger {
    ordered: Counts,
    replied: Counts,
    confirmed: Counts,
    returned: Counts,
    /// Requests, returns and accepted replies together.
    steps: usize,
    /// q: accepted N to R or D, and accepted K.
    repeats: usize,
}

fn add(counts: &mut Counts, booking: usize) {
    *counts.entry(booking).or_default() += 1;
}

fn get(counts: &Counts, booking: usize) -> usize {
    counts.get(&booking).copied().unwrap_or(0)
}

impl Ledger {
    /// Enters a call and says what it breaks, if anything.
    pub fn enter(&mut self, plan: &Plan, call: Call, answer: u32) -> Result<(), String> {
        match call {
            Call::NextOrder => self.enter_order(plan, answer)?,
            Call::Reply(letter, booking) => self.enter_reply(plan, letter, booking as usize, answer),
            Call::Check | Call::Start => {}
        }
        let size: usize = plan.ways.iter().map(Vec::len).sum();
        let bound = 4 * size + 2 * self.repeats;
        demand(self.steps <= bound, &format!("{} steps are more than {bound}", self.steps))
    }

    fn enter_order(&mut self, plan: &Plan, answer: u32) -> Result<(), String> {
        let (kind, place) = (kind_of(answer), place_of(answer) as usize);
        let told = "with no reply outstanding, neither an order to send nor the end";
        demand(self.is_outstanding() || [REQUEST, RETURN, FLOWN, CALLED_OFF].contains(&kind), told)?;
        match kind {
            REQUEST | RETURN => {
                add(&mut self.ordered, place);
                self.steps += 1;
                Ok(())
            }
            FLOWN => self.judge_flown(plan, place),
            CALLED_OFF => self.judge_called_off(plan),
            _ => Ok(()),
        }
    }

    fn enter_reply(&mut self, plan: &Plan, letter: u8, booking: usize, answer: u32) {
        if kind_of(answer) != ACCEPTED {
            return;
        }
        self.steps += 1;
        add(&mut self.replied, booking);
        match letter {
            b'Y' => add(&mut self.confirmed, booking),
            b'G' => add(&mut self.returned, booking),
            b'K' => self.repeats += 1,
            b'N' if plan.kind(booking).repeats() => self.repeats += 1,
            _ => {}
        }
    }

    /// How often a booking was confirmed, and returned.
    pub fn counts(&self, booking: usize) -> (usize, usize) {
        (get(&self.confirmed, booking), get(&self.returned, booking))
    }

    fn is_outstanding(&self) -> bool {
        self.ordered.iter().any(|(&booking, &count)| count > get(&self.replied, booking))
    }

    fn judge_flown(&self, plan: &Plan, way: usize) -> Result<(), String> {
        demand(plan.way_numbers().contains(&way), "flown by a way that does not exist")?;
        plan.bookings().try_for_each(|booking| {
            let more = usize::from(plan.is_in_way(booking, way));
            let right = get(&self.confirmed, booking) == get(&self.returned, booking) + more;
            demand(right, &format!("flown by {way}, but booking {booking} is not settled so"))
        })
    }

    fn judge_called_off(&self, plan: &Plan) -> Result<(), String> {
        plan.bookings().try_for_each(|booking| {
            let confirmed = get(&self.confirmed, booking);
            let undone = confirmed == get(&self.returned, booking);
            let kept = plan.kind(booking).is_firm() && confirmed > 0;
            demand(undone && !kept, &format!("called off, but booking {booking} is confirmed"))
        })
    }
}

fn demand(holds: bool, told: &str) -> Result<(), String> {
    if holds {
        Ok(())
    } else {
        Err(format!("the campaign's claim fails: {told}\n"))
    }
}

#[cfg(test)]
mod tests {
    use super::*;
    use crate::calls::{pack, WAIT};
    use crate::flights::plan_of;

    const ORDER: Call = Call::NextOrder;

    /// What the last of these calls breaks, if anything; the others break nothing.
    fn last(calls: &[(Call, u32)]) -> Option<String> {
        last_of("CR", calls)
    }

    fn last_of(kinds: &str, calls: &[(Call, u32)]) -> Option<String> {
        let plan = plan_of(kinds, &[], &[&[1, 2], &[2]]);
        let mut ledger = Ledger::default();
        let (&(call, answer), earlier) = calls.split_last().unwrap();
        for &(call, answer) in earlier {
            ledger.enter(&plan, call, answer).unwrap();
        }
        ledger.enter(&plan, call, answer).err()
    }

    fn request(booking: u32) -> (Call, u32) {
        (ORDER, pack(REQUEST, 0, booking))
    }

    fn reply(letter: u8, booking: u32) -> (Call, u32) {
        (Call::Reply(letter, booking), pack(ACCEPTED, 0, booking))
    }

    #[test]
    fn waiting_needs_something_outstanding() {
        let wait = (ORDER, pack(WAIT, 0, 0));
        assert!(last(&[wait]).is_some());
        assert!(last(&[request(1), wait]).is_none());
        assert!(last(&[request(1), reply(b'Y', 1), wait]).is_some());
        // A refused reply counts nowhere.
        assert!(last(&[request(1), (Call::Reply(b'Y', 1), pack(0, 9, 1)), wait]).is_none());
    }

    #[test]
    fn flown_needs_the_way_and_nothing_else() {
        let (one, two) = ([request(1), reply(b'Y', 1)], [request(2), reply(b'Y', 2)]);
        let flown = |way| (ORDER, pack(FLOWN, 0, way));
        assert!(last(&[&one[..], &two, &[flown(1)]].concat()).is_none());
        assert!(last(&[&one[..], &two, &[flown(2)]].concat()).is_some());
        assert!(last(&[&one[..], &[flown(1)]].concat()).is_some());
        assert!(last(&[&two[..], &[flown(2)]].concat()).is_none());
        assert!(last(&[&two[..], &[flown(3)]].concat()).is_some());
    }

    #[test]
    fn called_off_needs_everything_returned() {
        let off = (ORDER, pack(CALLED_OFF, 0, 0));
        let held = [request(1), reply(b'Y', 1)];
        let back = [(ORDER, pack(RETURN, 0, 1)), reply(b'G', 1)];
        assert!(last(&[off]).is_none());
        assert!(last(&[&held[..], &[off]].concat()).is_some());
        assert!(last(&[&held[..], &back, &[off]].concat()).is_none());
        // A firm one must not even have been confirmed.
        let back_again = [request(2), reply(b'Y', 2), (ORDER, pack(RETURN, 0, 2)), reply(b'G', 2)];
        for (kinds, broken) in [("CR", true), ("CP", true), ("CC", false), ("CD", false)] {
            assert_eq!(last_of(kinds, &[&back_again[..], &[off]].concat()).is_some(), broken, "{kinds}");
        }
    }

    #[test]
    fn steps_are_bounded() {
        // s is 3, so 12 steps are free, and two more for each repeat.
        let refused: Vec<_> = [request(1), reply(b'N', 1)].repeat(6);
        assert!(last(&refused).is_none());
        assert!(last(&[&refused[..], &[request(1)]].concat()).is_some());
        for kinds in ["CR", "CD"] {
            assert!(last_of(kinds, &[request(2), reply(b'N', 2)].repeat(50)).is_none());
        }
        assert!(
            last_of("CP", &[&[request(2), reply(b'N', 2)].repeat(6)[..], &[request(2)]].concat()).is_some()
        );
        assert!(last(&[(ORDER, pack(RETURN, 0, 1)), reply(b'K', 1)].repeat(50)).is_none());
    }
}
