//! Replies and blocks in any order: the same answers and the same bytes,
//! whichever comes first; and where that is not so.

use super::blocks::BEHIND;
use super::journals::{case_of, passing};
use super::lent::Lent;
use super::record::Record;
use super::replies::{open_orders, right_block};
use super::tally::Tally;
use super::walks::{any_reply, changed};
use super::{name_of, second_answer, shown_answer, shown_call, shown_state};
use super::{Call, Case, Comparison, Made, Outcome};
use crate::calls::{kind_of, pack, refusal_of, ACCEPTED, REFUSED, REQUEST, RETURN};
use crate::dice::Dice;
use crate::flights::{self, lines, plan_of, state_of};
use crate::journal::LINE_LENGTH;
use crate::plan::Plan;
use crate::run::{REQUESTED, RETURNING};

const PAIRS: &str = "any order: pairs of replies to different bookings";
const BOTH: &str = "any order: pairs that both fit";
const ONE: &str = "any order: pairs of which one fits";
const NEITHER: &str = "any order: pairs of which none fits";
const SWITCHED: &str = "any order: pairs that change the way";
const RETURNS: &str = "any order: pairs of a return each";
const REFUSED_BEFORE: &str = "any order: pairs on a refused sheet or an unsound state";
const BLOCKS: &str = "any order: blocks shuffled";
const LONG: &str = "any order: blocks of 8 lines or more shuffled";
const FULL: &str = "any order: blocks of 64 lines shuffled";
const SINGLY: &str = "any order: lists of replies shuffled";
const SAME_BOOKING: &str = "any order: pairs to one booking, which the order decides";
const ORDER_BETWEEN: &str = "any order: pairs with an order between, which the order decides";
const NONE_TAKEN: &str = "any order: pairs with a next order between that takes no order";
const ASKED: &str = "any order: lists with next orders that take no order";
const BAD_LINE: &str = "any order: blocks with a bad line, which the order decides";

/// What the report says where the order of replies matters and must not.
pub const ORDER_MATTERS: &str = "the order of these replies matters:";

/// What must have been met so often before the rounds, or too little was shown.
const FEWEST: [(&str, u64); 16] = [
    (PAIRS, 100_000),
    (BOTH, 50_000),
    (ONE, 10_000),
    (NEITHER, 5_000),
    (SWITCHED, 5_000),
    (RETURNS, 1_000),
    (REFUSED_BEFORE, 1_000),
    (BLOCKS, 100_000),
    (LONG, 1_000),
    (FULL, 100),
    (SINGLY, 1_000),
    (SAME_BOOKING, 5_000),
    (ORDER_BETWEEN, 1_000),
    (NONE_TAKEN, 50_000),
    (ASKED, 5_000),
    (BAD_LINE, 1_000),
];

/// What calls gave, one after the other, and the state that they left.
struct Given {
    answers: Vec<(Call, u32)>,
    state: Vec<u8>,
}

impl Given {
    /// The answer to each reply, whatever its place.
    fn to_replies(&self) -> Vec<(u8, u32, u32)> {
        let mut replies: Vec<_> = self
            .answers
            .iter()
            .filter_map(|&(call, answer)| match call {
                Call::Reply(letter, booking) => Some((letter, booking, answer)),
                _ => None,
            })
            .collect();
        replies.sort();
        replies
    }

    /// Whether each reply got the same answer, and the bytes left are the same.
    fn is_like(&self, other: &Given) -> bool {
        self.to_replies() == other.to_replies() && self.state == other.state
    }

    /// Whether a next order was answered with a request or a return.
    fn takes_an_order(&self) -> bool {
        self.answers.iter().any(|(_, answer)| [REQUEST, RETURN].contains(&kind_of(*answer)))
    }

    fn accepted(&self) -> usize {
        self.answers.iter().filter(|(_, answer)| kind_of(*answer) == ACCEPTED).count()
    }

    fn shown(&self) -> String {
        let answers = self
            .answers
            .iter()
            .map(|(call, answer)| format!("  {}: {}\n", shown_call(*call), shown_answer(*answer)));
        answers.collect::<String>() + &shown_state(&self.state) + "\n"
    }
}

/// The letters that fit a booking with this code.
fn letters(code: u8) -> &'static [u8] {
    match code {
        REQUESTED => b"YN",
        RETURNING => b"GK",
        _ => b"",
    }
}

/// A reply that fits.
fn fitting(dice: &mut Dice, state: &[u8], booking: usize) -> Call {
    Call::Reply(dice.pick(letters(state[booking])), booking as u32)
}

/// Two replies to different bookings: to open orders if there are two, unless
/// the dice want others.
fn two_replies(dice: &mut Dice, plan: &Plan, state: &[u8]) -> [Call; 2] {
    let mut open = open_orders(plan, state);
    dice.shuffle(&mut open);
    let mut replies: Vec<Call> = open.iter().take(2).map(|&b| fitting(dice, state, b)).collect();
    if dice.percent(25) {
        replies.truncate(dice.below(2));
    }
    let booking = |call: Call| if let Call::Reply(_, booking) = call { booking } else { 0 };
    while replies.len() < 2 {
        let other = any_reply(dice, plan.count());
        if replies.iter().all(|&reply| booking(reply) != booking(other)) {
            replies.push(other);
        }
    }
    dice.shuffle(&mut replies);
    [replies[0], replies[1]]
}

/// The entries in another order; there are two or more, all different.
fn in_another_order<T: Clone + PartialEq>(dice: &mut Dice, entries: &[T]) -> Vec<T> {
    let mut other = entries.to_vec();
    while other == entries {
        dice.shuffle(&mut other);
    }
    other
}

/// The plan of the example: a chase aircraft, a slot, and a tanker after the
/// slot; all of them, the slot alone, or the slot and the tanker.
fn chase_slot_tanker() -> Plan {
    plan_of("CCP", &[(2, 3)], &[&[1, 2, 3], &[2], &[2, 3]])
}

/// Pairs of replies.
impl Comparison<'_> {
    /// Calls of the first version from a state that is no campaign's here.
    fn given(&mut self, case: &Case, from: &[u8], calls: &[Call]) -> Outcome<Given> {
        self.begin(None);
        let mut given = Given { answers: Vec::new(), state: from.to_vec() };
        for &call in calls {
            let mut lent = Lent::new(&given.state);
            let answer = self.first_answer(case.sheet.bytes(), lent.bytes_mut(), call);
            self.tally.note(name_of(call), answer);
            self.history.push((Made::Call(call), answer));
            if !lent.guards_are_whole() || !case.sheet.is_whole() {
                return Err(self.report(
                    case,
                    from,
                    "a byte that was not lent, or of the sheet, has changed\n",
                ));
            }
            given.state = lent.bytes().to_vec();
            given.answers.push((call, answer));
        }
        Ok(given)
    }

    /// The same replies in two orders, by the first version alone; gives what
    /// they came to.
    fn order_is_free(&mut self, case: &Case, from: &[u8], [one, other]: [&[Call]; 2]) -> Outcome<Given> {
        let [one, other] = [self.given(case, from, one)?, self.given(case, from, other)?];
        self.demand_free(case, from, [&one, &other])?;
        Ok(one)
    }

    fn demand_free(&mut self, case: &Case, from: &[u8], [one, other]: [&Given; 2]) -> Outcome {
        if one.is_like(other) {
            return Ok(());
        }
        let told = format!("{ORDER_MATTERS}\n{}and in another order:\n{}", one.shown(), other.shown());
        Err(self.report(case, from, &told))
    }

    /// The same from the second version.
    fn demand_as_second(&mut self, case: &Case, from: &[u8], given: &Given) -> Outcome {
        let mut state = from.to_vec();
        let mut answer = |&(call, _): &(Call, u32)| (call, second_answer(&case.judged, &mut state, call));
        let answers: Vec<(Call, u32)> = given.answers.iter().map(&mut answer).collect();
        let second = Given { answers, state };
        if given.answers == second.answers && given.state == second.state {
            return Ok(());
        }
        Err(self.report(case, from, &format!("second version:\n{}", second.shown())))
    }

    /// Two replies to different bookings, either way round.
    fn either_way(&mut self, case: &Case, from: &[u8], pair: [Call; 2]) -> Outcome {
        let given = self.free_pair(case, from, pair)?;
        self.demand_as_second(case, from, &given)
    }

    /// The same by the first version alone.
    fn free_pair(&mut self, case: &Case, from: &[u8], [p, q]: [Call; 2]) -> Outcome<Given> {
        let given = self.order_is_free(case, from, [&[p, q], &[q, p]])?;
        self.note_pair(from, &given);
        Ok(given)
    }

    /// Every pair of replies to different bookings of the plan, from this state.
    pub fn every_pair(&mut self, case: &Case, plan: &Plan, from: &[u8]) -> Outcome {
        let replies = |b: usize| b"YNGK".map(|letter| Call::Reply(letter, b as u32));
        for (b, c) in plan.bookings().flat_map(|b| (1..b).map(move |c| (b, c))) {
            for (p, q) in replies(b).into_iter().flat_map(|p| replies(c).map(|q| (p, q))) {
                self.free_pair(case, from, [p, q])?;
                self.with_a_next_order_between(case, from, [p, q])?;
            }
        }
        Ok(())
    }

    fn note_pair(&mut self, from: &[u8], given: &Given) {
        self.tally.event(PAIRS);
        if given.answers.iter().any(|&(_, answer)| kind_of(answer) == REFUSED && refusal_of(answer) != 9) {
            return self.tally.event(REFUSED_BEFORE);
        }
        self.tally.event([NEITHER, ONE, BOTH][given.accepted()]);
        if given.state[0] != from[0] {
            self.tally.event(SWITCHED);
        }
        let returns = |call: &Call| matches!(call, Call::Reply(b'G' | b'K', _));
        if given.accepted() == 2 && given.answers.iter().all(|(call, _)| returns(call)) {
            self.tally.event(RETURNS);
        }
    }

    /// Both letters to one open booking: the first counts, so the order decides.
    fn to_one_booking(&mut self, case: &Case, from: &[u8], booking: usize) -> Outcome {
        let &[l, m] = letters(from[booking]) else { panic!("booking {booking} has no open order") };
        let [p, q] = [l, m].map(|letter| Call::Reply(letter, booking as u32));
        let one = self.given(case, from, &[p, q])?;
        let other = self.given(case, from, &[q, p])?;
        if one.is_like(&other) || (one.accepted(), other.accepted()) != (1, 1) {
            return Err(self.report(case, from, "of two replies to one booking the first counts\n"));
        }
        self.tally.event(SAME_BOOKING);
        self.demand_as_second(case, from, &one)
    }

    /// A next order between two replies changes nothing if it takes no order either
    /// way round; if it takes one, it may decide. Gives what they came to.
    fn with_a_next_order_between(&mut self, case: &Case, from: &[u8], [p, q]: [Call; 2]) -> Outcome<Given> {
        let one = self.given(case, from, &[p, Call::NextOrder, q])?;
        let other = self.given(case, from, &[q, Call::NextOrder, p])?;
        if !one.takes_an_order() && !other.takes_an_order() {
            self.demand_free(case, from, [&one, &other])?;
            self.tally.event(NONE_TAKEN);
        } else if !one.is_like(&other) {
            self.tally.event(ORDER_BETWEEN);
        }
        Ok(one)
    }
}

/// Blocks, and lists of replies.
impl Comparison<'_> {
    /// A block of two or more replies that all fit, with its lines in another order.
    fn shuffled_block(&mut self, case: &Case, from: &[u8], block: &[u8], dice: &mut Dice) -> Outcome {
        let lines = block.len() / LINE_LENGTH;
        let (whole, after) = self.block_from(case, from, &Lent::with_rest(block, BEHIND))?;
        if whole.answer != pack(ACCEPTED, 0, lines as u32) {
            return Err(self.report(case, from, "each of its replies fits\n"));
        }
        let other = in_another_order(dice, &block.chunks(LINE_LENGTH).collect::<Vec<_>>()).concat();
        self.expect_block(case, from, &Lent::with_rest(&other, BEHIND), (whole.answer, &after))?;
        self.tally.event(BLOCKS);
        if lines >= 8 {
            self.tally.event(LONG);
        }
        if lines == 64 {
            self.tally.event(FULL);
        }
        Ok(())
    }

    /// Replies to all open orders, and some that do not fit, given singly in two
    /// orders; then the same with next orders anywhere, as far as they take none.
    fn shuffled_replies(&mut self, case: &Case, from: &[u8], plan: &Plan, dice: &mut Dice) -> Outcome {
        let reply = |booking: usize| match letters(from[booking]) {
            letters if letters.is_empty() || dice.percent(10) => {
                Call::Reply(dice.pick(b"YNGK"), booking as u32)
            }
            letters => Call::Reply(dice.pick(letters), booking as u32),
        };
        let mut replies: Vec<Call> = plan.bookings().map(reply).collect();
        dice.shuffle(&mut replies);
        let other = in_another_order(dice, &replies);
        let given = self.order_is_free(case, from, [&replies, &other])?;
        self.tally.event(SINGLY);
        self.demand_as_second(case, from, &given)?;
        self.asked_between(case, from, [&replies, &other], dice)
    }

    /// The same replies in two orders, all but the last few of each, with next orders
    /// among them: after every reply, as a dispatcher asks, and at places of their own.
    fn asked_between(&mut self, case: &Case, from: &[u8], lists: [&[Call]; 2], dice: &mut Dice) -> Outcome {
        let few = dice.between(1, lists[0].len());
        let kept = &lists[0][..few];
        let other: Vec<Call> = lists[1].iter().filter(|call| kept.contains(call)).copied().collect();
        let every = kept.iter().flat_map(|&call| [call, Call::NextOrder]).collect::<Vec<_>>();
        let some = other
            .iter()
            .flat_map(|&call| if dice.percent(50) { vec![Call::NextOrder, call] } else { vec![call] })
            .collect::<Vec<_>>();
        let [one, other] = [self.given(case, from, &every)?, self.given(case, from, &some)?];
        if !one.takes_an_order() && !other.takes_an_order() {
            self.demand_free(case, from, [&one, &other])?;
            self.tally.event(ASKED);
        }
        self.demand_as_second(case, from, &one)
    }

    /// With a line that does not fit the order of a block decides what is kept.
    fn with_a_bad_line(&mut self, case: &Case, from: &[u8], block: &[u8]) -> Outcome {
        let bad = lines("Y0");
        let (first, _) = self.block_from(case, from, &Lent::with_rest(&[&bad, block].concat(), BEHIND))?;
        let (last, after) = self.block_from(case, from, &Lent::with_rest(&[block, &bad].concat(), BEHIND))?;
        let count = block.len() / LINE_LENGTH;
        let due = [pack(REFUSED, 9, 1), pack(REFUSED, 9, count as u32 + 1)];
        if [first.answer, last.answer] != due || after == from {
            return Err(self.report(case, from, "what comes before a bad line is kept\n"));
        }
        self.tally.event(BAD_LINE);
        Ok(())
    }
}

/// What is fixed, and what follows from the states of campaigns.
impl Comparison<'_> {
    /// The examples, then pairs and blocks from the states of campaigns on the
    /// named sheets until there were so many of both.
    pub fn any_order(&mut self, seed: u64, fewest: u64) -> Outcome {
        let mut dice = Dice::new(seed);
        self.examples_of_orders()?;
        self.refused_pairs(&mut dice)?;
        for n in [8, 12, 20, 33, 64] {
            self.part = format!("any order, {n} open requests");
            let wide = case_of(&flights::returnables(n, 0));
            for _ in 0..100 {
                self.orders_from(&wide, &state_of(&vec![1; n + 1]), &mut dice)?;
            }
        }
        self.part = "any order, on the flights".to_string();
        let cases: Vec<Case> = passing().into_iter().chain(flights::wide().iter().map(case_of)).collect();
        let few = |tally: &Tally| [PAIRS, BLOCKS].iter().any(|name| tally.count_of_events(name) < fewest);
        while few(&self.tally) {
            let case = &cases[dice.below(cases.len())];
            let record = self.campaign(case, &mut dice)?;
            self.some_orders(case, &record, &mut dice)?;
        }
        Ok(())
    }

    /// Whether enough was compared.
    pub fn enough_orders(&self) -> Outcome {
        self.tally.demand(&FEWEST)
    }

    /// The examples of the rules: what follows was worked out by hand.
    fn examples_of_orders(&mut self) -> Outcome {
        self.part = "the examples of any order".to_string();
        let [n1, y2, y3] = [(b'N', 1), (b'Y', 2), (b'Y', 3)].map(|(letter, b)| Call::Reply(letter, b));
        let case = case_of(&chase_slot_tanker());
        let from = state_of(&[1, 1, 1]);
        // In either order the slot alone is flown, by way 2.
        for calls in [[n1, y2], [y2, n1]] {
            self.expect_left(&case, &from, &calls, &[2, 3, 2, 0])?;
        }
        // With an order between: after the refusal nothing is ordered; after the slot the
        // tanker is, and with it confirmed way 3 is flown.
        self.expect_left(&case, &from, &[n1, Call::NextOrder, y2], &[2, 3, 2, 0])?;
        self.expect_left(&case, &from, &[y2, Call::NextOrder, n1], &[1, 3, 2, 1])?;
        self.expect_left(&case, &from, &[y2, Call::NextOrder, n1, y3], &[3, 3, 2, 2])?;
        // Two replies to one booking: the first counts.
        let one = case_of(&plan_of("C", &[], &[&[1]]));
        let [y1, n1] = [b'Y', b'N'].map(|letter| Call::Reply(letter, 1));
        self.expect_left(&one, &state_of(&[1, 1]), &[y1, n1], &[1, 2])?;
        self.expect_left(&one, &state_of(&[1, 1]), &[n1, y1], &[0, 3])
    }

    fn expect_left(&mut self, case: &Case, from: &[u8], calls: &[Call], due: &[u8]) -> Outcome {
        let given = self.given(case, from, calls)?;
        if given.state == state_of(due) {
            return self.demand_as_second(case, from, &given);
        }
        Err(self.report(case, from, &format!("state due: {}\n", shown_state(due))))
    }

    /// On a refused sheet, and from unsound states, every reply is refused alike.
    fn refused_pairs(&mut self, dice: &mut Dice) -> Outcome {
        for (name, sheet, _) in flights::refused_sheets() {
            self.part = format!("any order on the refused sheet \"{name}\"");
            let case = Case::new(&sheet);
            for _ in 0..50 {
                let pair = two_replies(dice, &flights::tanker(), &state_of(&[1, 1, 1]));
                self.either_way(&case, &state_of(&[1, 1, 1]), pair)?;
            }
        }
        self.part = "any order on unsound states".to_string();
        for unsound in flights::unsound_states() {
            let case = case_of(&unsound.plan);
            for _ in 0..20 {
                let pair = two_replies(dice, &unsound.plan, &unsound.state);
                self.either_way(&case, &unsound.state, pair)?;
            }
        }
        Ok(())
    }

    /// Pairs and blocks from some states of a campaign with open orders, and
    /// from states beside them.
    pub fn some_orders(&mut self, case: &Case, record: &Record, dice: &mut Dice) -> Outcome {
        let plan = &case.network().expect("a sheet that passes").plan;
        let open = |lines: &usize| open_orders(plan, record.state_after(*lines)).len();
        let mut states: Vec<usize> = (0..=record.lines()).filter(|lines| open(lines) > 1).collect();
        dice.shuffle(&mut states);
        for &lines in states.iter().take(4) {
            self.orders_from(case, record.state_after(lines), dice)?;
        }
        let any = record.state_after(dice.between(0, record.lines()));
        self.either_way(case, any, two_replies(dice, plan, any))?;
        let beside = changed(dice, plan, any.try_into().expect("65 bytes"));
        self.either_way(case, &beside, two_replies(dice, plan, &beside))
    }

    /// All of it from a sound state with two or more open orders.
    fn orders_from(&mut self, case: &Case, from: &[u8], dice: &mut Dice) -> Outcome {
        let plan = &case.network().expect("a sheet that passes").plan;
        for _ in 0..3 {
            self.either_way(case, from, two_replies(dice, plan, from))?;
            let block = right_block(dice, plan, from);
            self.shuffled_block(case, from, &block, dice)?;
        }
        let between = self.with_a_next_order_between(case, from, two_replies(dice, plan, from))?;
        self.demand_as_second(case, from, &between)?;
        self.to_one_booking(case, from, dice.pick(&open_orders(plan, from)))?;
        self.shuffled_replies(case, from, plan, dice)?;
        self.with_a_bad_line(case, from, &right_block(dice, plan, from))
    }
}
