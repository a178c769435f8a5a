//! Random campaigns: next orders and replies in any mixture, with probes of
//! states nearby.

use super::blocks::BEHIND;
use super::journals::{any_state, RIGHT};
use super::ledger::Ledger;
use super::lent::Lent;
use super::record::{line_of, Record};
use super::replies::{any_line, odd_line, open_orders};
use super::{Call, Case, Comparison, Outcome};
use crate::calls::{kept_of, kind_of, pack, ACCEPTED, CALLED_OFF, FLOWN, REQUEST, RETURN};
use crate::dice::Dice;
use crate::journal::{self, LINE_LENGTH};
use crate::plan::{Kind, Plan};
use crate::run::{self, State, RETURNING};

const ONLY_BLOCKS: usize = 100;

/// How the desks and the dispatcher of one campaign behave, in percent.
struct Manner {
    confirm: usize,
    keep: usize,
    repeat: usize,
    ask: usize,
    misfit: usize,
    probe: usize,
    /// Replies in a block; with 100 none comes alone.
    block: usize,
}

fn manner(dice: &mut Dice) -> Manner {
    Manner {
        confirm: dice.pick(&[0, 40, 60, 75, 85, 90, 95, 100]),
        keep: dice.pick(&[0, 20, 50]),
        repeat: dice.pick(&[0, 20, 50]),
        ask: dice.pick(&[30, 50, 70, 90]),
        misfit: dice.pick(&[0, 10, 30]),
        probe: dice.pick(&[0, 10, 30]),
        block: dice.pick(&[0, 0, 10, 40, ONLY_BLOCKS]),
    }
}

impl Manner {
    /// The letter of a reply that fits.
    fn letter(&self, dice: &mut Dice, code: u8, kind: Kind) -> u8 {
        let refuse = if kind.repeats() { self.repeat } else { 100 - self.confirm };
        match code {
            RETURNING if dice.percent(self.keep) => b'K',
            RETURNING => b'G',
            _ if dice.percent(refuse) => b'N',
            _ => b'Y',
        }
    }
}

fn any_letter(dice: &mut Dice) -> u8 {
    match dice.below(10) {
        0..=6 => dice.pick(b"YNGK"),
        7..=8 => dice.pick(b"yngkXCDPR \n\0\xFF"),
        _ => dice.byte(),
    }
}

/// Any letter with any booking; bookings that could be mistaken for good ones
/// when cut to fewer bits are likely.
pub fn any_reply(dice: &mut Dice, n: usize) -> Call {
    let letter = any_letter(dice);
    let good = dice.between(1, n) as u32;
    let booking = match dice.below(10) {
        0 => 0,
        1 => n as u32 + 1,
        2 => dice.pick(&[64, 65, 66, 255, 256, 65_535, 65_536]),
        3 => u32::MAX - dice.below(3) as u32,
        4 => good + dice.pick(&[64, 128, 256, 65_536, 1 << 24, 1 << 31]),
        _ => good,
    };
    Call::Reply(letter, booking)
}

fn fitting_reply(dice: &mut Dice, plan: &Plan, state: &[u8], manner: &Manner) -> Option<Call> {
    let waiting = open_orders(plan, state);
    if waiting.is_empty() {
        return None;
    }
    let booking = dice.pick(&waiting);
    Some(Call::Reply(manner.letter(dice, state[booking], plan.kind(booking)), booking as u32))
}

impl Manner {
    fn next_call(&self, dice: &mut Dice, plan: &Plan, state: &[u8]) -> Call {
        if self.block == ONLY_BLOCKS {
            return Call::NextOrder;
        }
        if dice.percent(self.misfit) {
            return any_reply(dice, plan.count());
        }
        if dice.percent(self.ask) {
            return Call::NextOrder;
        }
        fitting_reply(dice, plan, state, self).unwrap_or(Call::NextOrder)
    }

    /// Replies to some of the open orders; now and then with a bad line.
    fn block(&self, dice: &mut Dice, plan: &Plan, state: &[u8]) -> Vec<u8> {
        let mut open = open_orders(plan, state);
        dice.shuffle(&mut open);
        open.truncate(dice.between(0, open.len()));
        let line = |b: usize| journal::write_line(self.letter(dice, state[b], plan.kind(b)), b);
        let mut lines: Vec<Vec<u8>> = open.into_iter().map(line).collect();
        if dice.percent(self.misfit) {
            let n = plan.count();
            let bad = if dice.percent(50) { any_line(dice, n) } else { odd_line(dice, n) };
            lines.insert(dice.between(0, lines.len()), bad);
        }
        lines.concat()
    }
}

fn is_end(call: Call, answer: u32) -> bool {
    call == Call::NextOrder && [FLOWN, CALLED_OFF].contains(&kind_of(answer))
}

/// A campaign under way: its state, what its claim is counted by, its journal.
pub struct Walk {
    pub state: Vec<u8>,
    pub ledger: Ledger,
    pub record: Record,
}

impl Comparison<'_> {
    /// One list of calls from start to some calls after the end, with the
    /// campaign's claim counted along it and its journal kept. The sheet must
    /// pass.
    pub fn campaign(&mut self, case: &Case, dice: &mut Dice) -> Outcome<Record> {
        let plan = &case.network().expect("a sheet that passes").plan;
        let size: usize = plan.ways.iter().map(Vec::len).sum();
        let longest = (20 * size + 40).min(3000);
        let mut state: Vec<u8> = (0..65).map(|_| dice.byte()).collect();
        self.call(case, &mut state, Call::Start)?;
        let mut walk = Walk { ledger: Ledger::default(), record: Record::begin(&state), state };
        self.walk(case, &mut walk, longest, dice)?;
        self.tally.event("campaigns");
        Ok(walk.record)
    }

    /// So many calls, or fewer if the end comes before.
    pub fn walk(&mut self, case: &Case, walk: &mut Walk, longest: usize, dice: &mut Dice) -> Outcome {
        let plan = &case.network().expect("a sheet that passes").plan;
        let mut manner = manner(dice);
        let mut calls_after_end = 0;
        for length in 0..longest {
            if length == longest / 2 {
                // So that most campaigns end.
                (manner.keep, manner.repeat) = (0, 0);
            }
            if dice.percent(manner.probe) {
                self.probe(case, &walk.state, dice)?;
            }
            if dice.percent(manner.block) {
                if dice.percent(50) {
                    self.all_orders(case, walk)?;
                }
                let block = manner.block(dice, plan, &walk.state);
                self.block_step(case, walk, &block, dice)?;
            }
            let call = manner.next_call(dice, plan, &walk.state);
            let answer = self.step(case, walk, call)?;
            if is_end(call, answer) && calls_after_end == 0 {
                self.note_end(answer, walk.state[0]);
                if manner.block == ONLY_BLOCKS {
                    self.tally.event("campaigns to the end with replies in blocks alone");
                }
            }
            if calls_after_end > 0 || is_end(call, answer) {
                calls_after_end += 1;
            }
            if calls_after_end > 5 {
                break;
            }
        }
        Ok(())
    }

    /// One call, entered into the ledger, and into the journal if it has a line.
    fn step(&mut self, case: &Case, walk: &mut Walk, call: Call) -> Outcome<u32> {
        let plan = &case.network().expect("a sheet that passes").plan;
        let way = walk.state[0];
        let answer = self.call(case, &mut walk.state, call)?;
        let entered = walk.ledger.enter(plan, call, answer);
        entered.map_err(|told| self.report(case, &walk.state, &told))?;
        if let Some((letter, booking)) = line_of(call, answer) {
            let line = self.journal_line(letter, booking, b"??????")?;
            walk.record.add((call, answer), &line, &walk.state);
        }
        self.note_switch(way, walk.state[0]);
        self.note_both(plan, call, answer);
        Ok(answer)
    }

    /// Each order that needs no further reply.
    fn all_orders(&mut self, case: &Case, walk: &mut Walk) -> Outcome {
        while [REQUEST, RETURN].contains(&kind_of(self.step(case, walk, Call::NextOrder)?)) {}
        Ok(())
    }

    /// A block, entered like the replies that it keeps: their lines are the
    /// block's own. From the journal with them the same state must follow.
    fn block_step(&mut self, case: &Case, walk: &mut Walk, block: &[u8], dice: &mut Dice) -> Outcome {
        let plan = &case.network().expect("a sheet that passes").plan;
        let way = walk.state[0];
        let singly = self.reply_block(case, &Lent::with_rest(block, BEHIND), &mut walk.state)?;
        let kept = &block[..kept_of(singly.answer) * LINE_LENGTH];
        for (line, state) in kept.chunks(LINE_LENGTH).zip(&singly.states[1..]) {
            let (letter, booking) = journal::read_line(line).expect("a line that was kept");
            let made = (Call::Reply(letter, booking as u32), pack(ACCEPTED, 0, booking as u32));
            let entered = walk.ledger.enter(plan, made.0, made.1);
            entered.map_err(|told| self.report(case, &walk.state, &told))?;
            walk.record.add(made, line, state);
            self.note_both(plan, made.0, made.1);
        }
        self.tally.event("blocks: handed in by a campaign");
        self.note_switch(way, walk.state[0]);
        if kept.is_empty() || dice.percent(70) {
            return Ok(());
        }
        self.tally.event("blocks: restarted from their lines");
        self.expect(case, &walk.record.journal, &any_state(dice), (RIGHT, &walk.state))
    }

    fn note_switch(&mut self, before: u8, after: u8) {
        if before != after && after != 0 {
            self.tally.event("switches to another way");
        }
    }

    /// What the desks of the kind D did.
    fn note_both(&mut self, plan: &Plan, call: Call, answer: u32) {
        let Call::Reply(letter, booking) = call else { return };
        if kind_of(answer) != ACCEPTED || plan.kind(booking as usize) != Kind::RepeatableReturnable {
            return;
        }
        match letter {
            b'N' => self.tally.event("D refused in campaigns"),
            b'Y' => self.tally.event("D confirmed in campaigns"),
            b'G' => self.tally.event("D returned in campaigns"),
            _ => self.tally.event("D kept in campaigns"),
        }
    }

    fn note_end(&mut self, answer: u32, way: u8) {
        match kind_of(answer) {
            CALLED_OFF => self.tally.event("campaigns called off"),
            _ if way == 1 => self.tally.event("campaigns flown by the first way"),
            _ => self.tally.event("campaigns flown by a later way"),
        }
    }

    /// Calls on a state some bytes away from one of the campaign.
    fn probe(&mut self, case: &Case, near: &[u8], dice: &mut Dice) -> Outcome {
        let network = case.network().expect("a sheet that passes");
        let n = network.plan.count();
        let state = changed(dice, &network.plan, near.try_into().expect("65 bytes"));
        match run::broken_sentences(network, &state)[..] {
            [] => return self.stray(case, &state, dice),
            [sentence] => self.tally.broke_alone(sentence),
            _ => {}
        }
        self.call(case, &mut state.to_vec(), Call::NextOrder)?;
        self.call(case, &mut state.to_vec(), any_reply(dice, n))?;
        // A sound state, but for its length.
        let mut other = near.to_vec();
        other.resize(dice.pick(&[0, 1, 64, 66, 200]), dice.pick(&[0, 1, 255]));
        self.call(case, &mut other, any_call(dice, n))?;
        Ok(())
    }

    /// Some calls from a sound state that no campaign need reach.
    fn stray(&mut self, case: &Case, from: &State, dice: &mut Dice) -> Outcome {
        self.tally.event("sound states beside the campaigns");
        self.some_calls(case, from, dice)
    }

    /// Some calls from this state.
    pub fn some_calls(&mut self, case: &Case, from: &[u8], dice: &mut Dice) -> Outcome {
        let plan = &case.network().expect("a sheet that passes").plan;
        let mut state = from.to_vec();
        let manner = Manner { block: 0, ..manner(dice) };
        for _ in 0..6 {
            let call = manner.next_call(dice, plan, &state);
            let answer = self.call(case, &mut state, call)?;
            if kind_of(answer) == ACCEPTED && dice.percent(20) {
                break;
            }
        }
        Ok(())
    }
}

/// A state with some bytes changed, mostly into other good codes.
pub fn changed(dice: &mut Dice, plan: &Plan, mut state: State) -> State {
    let (n, a) = (plan.count(), plan.ways.len());
    for _ in 0..dice.pick(&[1, 1, 2, 3, 6]) {
        match dice.below(10) {
            0 => state[0] = dice.between(0, a) as u8,
            1 => state[0] = dice.pick(&[0, a as u8 + 1, 255]),
            2 => state[dice.between(1, 64)] = dice.pick(&[0, 1, 2, 3, 4, 5, 255]),
            _ => state[dice.between(1, n)] = dice.pick(&[0, 1, 1, 2, 2, 3, 3, 4, 4, 5]),
        }
    }
    state
}

fn any_call(dice: &mut Dice, n: usize) -> Call {
    match dice.below(3) {
        0 => Call::Start,
        1 => Call::NextOrder,
        _ => any_reply(dice, n),
    }
}
