//! Blocks of replies: the same from both versions, and the same as the first
//! version's own reply gives line after line.

use super::damage::{damages, Damage};
use super::journals::{any_state, case_of, passing, RIGHT};
use super::lent::Lent;
use super::record::Record;
use super::replies::{any_block, any_line, long_block, odd_line, open_orders, right_block};
use super::walks::changed;
use super::{shown_answer, shown_state, Call, Case, Comparison, Made, Outcome, Said};
use crate::calls::{self, kept_of, kind_of, pack, place_of, refusal_of, ACCEPTED, REFUSED};
use crate::dice::Dice;
use crate::flights;
use crate::generate;
use crate::journal::{self, LINE_LENGTH};
use crate::plan::Plan;
use crate::run::RETURNING;
use crate::written_blocks;

/// Behind a block stands what could be taken for more of it.
pub const BEHIND: &[u8] = b"Y   1\nN   2\n";

/// Lines that fit from some states, do not from others, or never do.
const FEW: [&[u8]; 7] =
    [b"", b"Y   1\n", b"N   1\nY   2\n", b"G   1\n", b"Q   1\n", b"Y  01\n", b"Y   1\nY   "];

/// Blocks on sheets that pass, from sound states: their lines are judged.
const JUDGED: &str = "blocks: judged line by line";

/// What must have been met so often before the rounds, or too little was shown.
const FEWEST: [(&str, u64); 15] = [
    (JUDGED, 100_000),
    ("blocks: all of one or two lines", 150_000),
    ("blocks: taken whole", 10_000),
    ("blocks: refused, a reply does not fit", 20_000),
    ("blocks: refused, a line is not of its form", 20_000),
    ("blocks: refused, a line is unfinished", 5_000),
    ("blocks: replies kept before a bad line", 50_000),
    ("blocks: 64 replies kept", 100),
    ("blocks: empty", 1_000),
    ("blocks: sheet refused", 50_000),
    ("blocks: state not sound", 2_000),
    ("blocks: handed in by a campaign", 5_000),
    ("blocks: restarted from their lines", 4_000),
    ("blocks: a blank for the number", 100),
    ("campaigns to the end with replies in blocks alone", 500),
];

/// What a block's lines give one after the other.
pub struct Singly {
    pub answer: u32,
    /// The state before the first line, then the one after each that was kept.
    pub states: Vec<Vec<u8>>,
}

impl Singly {
    fn state(&self) -> &[u8] {
        &self.states[self.states.len() - 1]
    }
}

/// Whether the block ends within this line, counted from 1.
fn is_unfinished(block: &[u8], line: usize) -> bool {
    block.len() < line * LINE_LENGTH
}

fn plan_of(case: &Case) -> &Plan {
    &case.network().expect("a sheet that passes").plan
}

/// A reply that fits nowhere among others from this state: returns and requests
/// are never open together.
fn misfit(dice: &mut Dice, plan: &Plan, state: &[u8]) -> Vec<u8> {
    let returning = plan.bookings().any(|b| state[b] == RETURNING);
    let letter = if returning { dice.pick(b"YN") } else { dice.pick(b"GK") };
    let booking = dice.between(1, plan.count());
    match dice.below(3) {
        0 => journal::write_line(letter, booking),
        1 => journal::write_line(dice.pick(b"QU"), booking),
        _ => journal::write_line(dice.pick(b"YNGK"), dice.pick(&[0, plan.count() + 1, 128 + booking])),
    }
}

/// One block, given to both versions and to the single replies.
impl Comparison<'_> {
    /// Hands a block to both versions, and its lines to the first version's
    /// own reply. Leaves in `state` what all of them wrote.
    pub fn reply_block(&mut self, case: &Case, block: &Lent, state: &mut Vec<u8>) -> Outcome<Singly> {
        let before = state.clone();
        let mut expected_state = state.clone();
        let expected = calls::reply_block_judged(&case.judged, block.bytes(), &mut expected_state);
        let mut lent = Lent::new(state);
        let answer = self.first.reply_block(case.sheet.bytes(), Some(block.bytes()), lent.bytes_mut());
        self.tally.note("reply block", answer);
        self.history.push((Made::Block(block.bytes().to_vec()), answer));
        let whole = lent.guards_are_whole() && case.sheet.is_whole() && block.is_whole();
        let first = Said { answer, state: lent.bytes() };
        self.settle(case, state, first, Said { answer: expected, state: &expected_state }, whole)?;
        self.note_block(case, block.bytes(), answer);
        if block.bytes().is_empty() {
            self.tally.event("blocks: empty");
            self.lent_as_null(case, &before, answer)?;
        }
        let singly = self.singly(case, block.bytes(), &before);
        if singly.answer == answer && singly.state() == state {
            return Ok(singly);
        }
        let given = format!("{}\nstate after: {}", shown_answer(singly.answer), shown_state(singly.state()));
        Err(self.report(case, &before, &format!("its lines given to reply one after the other: {given}\n")))
    }

    /// An empty block may be lent as null and 0; it changes nothing either way.
    fn lent_as_null(&mut self, case: &Case, before: &[u8], due: u32) -> Outcome {
        let mut lent = Lent::new(before);
        let answer = self.first.reply_block(case.sheet.bytes(), None, lent.bytes_mut());
        self.tally.note("reply block", answer);
        if answer == due && lent.is_whole() {
            return Ok(());
        }
        let told = format!("the same lent as null: {}\n", shown_answer(answer));
        Err(self.report(case, before, &told))
    }

    /// What the first version's own reply makes of the lines.
    fn singly(&mut self, case: &Case, block: &[u8], before: &[u8]) -> Singly {
        let sheet = case.sheet.bytes();
        let mut states = vec![before.to_vec()];
        // No reply has the letter 0: only what comes before any reply differs from 9.
        let nothing = self.first.reply(sheet, &mut before.to_vec(), 0, 0);
        if refusal_of(nothing) != 9 {
            return Singly { answer: nothing, states };
        }
        for line in block.chunks(LINE_LENGTH) {
            let bad = |refusal: u32, states: &[_]| pack(REFUSED, refusal, states.len() as u32);
            let Some((letter, booking)) = journal::read_line(line) else {
                return Singly { answer: bad(1, &states), states };
            };
            let mut after = states[states.len() - 1].clone();
            let answer = self.first.reply(sheet, &mut after, letter, booking as u32);
            self.tally.event("blocks: replies given singly");
            if kind_of(answer) != ACCEPTED {
                return Singly { answer: bad(refusal_of(answer), &states), states };
            }
            states.push(after);
        }
        Singly { answer: pack(ACCEPTED, 0, states.len() as u32 - 1), states }
    }

    fn note_block(&mut self, case: &Case, block: &[u8], answer: u32) {
        let kept = kept_of(answer);
        let name = match refusal_of(answer) {
            _ if case.network().is_none() => return self.tally.event("blocks: sheet refused"),
            11 => return self.tally.event("blocks: state not sound"),
            0 => "blocks: taken whole",
            1 if is_unfinished(block, kept + 1) => "blocks: refused, a line is unfinished",
            1 => "blocks: refused, a line is not of its form",
            _ => "blocks: refused, a reply does not fit",
        };
        self.tally.event(name);
        self.tally.event(JUDGED);
        self.tally.events_add("blocks: replies kept", kept as u64);
        if kind_of(answer) == REFUSED {
            self.tally.events_add("blocks: replies kept before a bad line", kept as u64);
        }
        if kept == 64 {
            self.tally.event("blocks: 64 replies kept");
        }
    }

    /// A block from a state that is no campaign's here; gives the state after it too.
    pub fn block_from(&mut self, case: &Case, before: &[u8], block: &Lent) -> Outcome<(Singly, Vec<u8>)> {
        self.begin(None);
        let mut state = before.to_vec();
        let singly = self.reply_block(case, block, &mut state)?;
        Ok((singly, state))
    }

    /// A block from which this must follow.
    pub fn expect_block(&mut self, case: &Case, before: &[u8], block: &Lent, due: (u32, &[u8])) -> Outcome {
        let (singly, state) = self.block_from(case, before, block)?;
        if (singly.answer, &state[..]) == due {
            return Ok(());
        }
        let told = format!("due: {}\nstate due: {}\n", shown_answer(due.0), shown_state(due.1));
        Err(self.report(case, before, &told))
    }
}

/// What is fixed.
impl Comparison<'_> {
    /// What is fixed about blocks, then blocks from the states of campaigns on
    /// the named sheets until so many here were judged line by line.
    pub fn blocks(&mut self, seed: u64, fewest: u64) -> Outcome {
        let mut dice = Dice::new(seed);
        let fewest = self.tally.count_of_events(JUDGED) + fewest;
        self.written_blocks()?;
        self.refused_before_blocks()?;
        self.unsound_before_blocks()?;
        self.full_blocks(&mut dice)?;
        let wide = flights::wide();
        let cases: Vec<Case> = passing().into_iter().chain(wide.iter().map(case_of)).collect();
        for case in &cases {
            self.damage_blocks(case, &mut dice)?;
        }
        self.part = "blocks of campaigns on the flights".to_string();
        while self.tally.count_of_events(JUDGED) < fewest {
            let case = &cases[dice.below(cases.len())];
            let record = self.campaign(case, &mut dice)?;
            self.some_blocks(case, &record, &mut dice)?;
        }
        Ok(())
    }

    /// Whether enough was compared, once all blocks of one or two lines were too.
    pub fn enough_blocks(&self) -> Outcome {
        self.tally.demand(&FEWEST)
    }

    fn written_blocks(&mut self) -> Outcome {
        for written in written_blocks::blocks() {
            self.part = format!("block \"{}\"", written.text.escape_ascii());
            self.tally.event("blocks: with results written down");
            let kind = if written.refusal == 0 { ACCEPTED } else { REFUSED };
            let due = (pack(kind, written.refusal, written.place), &written.after[..]);
            let block = Lent::with_rest(&written.text, BEHIND);
            self.expect_block(&case_of(&written.plan), &written.before, &block, due)?;
        }
        Ok(())
    }

    /// A refused sheet comes first, whatever the state and the block; also
    /// where both would be right if the sheet were.
    fn refused_before_blocks(&mut self) -> Outcome {
        for (name, sheet, (refusal, place)) in flights::refused_sheets() {
            self.part = format!("blocks on the refused sheet \"{name}\"");
            let case = Case::new(&sheet);
            let requested = flights::state_of(&[1, 1, 1]).to_vec();
            let states = [0, 1, 64, 65, 66, 200].map(|length| vec![1; length]);
            for state in states.into_iter().chain([requested]) {
                for block in FEW {
                    let block = Lent::with_rest(block, BEHIND);
                    self.expect_block(&case, &state, &block, (pack(REFUSED, refusal, place), &state))?;
                }
            }
        }
        Ok(())
    }

    /// An unsound state comes before any line, also before one that would fit
    /// by its booking's code.
    fn unsound_before_blocks(&mut self) -> Outcome {
        self.part = "blocks on unsound states".to_string();
        let tanker = case_of(&flights::tanker());
        for length in [0, 1, 2, 63, 64, 66, 67, 200, 1000] {
            let mut state = flights::state_of(&[1, 1]).to_vec();
            state.resize(length, 0);
            self.blocks_on_unsound(&tanker, &state)?;
        }
        for unsound in flights::unsound_states() {
            self.blocks_on_unsound(&case_of(&unsound.plan), &unsound.state)?;
        }
        Ok(())
    }

    fn blocks_on_unsound(&mut self, case: &Case, state: &[u8]) -> Outcome {
        let single =
            plan_of(case).bookings().flat_map(|b| b"YNGK".map(|letter| journal::write_line(letter, b)));
        let blocks: Vec<Vec<u8>> = single.chain(FEW.map(<[u8]>::to_vec)).collect();
        for block in blocks {
            let block = Lent::with_rest(&block, BEHIND);
            self.expect_block(case, state, &block, (pack(REFUSED, 11, 0), state))?;
        }
        Ok(())
    }

    /// All 64 bookings requested: blocks of 0 to 200 lines, a bad line at each
    /// place, cut at each byte, and each byte changed to some others.
    fn full_blocks(&mut self, dice: &mut Dice) -> Outcome {
        self.part = "blocks for 64 open requests".to_string();
        let case = case_of(&flights::returnables(64, 0));
        let state = [1; 65];
        for lines in 0..=200 {
            let block = long_block(dice, plan_of(&case), &state, lines);
            self.block_from(&case, &state, &Lent::with_rest(&block, BEHIND))?;
        }
        let block = right_block(dice, plan_of(&case), &state);
        let whole = self.whole_block(&case, &state, &block)?;
        for at in 0..=block.len() {
            self.cut_block(&case, &whole, &block, at)?;
        }
        for at in (0..block.len()).cycle().take(4 * block.len()) {
            let mut other = block.clone();
            other[at] = dice.pick(&generate::damages(block[at]));
            self.block_from(&case, &state, &Lent::with_rest(&other, BEHIND))?;
        }
        for line in 0..=64 {
            self.bad_line(&case, &whole, &block, line, dice)?;
        }
        Ok(())
    }

    /// A line put before this one that is bad for sure; those before it are kept.
    fn bad_line(
        &mut self,
        case: &Case,
        whole: &Singly,
        block: &[u8],
        line: usize,
        dice: &mut Dice,
    ) -> Outcome {
        let misfit = misfit(dice, plan_of(case), &whole.states[0]);
        let misformed = dice.pick(&[&b"Y  01\n"[..], b"Y   1 ", b"?    \n"]);
        for (refusal, text) in [(9, &misfit[..]), (1, misformed)] {
            let (front, rest) = block.split_at(line * LINE_LENGTH);
            let block = [front, text, rest].concat();
            let due = (pack(REFUSED, refusal, line as u32 + 1), &whole.states[line][..]);
            self.tally.event("blocks: a bad line put in");
            self.expect_block(case, &whole.states[0], &Lent::with_rest(&block, BEHIND), due)?;
        }
        Ok(())
    }
}

/// Blocks from the states of campaigns.
impl Comparison<'_> {
    /// Damages everywhere, from each state with an open order of a long campaign.
    fn damage_blocks(&mut self, case: &Case, dice: &mut Dice) -> Outcome {
        let record = self.longest_campaign(case, 8, dice)?;
        let plan = plan_of(case);
        let waiting = self.first_wait(case)?;
        let mut states: Vec<&[u8]> = (0..=record.lines()).map(|lines| record.state_after(lines)).collect();
        states.push(&waiting);
        states.sort();
        states.dedup();
        for state in states {
            self.part = "damaged blocks of the flights".to_string();
            let block = right_block(dice, plan, state);
            let whole = self.whole_block(case, state, &block)?;
            (0..=block.len()).try_for_each(|at| self.cut_block(case, &whole, &block, at))?;
            for before in 0..block.len() / LINE_LENGTH {
                for damage in damages(&block, before, plan.count(), plan.count() < 4).iter().flatten() {
                    self.damaged_block(case, &whole, &block, damage)?;
                }
                self.bad_line(case, &whole, &block, before, dice)?;
            }
        }
        Ok(())
    }

    /// The state with all the orders given that need no reply.
    fn first_wait(&mut self, case: &Case) -> Outcome<Vec<u8>> {
        let mut state = vec![9; 65];
        self.call(case, &mut state, Call::Start)?;
        self.orders(case, &mut state)?;
        Ok(state)
    }

    /// A block of replies that all fit.
    fn whole_block(&mut self, case: &Case, state: &[u8], block: &[u8]) -> Outcome<Singly> {
        let (whole, _) = self.block_from(case, state, &Lent::with_rest(block, BEHIND))?;
        if whole.answer == pack(ACCEPTED, 0, (block.len() / LINE_LENGTH) as u32) {
            return Ok(whole);
        }
        Err(self.report(case, state, "each of its replies fits\n"))
    }

    /// A block cut at a byte, with the rest behind what is lent: the whole
    /// lines are kept, and a line that is cut is not of its form.
    fn cut_block(&mut self, case: &Case, whole: &Singly, block: &[u8], at: usize) -> Outcome {
        let kept = at / LINE_LENGTH;
        let answer = match at % LINE_LENGTH {
            0 => pack(ACCEPTED, 0, kept as u32),
            _ => pack(REFUSED, 1, kept as u32 + 1),
        };
        self.tally.event("blocks: cut at a byte");
        let lent = Lent::with_rest(&block[..at], &block[at..]);
        self.expect_block(case, &whole.states[0], &lent, (answer, &whole.states[kept]))
    }

    /// The lines before the damage are kept; some damages are bad for sure.
    fn damaged_block(&mut self, case: &Case, whole: &Singly, block: &[u8], damage: &Damage) -> Outcome {
        self.tally.event(&format!("blocks: {}", damage.name));
        let before = &whole.states[0];
        let (singly, state) = self.block_from(case, before, &Lent::with_rest(&damage.of(block), BEHIND))?;
        let bad = [1, 9].contains(&refusal_of(singly.answer));
        let as_due = match damage.wrong {
            Some(wrong) => {
                bad && place_of(singly.answer) as usize == wrong && state == whole.states[wrong - 1]
            }
            None => kept_of(singly.answer) >= damage.before,
        };
        if as_due {
            return Ok(());
        }
        let told = format!("{} after line {}: not the line that is bad\n", damage.name, damage.before);
        Err(self.report(case, before, &told))
    }

    /// Some blocks from states of a campaign and from states beside them.
    pub fn some_blocks(&mut self, case: &Case, record: &Record, dice: &mut Dice) -> Outcome {
        let plan = plan_of(case);
        let open = |lines: &usize| !open_orders(plan, record.state_after(*lines)).is_empty();
        let open: Vec<usize> = (0..=record.lines()).filter(open).collect();
        for _ in 0..open.len().min(4) {
            let lines = dice.pick(&open);
            self.blocks_after(case, &record.first(lines), dice)?;
        }
        let any = record.state_after(dice.between(0, record.lines()));
        let lines = dice.below(201);
        let block = long_block(dice, plan, any, lines);
        self.tally.event("blocks: of 0 to 200 lines");
        self.block_from(case, any, &Lent::with_rest(&block, BEHIND))?;
        self.block_beside(case, any, dice)
    }

    /// Blocks after the lines of a campaign that has an open order.
    fn blocks_after(&mut self, case: &Case, record: &Record, dice: &mut Dice) -> Outcome {
        let (plan, state) = (plan_of(case), record.state_after(record.lines()));
        let block = right_block(dice, plan, state);
        let whole = self.whole_block(case, state, &block)?;
        self.cut_block(case, &whole, &block, dice.between(0, block.len()))?;
        let line = dice.below(block.len() / LINE_LENGTH);
        self.bad_line(case, &whole, &block, line, dice)?;
        let groups = damages(&block, line, plan.count(), false);
        let group = &groups[dice.below(groups.len())];
        self.damaged_block(case, &whole, &block, &group[dice.below(group.len())])?;
        let other = [any_line(dice, plan.count()), odd_line(dice, plan.count())].concat();
        self.block_from(case, state, &Lent::with_rest(&[&block[..], &other].concat(), BEHIND))?;
        // The journal of the campaign and these lines.
        let journal = [&record.journal[..], &block].concat();
        self.tally.event("blocks: restarted from their lines");
        self.expect(case, &journal, &any_state(dice), (RIGHT, whole.state()))
    }

    /// A block from a state some bytes away, with replies that fit by its codes.
    fn block_beside(&mut self, case: &Case, near: &[u8], dice: &mut Dice) -> Outcome {
        let plan = plan_of(case);
        let state = changed(dice, plan, near.try_into().expect("65 bytes"));
        let block = right_block(dice, plan, &state);
        self.block_from(case, &state, &Lent::with_rest(&block, BEHIND))?;
        let mut other = near.to_vec();
        other.resize(dice.pick(&[0, 1, 64, 66, 200]), dice.pick(&[0, 1, 255]));
        self.any_block(case, &other, dice)
    }

    /// Any block, on any sheet, from any state.
    pub fn any_block(&mut self, case: &Case, state: &[u8], dice: &mut Dice) -> Outcome {
        let n = case.network().map_or(8, |network| network.plan.count());
        let block = any_block(dice, n);
        let mut state = state.to_vec();
        self.reply_block(case, &Lent::with_rest(&block, BEHIND), &mut state).map(drop)
    }
}
