//! What was answered before there were desks: converted, each stored sheet must
//! get the stored answers and states again.

use super::blocks::BEHIND;
use super::lent::Lent;
use super::record::line_of;
use super::{shown_answer, shown_state, Call, Case, Comparison, Outcome};
use crate::calls::kept_of;
use crate::journal::{self, LINE_LENGTH};
use crate::old::{self, Made, Old, Step};

/// A stored campaign under way.
struct Replay {
    state: Vec<u8>,
    journal: Vec<u8>,
}

impl Comparison<'_> {
    pub fn old_cases(&mut self) -> Outcome {
        for old in old::cases() {
            self.part = format!("stored case \"{}\"", old.name);
            self.tally.event("old: sheets");
            self.old_case(&old)?;
        }
        Ok(())
    }

    fn old_case(&mut self, old: &Old) -> Outcome {
        let case = Case::new(&old::converted(&old.sheet));
        let mut replay = Replay { state: vec![9; 65], journal: Vec::new() };
        for step in &old.steps {
            if self.check_only && step.made != Made::Call(Call::Check) {
                return Ok(());
            }
            self.tally.event("old: calls");
            self.old_step(&case, step, &mut replay)?;
        }
        Ok(())
    }

    fn old_step(&mut self, case: &Case, step: &Step, replay: &mut Replay) -> Outcome {
        let before = replay.state.clone();
        let (answer, state) = match &step.made {
            Made::Call(call) => {
                let answer = self.call(case, &mut replay.state, *call)?;
                if let Some((letter, booking)) = line_of(*call, answer) {
                    replay.journal.extend(journal::write_line(letter, booking as usize));
                }
                (answer, replay.state.clone())
            }
            Made::Block(block) => {
                let taken = self.reply_block(case, &Lent::with_rest(block, BEHIND), &mut replay.state)?;
                replay.journal.extend(&block[..LINE_LENGTH * kept_of(taken.answer)]);
                (taken.answer, replay.state.clone())
            }
            Made::Restart(bytes) => {
                let (front, rest) = replay.journal.split_at(*bytes);
                let mut state = vec![9; 65];
                (self.restart(case, &Lent::with_rest(front, rest), &mut state)?, state)
            }
        };
        if answer == step.answer && step.state.is_none_or(|stored| state == stored) {
            return Ok(());
        }
        let stored = step.state.map_or(String::new(), |state| shown_state(&state));
        let told = format!("stored: {}\nstored state: {stored}\n", shown_answer(step.answer));
        Err(self.report(case, &before, &told))
    }
}
