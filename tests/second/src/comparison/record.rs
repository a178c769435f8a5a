//! The journal that a campaign keeps, and the state after each of its lines.

use super::ledger::Ledger;
use super::Call;
use crate::calls::{kind_of, place_of, ACCEPTED, REQUEST, RETURN};
use crate::journal::LINE_LENGTH;
use crate::plan::Plan;

/// Letter and booking of a call's line, if it has one.
pub fn line_of(call: Call, answer: u32) -> Option<(u8, u32)> {
    match (call, kind_of(answer)) {
        (Call::NextOrder, REQUEST) => Some((b'Q', place_of(answer))),
        (Call::NextOrder, RETURN) => Some((b'U', place_of(answer))),
        (Call::Reply(letter, booking), ACCEPTED) => Some((letter, booking)),
        _ => None,
    }
}

#[derive(Clone)]
pub struct Record {
    pub journal: Vec<u8>,
    /// The calls of the lines, with their answers.
    calls: Vec<(Call, u32)>,
    /// The state before the first line, then the one after each.
    states: Vec<Vec<u8>>,
}

impl Record {
    pub fn begin(state: &[u8]) -> Record {
        Record { journal: Vec::new(), calls: Vec::new(), states: vec![state.to_vec()] }
    }

    pub fn add(&mut self, call: (Call, u32), line: &[u8], state: &[u8]) {
        self.calls.push(call);
        self.journal.extend(line);
        self.states.push(state.to_vec());
    }

    pub fn lines(&self) -> usize {
        self.calls.len()
    }

    pub fn state_after(&self, lines: usize) -> &[u8] {
        &self.states[lines]
    }

    /// What the record was after so many lines.
    pub fn first(&self, lines: usize) -> Record {
        Record {
            journal: self.journal[..lines * LINE_LENGTH].to_vec(),
            calls: self.calls[..lines].to_vec(),
            states: self.states[..=lines].to_vec(),
        }
    }

    /// The ledger after its calls, which broke nothing when they were made.
    pub fn ledger(&self, plan: &Plan) -> Ledger {
        let mut ledger = Ledger::default();
        for &(call, answer) in &self.calls {
            ledger.enter(plan, call, answer).expect("it was entered before");
        }
        ledger
    }
}
