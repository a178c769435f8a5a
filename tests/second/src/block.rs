//! A block of replies: its lines, taken up to the first bad one.

use crate::check::Network;
use crate::journal::{self, LINE_LENGTH};
use crate::run::{self, State};

/// What is wrong with a line: its form, or that the reply on it does not fit.
#[derive(Clone, Copy, Debug, PartialEq, Eq)]
pub enum Bad {
    Form,
    Misfit,
}

/// What became of a block.
#[derive(Debug, PartialEq, Eq)]
pub struct Taken {
    /// So many lines were kept, the first ones.
    pub kept: usize,
    /// The state after them.
    pub state: State,
    /// What is wrong with the line behind them, if one stands there.
    pub bad: Option<Bad>,
}

/// The state after one line. No line that lacks a byte is of its form, and an
/// order's letter is no reply's.
fn after_line(network: &Network, state: State, line: &[u8]) -> Result<State, Bad> {
    let (letter, booking) = journal::read_line(line).ok_or(Bad::Form)?;
    run::reply(network, state, letter, booking).ok_or(Bad::Misfit)
}

/// Takes the lines one after the other; the last may be unfinished.
pub fn take(network: &Network, state: State, block: &[u8]) -> Taken {
    let mut taken = Taken { kept: 0, state, bad: None };
    for line in block.chunks(LINE_LENGTH) {
        match after_line(network, taken.state, line) {
            Ok(state) => taken = Taken { kept: taken.kept + 1, state, bad: None },
            Err(bad) => return Taken { bad: Some(bad), ..taken },
        }
    }
    taken
}
