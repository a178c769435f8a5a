//! The journal: its lines, and the state that follows them.

use crate::check::Network;
use crate::plan::number_in_columns;
use crate::run::{self, Order, State};

pub const LINE_LENGTH: usize = 6;
pub const LETTERS: &[u8; 6] = b"QUYNGK";

/// A line's text; nothing is judged here, so that wrong lines can be written for tests.
pub fn write_line(letter: u8, booking: usize) -> Vec<u8> {
    let mut line = vec![letter];
    line.extend(format!("{booking:4}\n").bytes());
    line
}

/// Letter and booking of a line: any byte, a number in four columns, a line
/// feed. The letter is judged later.
pub fn read_line(line: &[u8]) -> Option<(u8, usize)> {
    if line.len() != LINE_LENGTH || line[5] != b'\n' {
        return None;
    }
    Some((line[0], number_in_columns(&line[1..5])?))
}

/// The order that a line reports, if it reports one.
fn order_of(letter: u8, booking: usize) -> Option<Order> {
    match letter {
        b'Q' => Some(Order::Request(booking)),
        b'U' => Some(Order::Return(booking)),
        _ => None,
    }
}

/// The state after a line, or none if the line is wrong here.
pub fn after_line(network: &Network, state: State, line: &[u8]) -> Option<State> {
    let (letter, booking) = read_line(line)?;
    let Some(order) = order_of(letter, booking) else {
        return run::reply(network, state, letter, booking);
    };
    let (due, after) = run::next_order(network, state);
    (order == due).then_some(after)
}

/// The state after the whole lines, from the start, or the number of the
/// first wrong line. What remains after the last whole line is not looked at.
pub fn replay(network: &Network, journal: &[u8]) -> Result<State, usize> {
    let mut state = run::start();
    for (at, line) in journal.chunks_exact(LINE_LENGTH).enumerate() {
        state = after_line(network, state, line).ok_or(at + 1)?;
    }
    Ok(state)
}
