//! A journal's lines, taken in one after the other.

use crate::check::Network;
use crate::plan::number;
use crate::run::{Order, Run};

pub const LINE_LENGTH: usize = 6;

/// Gives the order that is due, if it is this one.
#[inline]
fn take_order(run: &mut Run, network: &Network, letter: u8, booking: u32) -> Option<()> {
    let order = run.next_order(network);
    let due = match order {
        Order::Request(due) if letter == b'Q' => due,
        Order::Return(due) if letter == b'U' => due,
        _ => return None,
    };
    (booking == due as u32 + 1).then(|| run.give(&order))
}

/// Takes in a line and gives its booking; none if it is wrong here.
#[inline]
pub fn take(run: &mut Run, network: &Network, line: &[u8]) -> Option<u32> {
    if line[5] != b'\n' {
        return None;
    }
    let booking = number(&line[1..5])?;
    match line[0] {
        b'Q' | b'U' => take_order(run, network, line[0], booking)?,
        letter => run.reply(network, letter, booking).map(|_| ())?,
    }
    Some(booking)
}

/// The run after the whole lines, from the start, or the number of the first wrong one.
pub fn replay(network: &Network, journal: &[u8]) -> Result<Run, usize> {
    let mut run = Run::start();
    for (at, line) in journal.chunks_exact(LINE_LENGTH).enumerate() {
        take(&mut run, network, line).ok_or(at + 1)?;
    }
    Ok(run)
}
