//! Blocks of replies for the comparison: right ones, and others.

use crate::dice::Dice;
use crate::generate;
use crate::journal::{self, LINE_LENGTH};
use crate::plan::Plan;
use crate::run::{REQUESTED, RETURNING};

/// The bookings whose desks have not answered.
pub fn open_orders(plan: &Plan, state: &[u8]) -> Vec<usize> {
    plan.bookings().filter(|&b| state[b] == REQUESTED || state[b] == RETURNING).collect()
}

/// A reply to each open order, in any order: each fits, whichever came before.
pub fn right_block(dice: &mut Dice, plan: &Plan, state: &[u8]) -> Vec<u8> {
    let mut open = open_orders(plan, state);
    dice.shuffle(&mut open);
    let mut line =
        |b: usize| journal::write_line(dice.pick(if state[b] == REQUESTED { b"YN" } else { b"GK" }), b);
    open.into_iter().flat_map(&mut line).collect()
}

/// A line of its form; letters and bookings that could be mistaken are likely.
pub fn any_line(dice: &mut Dice, n: usize) -> Vec<u8> {
    let letter = match dice.below(10) {
        0..=6 => dice.pick(b"YNGK"),
        7 => dice.pick(b"QU"),
        8 => dice.pick(b"yngkWEOX ?\n\0\xFF"),
        _ => dice.byte(),
    };
    let good = dice.between(1, n);
    let booking = match dice.below(10) {
        0 => 0,
        1 => n + 1,
        2 => dice.pick(&[64, 65, 66, 255, 256, 9999]),
        3 => good + dice.pick(&[64, 128, 256, 512]),
        _ => good,
    };
    journal::write_line(letter, booking)
}

/// A line with a byte changed, six bytes of any sort, or fewer.
pub fn odd_line(dice: &mut Dice, n: usize) -> Vec<u8> {
    let mut line = any_line(dice, n);
    match dice.below(4) {
        0 => line.iter_mut().for_each(|byte| *byte = dice.byte()),
        1 => line.truncate(dice.between(1, LINE_LENGTH - 1)),
        _ => {
            let at = dice.between(1, LINE_LENGTH - 1);
            line[at] = dice.pick(&generate::damages(line[at]));
        }
    }
    line
}

/// So many lines: replies that fit as far as they go, then any; now and then
/// one of them is another.
pub fn long_block(dice: &mut Dice, plan: &Plan, state: &[u8], lines: usize) -> Vec<u8> {
    let n = plan.count();
    let mut block = right_block(dice, plan, state);
    block.truncate(lines * LINE_LENGTH);
    while block.len() < lines * LINE_LENGTH {
        block.extend(any_line(dice, n));
    }
    if lines > 0 && dice.percent(30) {
        let at = dice.below(lines) * LINE_LENGTH;
        let other = if dice.percent(50) { any_line(dice, n) } else { odd_line(dice, n) };
        block.splice(at..at + LINE_LENGTH, other);
    }
    block
}

/// Some lines, of which nothing is known beforehand.
pub fn any_block(dice: &mut Dice, n: usize) -> Vec<u8> {
    let line = |dice: &mut Dice| if dice.percent(70) { any_line(dice, n) } else { odd_line(dice, n) };
    (0..dice.below(5)).flat_map(|_| line(dice)).collect()
}
