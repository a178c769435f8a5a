//! The drill: plays a sheet against a list of replies and prints the orders.

use crate::calls::{self, kind_of, place_of, refusal_of};
use crate::journal::{read_line, LINE_LENGTH};
use crate::run::STATE_LENGTH;

fn order_line(answer: u32) -> String {
    let letter = match kind_of(answer) {
        calls::REQUEST => 'Q',
        calls::RETURN => 'U',
        calls::WAIT => 'W',
        calls::FLOWN => 'E',
        _ => 'O',
    };
    format!("{letter}{:4}\n", place_of(answer))
}

fn refusal_line(number: u32, place: usize) -> String {
    format!("X{number:4}{place:6}\n")
}

pub fn refused_line(answer: u32) -> String {
    refusal_line(refusal_of(answer), place_of(answer) as usize)
}

/// One reply, of the form of a journal's line.
fn read_reply(bytes: &[u8]) -> Option<(u8, u32)> {
    let (letter, booking) = read_line(bytes.get(..LINE_LENGTH)?)?;
    Some((letter, booking as u32))
}

/// Takes and prints orders until a wait or an end; true if the run goes on.
fn take_orders(sheet: &[u8], state: &mut [u8], printed: &mut String) -> bool {
    loop {
        let answer = calls::next_order(sheet, state);
        match kind_of(answer) {
            calls::REFUSED => {
                *printed += &refused_line(answer);
                return false;
            }
            calls::REQUEST | calls::RETURN => *printed += &order_line(answer),
            kind => {
                *printed += &order_line(answer);
                return kind == calls::WAIT;
            }
        }
    }
}

struct Replies<'a> {
    rest: &'a [u8],
    line: usize,
}

/// Reads replies until one is accepted; true if the run goes on.
fn take_reply(sheet: &[u8], state: &mut [u8], replies: &mut Replies, printed: &mut String) -> bool {
    while !replies.rest.is_empty() {
        replies.line += 1;
        let Some((letter, booking)) = read_reply(replies.rest) else {
            *printed += &refusal_line(1, replies.line);
            return false;
        };
        replies.rest = &replies.rest[LINE_LENGTH..];
        let answer = calls::reply(sheet, state, letter, booking);
        if kind_of(answer) == calls::ACCEPTED {
            return true;
        }
        *printed += &refused_line(answer);
        if refusal_of(answer) != 9 {
            return false;
        }
    }
    false
}

/// All that the drill prints for a sheet and the bytes of its input.
pub fn drill(sheet: &[u8], input: &[u8]) -> String {
    let mut state = [0; STATE_LENGTH];
    let started = calls::start(sheet, &mut state);
    if kind_of(started) == calls::REFUSED {
        return refused_line(started);
    }
    let mut printed = String::new();
    let mut replies = Replies { rest: input, line: 0 };
    while take_orders(sheet, &mut state, &mut printed)
        && take_reply(sheet, &mut state, &mut replies, &mut printed)
    {}
    printed
}
