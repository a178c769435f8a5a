//! The ten calls on bytes and the partner range's one, each answered with 32
//! bits: kind × 16,777,216 + refusal × 65,536 + place.

use crate::block::{self, Bad, Taken};
use crate::check::{self, Network};
use crate::join::{self, Joinable};
use crate::journal::{self, LETTERS, LINE_LENGTH};
use crate::partner;
use crate::passed;
use crate::plan::{self, Refusal};
use crate::run::{self, Order, State};
use crate::settle::{self, MOST_LINES};

pub const REFUSED: u32 = 0;
pub const REQUEST: u32 = 1;
pub const RETURN: u32 = 2;
pub const WAIT: u32 = 3;
pub const FLOWN: u32 = 4;
pub const CALLED_OFF: u32 = 5;
pub const ACCEPTED: u32 = 6;

const HIGHEST_BOOKING: u32 = 64;
const HIGHEST_LINE: usize = 65_535;

/// What a sheet comes to: a network to run, or a refusal among 1 to 8.
pub type Judged = Result<Network, Refusal>;

pub fn judge(sheet: &[u8]) -> Judged {
    check::check(plan::read(sheet)?)
}

pub fn pack(kind: u32, refusal: u32, place: u32) -> u32 {
    kind * 16_777_216 + refusal * 65_536 + place
}

pub fn kind_of(answer: u32) -> u32 {
    answer / 16_777_216
}

pub fn refusal_of(answer: u32) -> u32 {
    answer / 65_536 % 256
}

pub fn place_of(answer: u32) -> u32 {
    answer % 65_536
}

pub fn refused(refusal: Refusal) -> u32 {
    pack(REFUSED, refusal.number, refusal.place)
}

fn unsound() -> Refusal {
    Refusal { number: 11, place: 0 }
}

fn misfit(booking: u32) -> Refusal {
    let place = if booking <= HIGHEST_BOOKING { booking } else { 0 };
    Refusal { number: 9, place }
}

fn short_buffer() -> Refusal {
    Refusal { number: 10, place: 0 }
}

fn wrong_line(line: usize) -> Refusal {
    Refusal { number: 12, place: line.min(HIGHEST_LINE) as u32 }
}

fn too_many_lines() -> Refusal {
    Refusal { number: 14, place: 0 }
}

fn block_answer(taken: &Taken) -> u32 {
    let bad_line = |number| refused(Refusal { number, place: taken.kept as u32 + 1 });
    match taken.bad {
        None => pack(ACCEPTED, 0, taken.kept as u32),
        Some(Bad::Form) => bad_line(1),
        Some(Bad::Misfit) => bad_line(9),
    }
}

/// How many lines a block has kept, by the answer to it, on a sheet that passes.
pub fn kept_of(answer: u32) -> usize {
    let place = place_of(answer) as usize;
    match (kind_of(answer), refusal_of(answer)) {
        (ACCEPTED, _) => place,
        (_, 1 | 9) => place.saturating_sub(1),
        _ => 0,
    }
}

fn state_of(bytes: &[u8]) -> Result<State, Refusal> {
    bytes.try_into().map_err(|_| unsound())
}

fn sound_state(network: &Network, bytes: &[u8]) -> Result<State, Refusal> {
    let state = state_of(bytes)?;
    if run::is_sound(network, &state) {
        Ok(state)
    } else {
        Err(unsound())
    }
}

fn order_answer(order: Order) -> u32 {
    match order {
        Order::Request(booking) => pack(REQUEST, 0, booking as u32),
        Order::Return(booking) => pack(RETURN, 0, booking as u32),
        Order::Wait => pack(WAIT, 0, 0),
        Order::Flown(way) => pack(FLOWN, 0, way as u32),
        Order::CalledOff => pack(CALLED_OFF, 0, 0),
    }
}

/// The answer, with the state written back unless the whole call was refused.
fn write_back(step: Result<(u32, State), Refusal>, bytes: &mut [u8]) -> u32 {
    match step {
        Ok((answer, state)) => {
            bytes.copy_from_slice(&state);
            answer
        }
        Err(refusal) => refused(refusal),
    }
}

// The calls on a sheet already judged, for many calls with one sheet.

pub fn check_judged(judged: &Judged) -> u32 {
    match judged {
        Ok(_) => pack(ACCEPTED, 0, 0),
        Err(refusal) => refused(*refusal),
    }
}

pub fn start_judged(judged: &Judged, bytes: &mut [u8]) -> u32 {
    let step = || {
        judged.as_ref().map_err(|r| *r)?;
        state_of(bytes)?;
        Ok((pack(ACCEPTED, 0, 0), run::start()))
    };
    write_back(step(), bytes)
}

pub fn next_order_judged(judged: &Judged, bytes: &mut [u8]) -> u32 {
    let step = || {
        let network = judged.as_ref().map_err(|r| *r)?;
        let state = sound_state(network, bytes)?;
        let (order, after) = run::next_order(network, state);
        Ok((order_answer(order), after))
    };
    write_back(step(), bytes)
}

pub fn reply_judged(judged: &Judged, bytes: &mut [u8], letter: u8, booking: u32) -> u32 {
    let step = || {
        let network = judged.as_ref().map_err(|r| *r)?;
        let state = sound_state(network, bytes)?;
        let after = run::reply(network, state, letter, booking as usize);
        Ok((pack(ACCEPTED, 0, booking % 65_536), after.ok_or(misfit(booking))?))
    };
    write_back(step(), bytes)
}

/// What is kept of a block is written back though a line behind it is bad.
pub fn reply_block_judged(judged: &Judged, block: &[u8], bytes: &mut [u8]) -> u32 {
    let step = || {
        let network = judged.as_ref().map_err(|r| *r)?;
        let taken = block::take(network, sound_state(network, bytes)?, block);
        Ok((block_answer(&taken), taken.state))
    };
    write_back(step(), bytes)
}

pub fn restart_judged(judged: &Judged, journal: &[u8], bytes: &mut [u8]) -> u32 {
    let step = || {
        let network = judged.as_ref().map_err(|r| *r)?;
        state_of(bytes)?;
        Ok((pack(ACCEPTED, 0, 0), journal::replay(network, journal).map_err(wrong_line)?))
    };
    write_back(step(), bytes)
}

/// The state after a journal that is not too long to be settled or told.
pub fn replay_not_too_long(network: &Network, journal: &[u8]) -> Result<State, Refusal> {
    if journal.len() / LINE_LENGTH > MOST_LINES {
        return Err(too_many_lines());
    }
    journal::replay(network, journal).map_err(wrong_line)
}

/// The answer, with the text at the front of the buffer if there is one and the buffer has room for it.
fn write_text(text: Result<String, Refusal>, buffer: &mut [u8]) -> u32 {
    match text {
        Ok(text) if text.len() > buffer.len() => refused(short_buffer()),
        Ok(text) => {
            buffer[..text.len()].copy_from_slice(text.as_bytes());
            pack(ACCEPTED, 0, text.len() as u32)
        }
        Err(refusal) => refused(refusal),
    }
}

pub fn settle_judged(judged: &Judged, fees: &[u8], journal: &[u8], report: &mut [u8]) -> u32 {
    let text = || {
        let network = judged.as_ref().map_err(|r| *r)?;
        replay_not_too_long(network, journal)?;
        let fees = settle::read_fees(fees, network.plan.count())?;
        Ok(settle::report(&network.plan.ways, &fees, journal))
    };
    write_text(text(), report)
}

pub fn passed_ways_judged(judged: &Judged, bytes: &[u8], listing: &mut [u8]) -> u32 {
    let text = || {
        let network = judged.as_ref().map_err(|r| *r)?;
        Ok(passed::listing(network, &sound_state(network, bytes)?))
    };
    write_text(text(), listing)
}

/// The first sheet's refusal comes before the second's.
pub fn join_judged(first: &Joinable, second: &Joinable, joined: &mut [u8]) -> u32 {
    let text = || {
        let first = first.as_ref().map_err(|r| *r)?;
        let second = second.as_ref().map_err(|r| *r)?;
        Ok(plan::write(&join::join(first, second)?))
    };
    write_text(text(), joined)
}

// The calls as the dispatcher makes them.

pub fn check(sheet: &[u8]) -> u32 {
    check_judged(&judge(sheet))
}

pub fn partner_check(sheet: &[u8]) -> u32 {
    check_judged(&partner::judge(sheet))
}

pub fn start(sheet: &[u8], state: &mut [u8]) -> u32 {
    start_judged(&judge(sheet), state)
}

pub fn next_order(sheet: &[u8], state: &mut [u8]) -> u32 {
    next_order_judged(&judge(sheet), state)
}

pub fn reply(sheet: &[u8], state: &mut [u8], letter: u8, booking: u32) -> u32 {
    reply_judged(&judge(sheet), state, letter, booking)
}

pub fn reply_block(sheet: &[u8], block: &[u8], state: &mut [u8]) -> u32 {
    reply_block_judged(&judge(sheet), block, state)
}

pub fn restart(sheet: &[u8], journal: &[u8], state: &mut [u8]) -> u32 {
    restart_judged(&judge(sheet), journal, state)
}

pub fn settle(sheet: &[u8], fees: &[u8], journal: &[u8], report: &mut [u8]) -> u32 {
    settle_judged(&judge(sheet), fees, journal, report)
}

pub fn passed_ways(sheet: &[u8], state: &[u8], listing: &mut [u8]) -> u32 {
    passed_ways_judged(&judge(sheet), state, listing)
}

pub fn join(first: &[u8], second: &[u8], joined: &mut [u8]) -> u32 {
    join_judged(&join::joinable(&judge(first), first), &join::joinable(&judge(second), second), joined)
}

pub fn journal_line(letter: u8, booking: u32, line: &mut [u8]) -> u32 {
    if !LETTERS.contains(&letter) || !(1..=HIGHEST_BOOKING).contains(&booking) {
        return refused(misfit(booking));
    }
    if line.len() < LINE_LENGTH {
        return refused(short_buffer());
    }
    line[..LINE_LENGTH].copy_from_slice(&journal::write_line(letter, booking as usize));
    pack(ACCEPTED, 0, LINE_LENGTH as u32)
}
