//! The calls on lent bytes, on sets of 64 bits: what the library is measured against.

use crate::block;
use crate::check::{self, Network};
use crate::join::{self, Part};
use crate::journal;
use crate::passed;
use crate::plan::{self, Limits, OURS, THEIRS};
use crate::refusal::Refusal;
use crate::run::{Change, Order, Run, STATE_LENGTH};
use crate::settle;

const UNSOUND: Refusal = Refusal { number: 11, place: 0 };

pub fn pack(kind: u32, refusal: u32, place: u32) -> u32 {
    kind << 24 | refusal << 16 | place
}

fn answer(result: Result<u32, Refusal>) -> u32 {
    result.unwrap_or_else(|refusal| pack(0, refusal.number, refusal.place))
}

fn judge_within(sheet: &[u8], most: &Limits) -> Result<Network, Refusal> {
    check::check(plan::read(sheet, most)?)
}

fn judge(sheet: &[u8]) -> Result<Network, Refusal> {
    judge_within(sheet, &OURS)
}

fn lent(state: &mut [u8]) -> Result<&mut [u8; STATE_LENGTH], Refusal> {
    state.try_into().map_err(|_| UNSOUND)
}

fn write(change: &Change, bytes: &mut [u8; STATE_LENGTH]) {
    bytes[0] = change.way as u8;
    bytes[change.booking + 1] = change.code;
}

/// The reader alone; 0 or its refusal.
#[inline(never)]
pub fn read_only(sheet: &[u8]) -> u32 {
    answer(plan::read(sheet, &OURS).map(|plan| {
        std::hint::black_box(&plan);
        0
    }))
}

#[inline(never)]
pub fn check(sheet: &[u8]) -> u32 {
    answer(judge(sheet).map(|_| pack(6, 0, 0)))
}

#[inline(never)]
pub fn partner(sheet: &[u8]) -> u32 {
    answer(judge_within(sheet, &THEIRS).map(|_| pack(6, 0, 0)))
}

#[inline(never)]
pub fn start(sheet: &[u8], state: &mut [u8]) -> u32 {
    let mut step = || {
        judge(sheet)?;
        let bytes = lent(state)?;
        *bytes = [0; STATE_LENGTH];
        bytes[0] = 1;
        Ok(pack(6, 0, 0))
    };
    answer(step())
}

#[inline(never)]
pub fn next_order(sheet: &[u8], state: &mut [u8]) -> u32 {
    let mut step = || {
        let network = judge(sheet)?;
        let bytes = lent(state)?;
        let run = Run::of_bytes(&network, bytes).ok_or(UNSOUND)?;
        let order = run.next_order(&network);
        if let Some(change) = run.change_of_order(&order) {
            write(&change, bytes);
        }
        Ok(match order {
            Order::Request(booking) => pack(1, 0, booking as u32 + 1),
            Order::Return(booking) => pack(2, 0, booking as u32 + 1),
            Order::Wait => pack(3, 0, 0),
            Order::Flown(way) => pack(4, 0, way as u32),
            Order::CalledOff => pack(5, 0, 0),
        })
    };
    answer(step())
}

#[inline(never)]
pub fn reply(sheet: &[u8], state: &mut [u8], letter: u8, booking: u32) -> u32 {
    let mut step = || {
        let network = judge(sheet)?;
        let bytes = lent(state)?;
        let mut run = Run::of_bytes(&network, bytes).ok_or(UNSOUND)?;
        let misfit = Refusal { number: 9, place: if booking <= 64 { booking } else { 0 } };
        let change = run.reply(&network, letter, booking).ok_or(misfit)?;
        write(&change, bytes);
        Ok(pack(6, 0, booking))
    };
    answer(step())
}

/// The replies before a bad line are written too.
#[inline(never)]
pub fn reply_block(sheet: &[u8], block: &[u8], state: &mut [u8]) -> u32 {
    let mut step = || {
        let network = judge(sheet)?;
        let bytes = lent(state)?;
        let mut run = Run::of_bytes(&network, bytes).ok_or(UNSOUND)?;
        let taken = block::take(&mut run, &network, block);
        *bytes = run.bytes();
        Ok(pack(6, 0, taken?))
    };
    answer(step())
}

#[inline(never)]
pub fn restart(sheet: &[u8], journal: &[u8], state: &mut [u8]) -> u32 {
    let wrong = |line: usize| Refusal { number: 12, place: line.min(65_535) as u32 };
    let mut step = || {
        let network = judge(sheet)?;
        let bytes = lent(state)?;
        *bytes = journal::replay(&network, journal).map_err(wrong)?.bytes();
        Ok(pack(6, 0, 0))
    };
    answer(step())
}

#[inline(never)]
pub fn settle(sheet: &[u8], fees: &[u8], journal: &[u8], report: &mut [u8]) -> u32 {
    let mut step = || {
        let network = judge(sheet)?;
        Ok(pack(6, 0, settle::settle(&network, fees, journal, report)?))
    };
    answer(step())
}

#[inline(never)]
pub fn passed_ways(sheet: &[u8], state: &[u8], listing: &mut [u8]) -> u32 {
    let mut step = || {
        let network = judge(sheet)?;
        let bytes = state.try_into().map_err(|_| UNSOUND)?;
        let run = Run::of_bytes(&network, bytes).ok_or(UNSOUND)?;
        Ok(pack(6, 0, passed::list(&run, &network, listing)?))
    };
    answer(step())
}

#[inline(never)]
pub fn join(first: &[u8], second: &[u8], joined: &mut [u8]) -> u32 {
    let mut step = || {
        let (first, second) = (Part::of(first)?, Part::of(second)?);
        Ok(pack(6, 0, join::join(&first, &second, joined)?))
    };
    answer(step())
}
