//! Both versions must give equal answers and leave equal states, or no time means anything.

use crate::blocks::{self, block_of, Wide};
use crate::campaign::{record, Dice, State};
use crate::journal::LINE_LENGTH;
use crate::listings::{self, Listed, LONGEST_LISTING};
use crate::pairs::{any_pair, around_limits, worked, Pair, LONGEST_SHEET};
use crate::passed::PASSED_LINE;
use crate::settle::FEE_LINE;
use crate::settlements::{fees_for, length_for, LONGEST_REPORT};
use crate::sheets::{Endless, Sheet};
use crate::{calls, library, restart, settlements};

pub struct Compared {
    pub calls: usize,
}

impl Compared {
    fn same(&mut self, here: u32, there: u32, what: &str, sheet: &[u8]) {
        self.calls += 1;
        if here != there {
            eprintln!("bench: {what}: library {here:#010x}, Rust {there:#010x}, for the sheet:");
            eprintln!("{}", String::from_utf8_lossy(sheet));
            std::process::exit(1);
        }
    }

    fn check(&mut self, sheet: &[u8]) {
        self.same(library::check(sheet), calls::check(sheet), "check", sheet);
        self.same(library::partner(sheet), calls::partner(sheet), "the partner's check", sheet);
    }

    fn step(&mut self, sheet: &[u8], state: &[u8], what: &str, step: Step) {
        let (mut here, mut there) = (state.to_vec(), state.to_vec());
        let answers = match step {
            Step::Start => (library::start(sheet, &mut here), calls::start(sheet, &mut there)),
            Step::Order => (library::next_order(sheet, &mut here), calls::next_order(sheet, &mut there)),
            Step::Reply(letter, booking) => (
                library::reply(sheet, &mut here, letter, booking),
                calls::reply(sheet, &mut there, letter, booking),
            ),
            Step::Block(block) => {
                (library::reply_block(sheet, block, &mut here), calls::reply_block(sheet, block, &mut there))
            }
            Step::Restart(journal) => {
                (library::restart(sheet, journal, &mut here), calls::restart(sheet, journal, &mut there))
            }
        };
        self.same(answers.0, answers.1, what, sheet);
        if here != there {
            eprintln!("bench: {what}: states differ\n{here:?}\n{there:?}");
            std::process::exit(1);
        }
    }
}

/// Of a settlement the reports are compared, and what stands behind them.
impl Compared {
    fn settle(&mut self, sheet: &[u8], fees: &[u8], journal: &[u8], room: usize) {
        let (mut here, mut there) = (vec![9; room], vec![9; room]);
        let answer = library::settle(sheet, fees, journal, &mut here);
        self.same(answer, calls::settle(sheet, fees, journal, &mut there), "settle", sheet);
        if here != there {
            let (here, there) = (String::from_utf8_lossy(&here), String::from_utf8_lossy(&there));
            eprintln!("bench: settle: reports differ\n{here}\n{there}");
            std::process::exit(1);
        }
    }
}

/// Of a listing too, and the state stays as it is.
impl Compared {
    fn list(&mut self, sheet: &[u8], state: &[u8], room: usize) {
        let (mut here, mut there) = (vec![9; room], vec![9; room]);
        let lent = state.to_vec();
        let answer = library::passed_ways(sheet, std::hint::black_box(&lent), &mut here);
        self.same(answer, calls::passed_ways(sheet, state, &mut there), "passed ways", sheet);
        if here != there || lent != state {
            let (here, there) = (String::from_utf8_lossy(&here), String::from_utf8_lossy(&there));
            eprintln!("bench: passed ways: listings differ, or the state changed\n{here}\n{there}");
            std::process::exit(1);
        }
    }
}

/// Of a join the joined sheets, and what stands behind them.
impl Compared {
    fn join(&mut self, first: &[u8], second: &[u8], room: usize) -> u32 {
        let (mut here, mut there) = (vec![9; room], vec![9; room]);
        let answer = library::join(first, second, &mut here);
        let both = [first, second].concat();
        self.same(answer, calls::join(first, second, &mut there), "join", &both);
        if here != there {
            let (here, there) = (String::from_utf8_lossy(&here), String::from_utf8_lossy(&there));
            eprintln!("bench: join: joined sheets differ\n{here}\n{there}");
            std::process::exit(1);
        }
        answer
    }
}

#[derive(Clone, Copy)]
enum Step<'a> {
    Start,
    Order,
    Reply(u8, u32),
    Block(&'a [u8]),
    Restart(&'a [u8]),
}

fn damaged_sheet(sheet: &[u8], dice: &mut Dice) -> Vec<u8> {
    let mut bytes = sheet.to_vec();
    let at = dice.below(bytes.len());
    match dice.below(4) {
        0 => bytes.truncate(at),
        1 => bytes[at] = *b" 0123456789BLACPRD\n".get(dice.below(21)).unwrap_or(&255),
        2 => bytes.swap(at, (at + 4) % sheet.len()),
        _ => bytes.insert(at, b' '),
    }
    bytes
}

fn damaged_sheets(compared: &mut Compared, sheet: &[u8], dice: &mut Dice, times: usize) {
    compared.check(sheet);
    for _ in 0..times {
        let bytes = damaged_sheet(sheet, dice);
        compared.check(&bytes);
        compared.step(&bytes, &[0; 65], "start, damaged sheet", Step::Start);
        compared.step(&bytes, &[0; 65], "restart, damaged sheet", Step::Restart(b"Q   1\nY   1\n"));
        compared.step(&bytes, &[1; 65], "block, damaged sheet", Step::Block(b"Y   1\nN   2\n"));
        compared.settle(&bytes, b"F   1     3     4     2      \n", b"Q   1\nY   1\n", 98);
        compared.list(&bytes, &[0; 65], 22);
    }
}

fn damaged(state: &State, dice: &mut Dice) -> Vec<u8> {
    let mut bytes = state.to_vec();
    match dice.below(8) {
        0 => bytes.truncate(64),
        1 => bytes.push(0),
        2 => bytes[0] = dice.below(18) as u8,
        _ => bytes[1 + dice.below(64)] = dice.below(6) as u8,
    }
    bytes
}

/// A journal or a block cut at a byte, with a byte changed, or with a line doubled, dropped or another.
fn damaged_journal(journal: &[u8], dice: &mut Dice) -> Vec<u8> {
    let mut bytes = journal.to_vec();
    if bytes.is_empty() {
        return b"Q   1".to_vec();
    }
    let at = dice.below(bytes.len());
    let line = at - at % LINE_LENGTH;
    match dice.below(5) {
        0 => bytes.truncate(at),
        1 => bytes[at] = b" 0123456789QUYNGKWEOXquyngk\n\0"[dice.below(29)],
        2 => bytes.extend_from_within(line..line + LINE_LENGTH),
        3 => drop(bytes.drain(line..line + LINE_LENGTH)),
        _ => bytes[line] = b"QUYNGK"[dice.below(6)],
    }
    bytes
}

fn restarts(compared: &mut Compared, sheet: &[u8], journal: &[u8], dice: &mut Dice) {
    compared.step(sheet, &[9; 65], "restart", Step::Restart(journal));
    for length in [65, 65, 65, 65, 65, 64, 66] {
        let damaged = damaged_journal(journal, dice);
        compared.step(sheet, &vec![9; length], "restart, damaged journal", Step::Restart(&damaged));
    }
}

/// A fee sheet cut at a byte, with a byte changed, a field left blank or a quote turned round, or with a line
/// doubled, dropped or more behind it.
fn damaged_fees(fees: &[u8], dice: &mut Dice) -> Vec<u8> {
    let mut bytes = fees.to_vec();
    let at = dice.below(bytes.len());
    let line = at - at % FEE_LINE;
    match dice.below(7) {
        0 => bytes.truncate(at),
        1 => bytes[at] = b" 0123456789FfS\n\0"[dice.below(16)],
        2 => bytes.extend_from_within(line..line + FEE_LINE),
        3 => drop(bytes.drain(line..line + FEE_LINE)),
        4 => bytes[line + 5..][6 * dice.below(4)..][..6].fill(b' '),
        5 => bytes[line + 5..][12 * dice.below(2)..][..12].rotate_left(6),
        _ => bytes.push(b'F'),
    }
    bytes
}

/// A journal settled, with room of any length; the journal damaged, the fee sheet, or both.
fn some_settlements(compared: &mut Compared, sheet: &[u8], journal: &[u8], dice: &mut Dice) {
    let fees = fees_for(sheet);
    let length = length_for(sheet);
    compared.settle(sheet, &fees, journal, LONGEST_REPORT);
    for room in [0, dice.below(length), length - 1, length, length + 1] {
        compared.settle(sheet, &fees, journal, room);
        compared.settle(sheet, &damaged_fees(&fees, dice), journal, room);
        compared.settle(sheet, &fees, &damaged_journal(journal, dice), room);
        compared.settle(sheet, &damaged_fees(&fees, dice), &damaged_journal(journal, dice), room);
    }
}

/// A reply to each open order, in any order, and such a block damaged.
fn some_blocks(compared: &mut Compared, sheet: &[u8], state: &State, dice: &mut Dice) {
    let mut replies = Vec::new();
    for booking in (1..state.len()).filter(|&b| state[b] == 1 || state[b] == 4) {
        let letters = if state[booking] == 1 { b"YN" } else { b"GK" };
        let reply = (letters[dice.below(2)], booking as u32);
        replies.insert(dice.below(replies.len() + 1), reply);
    }
    let block = block_of(&replies);
    compared.step(sheet, state, "block", Step::Block(&block));
    for _ in 0..4 {
        let damaged = damaged_journal(&block, dice);
        compared.step(sheet, state, "block, damaged", Step::Block(&damaged));
    }
    compared.step(sheet, &damaged(state, dice), "block, damaged state", Step::Block(&block));
}

/// The ways before the current one listed, with room of any length.
fn some_listings(compared: &mut Compared, sheet: &[u8], state: &State, dice: &mut Dice) {
    let needed = listings::lines(sheet, state).0 * PASSED_LINE;
    for room in [LONGEST_LISTING, needed, needed + 1, needed.saturating_sub(1), dice.below(LONGEST_LISTING)] {
        compared.list(sheet, state, room);
    }
}

fn campaigns(compared: &mut Compared, sheet: &[u8], dice: &mut Dice, most: usize) {
    let before = compared.calls;
    for seed in 0.. {
        let campaign = record(sheet, seed, [0, 3, 10, 40][seed as usize % 4]);
        for state in &campaign.orders {
            compared.step(sheet, state, "next order", Step::Order);
            let bytes = damaged(state, dice);
            compared.step(sheet, &bytes, "next order, damaged state", Step::Order);
            some_listings(compared, sheet, state, dice);
            compared.list(sheet, &bytes, dice.below(LONGEST_LISTING + 20));
        }
        for &(state, letter, booking) in &campaign.replies {
            compared.step(sheet, &state, "reply", Step::Reply(letter, booking));
            let other = Step::Reply(b"YNGK?"[dice.below(5)], dice.below(70) as u32);
            compared.step(sheet, &state, "any reply", other);
            some_blocks(compared, sheet, &state, dice);
        }
        compared.step(sheet, &[9; 65], "start", Step::Start);
        restarts(compared, sheet, &campaign.journal, dice);
        some_settlements(compared, sheet, &campaign.journal, dice);
        if compared.calls - before > most {
            return;
        }
    }
}

/// How many calls were compared; ends the program at the first difference.
pub fn compare(passing: &[Sheet], others: &[Sheet]) -> usize {
    let mut compared = Compared { calls: 0 };
    let mut dice = Dice(1);
    for sheet in passing {
        let large = sheet.bytes.len() > 1000;
        damaged_sheets(&mut compared, &sheet.bytes, &mut dice, if large { 100 } else { 3000 });
        campaigns(&mut compared, &sheet.bytes, &mut dice, if large { 1000 } else { 6000 });
    }
    for sheet in others {
        damaged_sheets(&mut compared, &sheet.bytes, &mut dice, 10);
    }
    compared.calls
}

/// The same for the journals that are measured; each of them must be right.
pub fn compare_restarts(sheets: &[Endless]) -> usize {
    let mut compared = Compared { calls: 0 };
    let mut dice = Dice(1);
    for endless in sheets {
        let sheet = &endless.sheet.bytes;
        for journal in restart::journals(endless, &restart::LINES) {
            let right = calls::pack(6, 0, 0);
            compared.same(library::restart(sheet, &journal, &mut [9; 65]), right, "right journal", sheet);
            restarts(&mut compared, sheet, &journal, &mut dice);
        }
    }
    compared.calls
}

/// The same for the journals that are settled; each of them must be, and none with a line more.
pub fn compare_settlements(sheets: &[Endless]) -> usize {
    let mut compared = Compared { calls: 0 };
    let mut dice = Dice(1);
    for endless in sheets {
        let sheet = &endless.sheet.bytes;
        let fees = fees_for(sheet);
        let settled = calls::pack(6, 0, length_for(sheet) as u32);
        for journal in settlements::journals(endless) {
            let answer = library::settle(sheet, &fees, &journal, &mut [9; LONGEST_REPORT]);
            compared.same(answer, settled, "settle, right journal", sheet);
            some_settlements(&mut compared, sheet, &journal, &mut dice);
        }
        let longer = &restart::journals(endless, &[10_001])[0];
        for (bytes, due) in [(60_005, settled), (60_006, calls::pack(0, 14, 0))] {
            let answer = library::settle(sheet, &fees, &longer[..bytes], &mut [9; LONGEST_REPORT]);
            compared.same(answer, due, "settle, around 10,000 lines", sheet);
            compared.settle(sheet, &fees, &longer[..bytes], LONGEST_REPORT);
        }
    }
    compared.calls
}

/// The same for the listings that are measured.
pub fn compare_listings(all: &[Listed]) -> usize {
    let mut compared = Compared { calls: 0 };
    let mut dice = Dice(1);
    for Listed { sheet, states } in all {
        for state in states {
            (0..20).for_each(|_| some_listings(&mut compared, &sheet.bytes, state, &mut dice));
            (0..200).for_each(|_| compared.list(&sheet.bytes, &damaged(state, &mut dice), LONGEST_LISTING));
        }
    }
    compared.calls
}

/// How often each refusal was met, and at 0 how often two sheets were joined.
type Met = [usize; 18];

/// Two sheets joined, with room of any length; either of them damaged, or both.
fn some_joins(compared: &mut Compared, met: &mut Met, first: &[u8], second: &[u8], dice: &mut Dice) {
    let answer = compared.join(first, second, LONGEST_SHEET);
    let length = if answer >> 24 == 6 { answer as u16 as usize } else { 0 };
    let (other, another) = (damaged_sheet(first, dice), damaged_sheet(second, dice));
    let mut meet = |answer: u32| met[(answer >> 16 & 255) as usize] += 1;
    meet(answer);
    for room in [0, dice.below(length + 1), length.saturating_sub(1), length, length + 1] {
        meet(compared.join(first, second, room));
        meet(compared.join(&other, second, room));
        meet(compared.join(first, &another, room));
        meet(compared.join(&other, &another, room));
    }
}

/// The same for the pairs that are joined: those that are measured, those around the limits, whose answers are known
/// too, and random ones.
pub fn compare_joins(pairs: &[Pair], examples: &str) -> usize {
    let mut compared = Compared { calls: 0 };
    let mut met = [0; 18];
    let mut dice = Dice(1);
    for Pair { name, first, second, room, due } in pairs {
        compared.same(library::join(first, second, &mut vec![9; *room]), *due, name, first);
        (0..20).for_each(|_| some_joins(&mut compared, &mut met, first, second, &mut dice));
    }
    for (first, second, over) in around_limits() {
        let answer = compared.join(&first, &second, LONGEST_SHEET);
        let due = if over { calls::pack(0, 17, 0) } else { calls::pack(6, 0, answer & 0xFFFF) };
        compared.same(answer, due, "join, around the limits", &[&first[..], &second[..]].concat());
        some_joins(&mut compared, &mut met, &first, &second, &mut dice);
    }
    let [first, second, due] = worked(examples);
    let mut joined = vec![9; due.len()];
    library::join(&first, &second, &mut joined);
    if joined != due {
        eprintln!("bench: join: not the sheet worked out by hand\n{}", String::from_utf8_lossy(&joined));
        std::process::exit(1);
    }
    for _ in 0..2000 {
        let (first, second) = any_pair(&mut dice);
        some_joins(&mut compared, &mut met, &first, &second, &mut dice);
    }
    let due = [0, 1, 2, 3, 4, 5, 6, 7, 10, 17];
    assert!(due.iter().all(|&number: &usize| met[number] >= 20), "too few joins of a kind: {met:?}");
    compared.calls
}

/// The same for the blocks that are measured: each is taken whole, and leaves what its replies
/// leave one by one.
pub fn compare_blocks(wide: &[Wide]) -> usize {
    let mut compared = Compared { calls: 0 };
    let mut dice = Dice(1);
    for wide in wide {
        let sheet = &wide.sheet.bytes;
        let (mut whole, mut singly) = (wide.state, wide.state);
        let taken = calls::pack(6, 0, wide.replies.len() as u32);
        compared.same(library::reply_block(sheet, &wide.block, &mut whole), taken, "whole block", sheet);
        blocks::singly(library::reply, sheet, &mut singly, &wide.replies);
        if whole != singly {
            eprintln!("bench: block and single replies: states differ\n{whole:?}\n{singly:?}");
            std::process::exit(1);
        }
        (0..20).for_each(|_| some_blocks(&mut compared, sheet, &wide.state, &mut dice));
    }
    compared.calls
}
