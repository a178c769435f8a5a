//! The table of blocks: one block of replies, the same replies in single calls, and one of them.

use crate::campaign::{line, State};
use crate::measure::{measure, Pass, Times};
use crate::sheets::Sheet;
use crate::{calls, library};
use std::hint::black_box;

/// A sheet, the state with the most open orders that a campaign of confirmed bookings meets, and
/// the replies to all of them.
pub struct Wide {
    pub sheet: Sheet,
    pub state: State,
    pub replies: Vec<(u8, u32)>,
    pub block: Vec<u8>,
}

/// The replies to all open orders, confirmed or taken back.
fn replies(state: &State) -> Vec<(u8, u32)> {
    let letter = |code| if code == 1 { b'Y' } else { b'G' };
    let open = (1..state.len()).filter(|&b| state[b] == 1 || state[b] == 4);
    open.map(|b| (letter(state[b]), b as u32)).collect()
}

pub fn block_of(replies: &[(u8, u32)]) -> Vec<u8> {
    replies.iter().flat_map(|&(letter, booking)| line(letter, booking)).collect()
}

/// The state at each wait of a campaign in which the desks confirm and all answer at once.
fn waits(sheet: &[u8]) -> Vec<State> {
    let mut waits = Vec::new();
    let mut state = [0; 65];
    calls::start(sheet, &mut state);
    loop {
        match calls::next_order(sheet, &mut state) >> 24 {
            1 | 2 => {}
            3 => {
                waits.push(state);
                calls::reply_block(sheet, &block_of(&replies(&state)), &mut state);
            }
            4 | 5 => return waits,
            _ => panic!("the campaign was refused"),
        }
    }
}

pub fn widest(sheet: Sheet) -> Wide {
    let waits = waits(&sheet.bytes).into_iter();
    let state = waits.max_by_key(|state| replies(state).len()).expect("a sheet with a booking");
    let replies = replies(&state);
    Wide { block: block_of(&replies), sheet, state, replies }
}

type Block = fn(&[u8], &[u8], &mut [u8]) -> u32;
type Reply = fn(&[u8], &mut [u8], u8, u32) -> u32;

/// The replies one by one, each on the state that the last one left.
pub fn singly(call: Reply, sheet: &[u8], state: &mut State, replies: &[(u8, u32)]) {
    for &(letter, booking) in replies {
        black_box(call(black_box(sheet), state, letter, booking));
    }
}

const BLOCK: usize = 0;
const SINGLY: usize = 2;
const ONE: usize = 4;
// Beside each of the library's passes stands that of the Rust version.
const RUST: usize = 1;

/// Each pass begins with a copy of the state.
fn time(wide: &Wide) -> Times<6> {
    let (sheet, replies) = (&wide.sheet.bytes[..], &wide.replies[..]);
    let block = |call: Block| {
        move || {
            let mut state = *black_box(&wide.state);
            black_box(call(black_box(sheet), black_box(&wide.block), &mut state));
        }
    };
    let singles = |call: Reply, replies| {
        move || {
            let mut state = *black_box(&wide.state);
            singly(call, sheet, &mut state, replies);
            black_box(&state);
        }
    };
    measure([
        Pass { calls: 1, run: &mut block(library::reply_block) },
        Pass { calls: 1, run: &mut block(calls::reply_block) },
        Pass { calls: 1, run: &mut singles(library::reply, replies) },
        Pass { calls: 1, run: &mut singles(calls::reply, replies) },
        Pass { calls: 1, run: &mut singles(library::reply, &replies[..1]) },
        Pass { calls: 1, run: &mut singles(calls::reply, &replies[..1]) },
    ])
}

fn print_row(wide: &Wide, times: &Times<6>) {
    print!("| {} | {} |", wide.sheet.name, wide.replies.len());
    for pass in [BLOCK, SINGLY, ONE] {
        print!(" {:.0} | {:.0} |", times.best(pass), times.best(pass + RUST));
    }
    print!(" {:.2} | {:.2} |", times.ratio(BLOCK, BLOCK + RUST), times.ratio(BLOCK, ONE));
    println!(" {:.2} | {:.1} |", times.ratio(BLOCK + RUST, ONE + RUST), times.ratio(SINGLY, BLOCK));
}

pub fn print_blocks(wide: &[Wide]) {
    println!("## Replies in a block\n");
    println!("In nanoseconds, from a state with as many open orders as a campaign on the sheet meets, all answered: by one block,");
    println!("by single calls of reply together, and the first of these calls alone.\n");
    print!("| sheet | replies | block: library | Rust | singly, all: library | Rust | one reply: library | Rust |");
    println!(" block: library / Rust | block / one reply: library | Rust | singly / block: library |");
    println!("|---|--:|--:|--:|--:|--:|--:|--:|--:|--:|--:|--:|");
    for wide in wide {
        print_row(wide, &time(wide));
    }
    println!();
}
