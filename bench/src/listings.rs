//! The table of the ways passed over: from the start, and from the state with the most of them.

use crate::campaign::{record, State};
use crate::measure::{measure, Pass, Times};
use crate::passed::PASSED_LINE;
use crate::sheets::Sheet;
use crate::{calls, library};
use std::hint::black_box;

/// Room for a line of each way there can be.
pub const LONGEST_LISTING: usize = 16 * PASSED_LINE;

const LIBRARY: usize = 0;
const RUST: usize = 1;

/// A sheet, and the states from which the ways are listed.
pub struct Listed {
    pub sheet: Sheet,
    pub states: Vec<State>,
}

/// How many lines the listing has, and how many of them are `H`.
pub fn lines(sheet: &[u8], state: &State) -> (usize, usize) {
    let mut listing = [0; LONGEST_LISTING];
    let length = calls::passed_ways(sheet, state, &mut listing) as u16 as usize;
    let lines = listing[..length].chunks(PASSED_LINE);
    (lines.len(), lines.filter(|line| line[5] == b'H').count())
}

/// The state after the desk of this booking has refused, as the last one of all; the others confirm.
fn refused_last(sheet: &[u8], booking: usize) -> State {
    let mut state: State = [0; 65];
    calls::start(sheet, &mut state);
    while state[booking] != 3 {
        while calls::next_order(sheet, &mut state) >> 24 == 1 {}
        let open = (1..state.len()).filter(|&b| state[b] == 1);
        let next = open.min_by_key(|&b| (b == booking, b)).expect("an open order");
        calls::reply(sheet, &mut state, if next == booking { b'N' } else { b'Y' }, next as u32);
    }
    state
}

/// The start, and of many campaigns, from few refusals to most, the state with the longest listing; or
/// the one after a booking was refused last.
pub fn longest((sheet, refused): (Sheet, Option<usize>)) -> Listed {
    if let Some(booking) = refused {
        let mut start = [0; 65];
        calls::start(&sheet.bytes, &mut start);
        return Listed { states: vec![start, refused_last(&sheet.bytes, booking)], sheet };
    }
    let campaigns = (0..60).map(|seed| record(&sheet.bytes, seed, [3, 15, 40, 80][seed as usize % 4]));
    let states: Vec<State> = campaigns.flat_map(|campaign| campaign.orders).collect();
    let most = *states.iter().max_by_key(|state| lines(&sheet.bytes, state)).expect("a campaign has a start");
    Listed { states: vec![states[0], most], sheet }
}

type List = fn(&[u8], &[u8], &mut [u8]) -> u32;

fn time_listing(sheet: &[u8], state: &State) -> Times<2> {
    let pass = |call: List| {
        let mut listing = [0; LONGEST_LISTING];
        move || _ = black_box(call(black_box(sheet), black_box(state), &mut listing))
    };
    let (mut here, mut there) = (pass(library::passed_ways), pass(calls::passed_ways));
    measure([Pass { calls: 1, run: &mut here }, Pass { calls: 1, run: &mut there }])
}

pub fn print_listings(all: &[Listed]) {
    println!("## Ways passed over\n");
    println!("In nanoseconds, from the start, where nothing is listed, and from the state with the most lines that many campaigns meet;");
    println!("on the last sheet from the state after the only refusal, which comes last.\n");
    println!("| sheet | lines | of these `H` | library | Rust | library / Rust |");
    println!("|---|--:|--:|--:|--:|--:|");
    for Listed { sheet, states } in all {
        for state in states {
            let (all, lacking) = lines(&sheet.bytes, state);
            let times = time_listing(&sheet.bytes, state);
            let (here, there) = (times.best(LIBRARY), times.best(RUST));
            let ratio = times.ratio(LIBRARY, RUST);
            println!("| {} | {all} | {lacking} | {here:.0} | {there:.0} | {ratio:.2} |", sheet.name);
        }
    }
    println!();
}
