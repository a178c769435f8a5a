//! The table of joining: beside the checks of both sheets, and without room for the joined one.

use crate::measure::{measure, stack, Pass, Times};
use crate::pairs::Pair;
use crate::{calls, library};
use std::hint::black_box;

type Join = fn(&[u8], &[u8], &mut [u8]) -> u32;
type Check = fn(&[u8]) -> u32;

const JOIN: usize = 0;
const CHECKS: usize = 2;
const NO_ROOM: usize = 4;
// Beside each of the library's passes stands that of the Rust version.
const RUST: usize = 1;

fn join(call: Join, pair: &Pair, room: usize) -> impl FnMut() + Send + '_ {
    let mut joined = vec![0; room];
    move || _ = black_box(call(black_box(&pair.first), black_box(&pair.second), &mut joined))
}

fn checks(call: Check, pair: &Pair) -> impl FnMut() + '_ {
    move || {
        black_box(call(black_box(&pair.first)));
        black_box(call(black_box(&pair.second)));
    }
}

fn time(pair: &Pair) -> Times<6> {
    measure([
        Pass { calls: 1, run: &mut join(library::join, pair, pair.room) },
        Pass { calls: 1, run: &mut join(calls::join, pair, pair.room) },
        Pass { calls: 1, run: &mut checks(library::check, pair) },
        Pass { calls: 1, run: &mut checks(calls::check, pair) },
        Pass { calls: 1, run: &mut join(library::join, pair, 0) },
        Pass { calls: 1, run: &mut join(calls::join, pair, 0) },
    ])
}

fn print_row(pair: &Pair, times: &Times<6>) {
    print!("| {} |", pair.name);
    for pass in [JOIN, CHECKS] {
        print!(" {:.0} | {:.0} |", times.best(pass), times.best(pass + RUST));
    }
    print!(" {:.2} | {:.2} |", times.ratio(JOIN, JOIN + RUST), times.ratio(JOIN, CHECKS));
    print!(" {:.2} |", times.ratio(JOIN + RUST, CHECKS + RUST));
    if pair.due >> 24 == 6 {
        let writing = |pass| times.best(pass) - times.best(pass + NO_ROOM);
        let (here, there) = (writing(JOIN), writing(JOIN + RUST));
        let share = |writing, pass| 100.0 * writing / times.best(pass);
        print!(" {here:.0} | {there:.0} |");
        print!(" {:.0} % | {:.0} % |", share(here, JOIN), share(there, JOIN + RUST));
    } else {
        print!(" | | | |");
    }
    let used = |call| stack(&mut join(call, pair, pair.room));
    println!(" {} | {} |", used(library::join), used(calls::join));
}

pub fn print_joins(pairs: &[Pair]) {
    println!("## Two plans joined\n");
    println!("In nanoseconds; numbers after a pair: bookings, links and ways of the joined sheet. Both checks: a check of the first sheet and one");
    println!("of the second. Writing: what the join takes longer than without room, where all is judged and nothing written. Stack in bytes.\n");
    print!("| first, second | join: library | Rust | both checks: library | Rust | join: library / Rust |");
    print!(" join / both checks: library | Rust | writing: library | Rust | its share: library | Rust |");
    println!(" stack: library | Rust |");
    println!("|---|--:|--:|--:|--:|--:|--:|--:|--:|--:|--:|--:|--:|--:|");
    for pair in pairs {
        print_row(pair, &time(pair));
    }
    println!();
}
