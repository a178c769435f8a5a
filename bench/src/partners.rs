//! The partner's check beside ours and the Rust version's.

use crate::measure::{measure, stack, Pass};
use crate::sheets::Sheet;
use crate::{calls, library};
use std::hint::black_box;

pub fn print_partners(sheets: &[Sheet]) {
    println!("## The partner's check\n");
    println!(
        "In nanoseconds; the last sheet is over the partner's limits: 16 at its head. Stack in bytes.\n"
    );
    println!("| sheet | partner's | ours | Rust, partner's | partner's / ours | partner's / Rust | stack: partner's | ours |");
    println!("|---|--:|--:|--:|--:|--:|--:|--:|");
    for Sheet { name, bytes } in sheets {
        let pass = |call: fn(&[u8]) -> u32| move || _ = black_box(call(black_box(bytes)));
        let (mut theirs, mut ours, mut rust) =
            (pass(library::partner), pass(library::check), pass(calls::partner));
        let times = measure([
            Pass { calls: 1, run: &mut theirs },
            Pass { calls: 1, run: &mut ours },
            Pass { calls: 1, run: &mut rust },
        ]);
        let [partner, our, other] = [0, 1, 2].map(|at| times.best(at));
        let (to_ours, to_rust) = (times.ratio(0, 1), times.ratio(0, 2));
        print!("| {name} | {partner:.0} | {our:.0} | {other:.0} | {to_ours:.2} | {to_rust:.2} |");
        println!(" {} | {} |", stack(&mut theirs), stack(&mut ours));
    }
    println!();
}
