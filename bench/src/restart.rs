//! The table of restart: journals of more and more lines.

use crate::campaign::{endless, State};
use crate::measure::{measure, Pass, Times};
use crate::sheets::Endless;
use crate::{calls, library};
use std::hint::black_box;

pub const LINES: [usize; 4] = [0, 10, 1_000, 100_000];

const LIBRARY: usize = 0;
const RUST: usize = 1;

/// The journals of these lengths, each of which begins like the longer ones.
pub fn journals(endless: &Endless, lengths: &[usize]) -> Vec<Vec<u8>> {
    lengths.iter().map(|&lines| self::endless(&endless.sheet.bytes, &endless.refused, lines)).collect()
}

fn time_restart(sheet: &[u8], journal: &[u8]) -> Times<2> {
    let pass = |call: fn(&[u8], &[u8], &mut [u8]) -> u32| {
        let mut state: State = [0; 65];
        move || _ = black_box(call(black_box(sheet), black_box(journal), &mut state))
    };
    let (mut here, mut there) = (pass(library::restart), pass(calls::restart));
    measure([Pass { calls: 1, run: &mut here }, Pass { calls: 1, run: &mut there }])
}

/// A row: the call, and what a line took; against the row above, what a further line took.
pub fn print_row(name: &str, lines: usize, times: &Times<2>, above: Option<(usize, Times<2>)>) {
    let (here, there) = (times.best(LIBRARY), times.best(RUST));
    print!("| {name} | {lines} | {here:.0} | {there:.0} | {:.2} |", times.ratio(LIBRARY, RUST));
    let Some((fewer, before)) = above else {
        return println!(" | | | | |");
    };
    let further = |pass| (times.best(pass) - before.best(pass)) / (lines - fewer) as f64;
    print!(" {:.1} | {:.1} |", here / lines as f64, there / lines as f64);
    println!(" {:.1} | {:.1} | {:.2} |", further(LIBRARY), further(RUST), further(LIBRARY) / further(RUST));
}

pub fn print_head() {
    print!("| sheet | lines | call: library | Rust | library / Rust | a line: library | Rust |");
    println!(" a further line: library | Rust | library / Rust |");
    println!("|---|--:|--:|--:|--:|--:|--:|--:|--:|--:|");
}

pub fn print_restart(sheets: &[Endless]) {
    println!("## Restart\n");
    println!("In nanoseconds. A line: the time of the call, shared among its lines. A further line: what the call took");
    println!(
        "longer than the one in the row above, shared among the lines that came to it; the sheet is not in it.\n"
    );
    print_head();
    for endless in sheets {
        let mut above = None;
        for (lines, journal) in LINES.into_iter().zip(journals(endless, &LINES)) {
            let times = time_restart(&endless.sheet.bytes, &journal);
            print_row(&endless.sheet.name, lines, &times, above.take());
            above = Some((lines, times));
        }
    }
    println!();
}
