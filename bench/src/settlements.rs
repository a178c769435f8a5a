//! The table of settlement: journals of more and more lines.

use crate::measure::{measure, Pass, Times};
use crate::restart;
use crate::settle::{BOOKING_LINE, TOTAL_LINE, WAY_LINE};
use crate::sheets::Endless;
use crate::{calls, library};
use std::hint::black_box;

/// None longer is settled.
pub const LINES: [usize; 4] = [0, 10, 1_000, 10_000];

/// Room for the report on as many bookings and ways as there can be.
pub const LONGEST_REPORT: usize = BOOKING_LINE * 64 + WAY_LINE * 16 + TOTAL_LINE;

/// The number in these four columns of the head of a sheet that passes.
fn count_at(sheet: &[u8], column: usize) -> usize {
    let columns = String::from_utf8_lossy(&sheet[column..column + 4]);
    columns.trim().parse().expect("a sheet that passes")
}

/// A fee sheet for a plan sheet: fees of all lengths; each third greatest is left blank.
pub fn fees_for(sheet: &[u8]) -> Vec<u8> {
    let quote = |least: usize, at: usize| match at % 3 {
        0 => format!("{least:6}      "),
        1 => format!("{least:6}{least:6}"),
        _ => format!("{least:6}{:6}", (least + least / 2).min(999_999)),
    };
    let line = |b: usize| {
        let (confirmation, returning) = (b * 7_919 % 1_000_000, 10usize.pow(b as u32 % 6) + b);
        format!("F{b:4}{}{}\n", quote(confirmation, b), quote(returning, b / 3)).into_bytes()
    };
    (1..=count_at(sheet, 1)).flat_map(line).collect()
}

/// The length of the report on a plan sheet.
pub fn length_for(sheet: &[u8]) -> usize {
    count_at(sheet, 1) * BOOKING_LINE + count_at(sheet, 9) * WAY_LINE + TOTAL_LINE
}

pub fn journals(endless: &Endless) -> Vec<Vec<u8>> {
    restart::journals(endless, &LINES)
}

type Settle = fn(&[u8], &[u8], &[u8], &mut [u8]) -> u32;

fn time_settle(sheet: &[u8], fees: &[u8], journal: &[u8]) -> Times<2> {
    let pass = |call: Settle| {
        let mut report = [0; LONGEST_REPORT];
        move || _ = black_box(call(black_box(sheet), black_box(fees), black_box(journal), &mut report))
    };
    let (mut here, mut there) = (pass(library::settle), pass(calls::settle));
    measure([Pass { calls: 1, run: &mut here }, Pass { calls: 1, run: &mut there }])
}

pub fn print_settlements(sheets: &[Endless]) {
    println!("## Settlement\n");
    println!("In nanoseconds, with the journals of restart, and a fee sheet with quotes of one to six digits, each third greatest");
    println!(
        "blank. A further line: what the call took longer than the one in the row above, shared among the lines that came to it.\n"
    );
    restart::print_head();
    for endless in sheets {
        let fees = fees_for(&endless.sheet.bytes);
        let mut above = None;
        for (lines, journal) in LINES.into_iter().zip(journals(endless)) {
            let times = time_settle(&endless.sheet.bytes, &fees, &journal);
            restart::print_row(&endless.sheet.name, lines, &times, above.take());
            above = Some((lines, times));
        }
    }
    println!();
}
