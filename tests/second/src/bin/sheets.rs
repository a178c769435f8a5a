//! sheets FOLDER COUNT SEED: writes so many different sheets that pass, of three to eight bookings, as 001.txt and so on.

use second::dice::Dice;
use second::generate::{random_plan, Size, SMALL};
use second::{check, plan};
use std::collections::HashSet;
use std::process::ExitCode;

const SIZE: Size = Size { fewest: 3, ..SMALL };

/// Sheets that pass, each another one; of every five at most one has a single way.
fn sheets(count: usize, seed: u64) -> Vec<String> {
    let mut met = HashSet::new();
    let mut found = Vec::new();
    let mut single = 0;
    for round in 0.. {
        if found.len() == count {
            break;
        }
        let plan = random_plan(&mut Dice::for_round(seed, round), SIZE);
        let one_way = plan.ways.len() == 1;
        let text = plan::write(&plan);
        if check::check(plan).is_err() || (one_way && 5 * single > found.len()) || !met.insert(text.clone()) {
            continue;
        }
        single += usize::from(one_way);
        found.push(text);
    }
    found
}

fn main() -> ExitCode {
    let words: Vec<String> = std::env::args().skip(1).collect();
    let [folder, count, seed] = words.as_slice() else {
        eprintln!("usage: sheets FOLDER COUNT SEED");
        return ExitCode::from(2);
    };
    let (Ok(count), Ok(seed)) = (count.parse(), seed.parse()) else {
        eprintln!("sheets: COUNT and SEED are numbers");
        return ExitCode::from(2);
    };
    for (at, sheet) in sheets(count, seed).iter().enumerate() {
        let file = format!("{folder}/{:03}.txt", at + 1);
        if let Err(reason) = std::fs::write(&file, sheet) {
            eprintln!("sheets: {file}: {reason}");
            return ExitCode::FAILURE;
        }
    }
    ExitCode::SUCCESS
}
