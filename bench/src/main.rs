//! Measures the library's calls against a Rust version of them on bit sets, and
//! prints the figures as Markdown.
//! usage: bench EXAMPLES [join]   (the folder of the example sheets; join: only that call)

mod block;
mod blocks;
mod calls;
mod campaign;
mod check;
mod equal;
mod join;
mod joins;
mod journal;
mod library;
mod listings;
mod measure;
mod pairs;
mod partners;
mod passed;
mod plan;
mod refusal;
mod restart;
mod run;
mod settle;
mod settlements;
mod sheets;

use blocks::Wide;
use campaign::{record, Campaign, State};
use listings::{Listed, LONGEST_LISTING};
use measure::{measure, stack, Pass, Times};
use settlements::{fees_for, LONGEST_REPORT};
use sheets::Sheet;
use std::hint::black_box;

const REFUSING: usize = 3;
const MEASURED: usize = 16;

/// Calls spread evenly over a recorded campaign that goes on for long, the longest of a few.
fn long_campaign(sheet: &[u8]) -> Campaign {
    let recorded = (0..12).map(|seed| record(sheet, seed, REFUSING));
    let longest = recorded.max_by_key(|campaign| campaign.orders.len()).unwrap();
    let Campaign { orders, replies, journal } = longest;
    Campaign { orders: spread(&orders), replies: spread(&replies), journal }
}

fn spread<T: Copy>(all: &[T]) -> Vec<T> {
    let few = all.len().min(MEASURED);
    (0..few).map(|i| all[i * all.len() / few]).collect()
}

/// Library, Rust version, and the Rust version's reader alone.
type Three = Times<3>;
const LIBRARY: usize = 0;
const RUST: usize = 1;
const READER: usize = 2;

fn three(sheet: &[u8], calls: usize, library: &mut dyn FnMut(), rust: &mut dyn FnMut()) -> Three {
    let mut reader = || _ = black_box(calls::read_only(black_box(sheet)));
    measure([Pass { calls, run: library }, Pass { calls, run: rust }, Pass { calls: 1, run: &mut reader }])
}

fn time_check(sheet: &[u8]) -> Three {
    let pass = |call: fn(&[u8]) -> u32| move || _ = black_box(call(black_box(sheet)));
    three(sheet, 1, &mut pass(library::check), &mut pass(calls::check))
}

fn time_start(sheet: &[u8]) -> Three {
    let pass = |call: fn(&[u8], &mut [u8]) -> u32| {
        let mut state: State = [0; 65];
        move || _ = black_box(call(black_box(sheet), &mut state))
    };
    three(sheet, 1, &mut pass(library::start), &mut pass(calls::start))
}

/// Each call gets a fresh copy of its state; copying 65 bytes is in both times.
fn time_orders(sheet: &[u8], states: &[State]) -> Three {
    let pass = |call: fn(&[u8], &mut [u8]) -> u32| {
        move || {
            for state in states {
                let mut state = *black_box(state);
                black_box(call(black_box(sheet), &mut state));
            }
        }
    };
    three(sheet, states.len(), &mut pass(library::next_order), &mut pass(calls::next_order))
}

fn time_replies(sheet: &[u8], replies: &[(State, u8, u32)]) -> Three {
    let pass = |call: fn(&[u8], &mut [u8], u8, u32) -> u32| {
        move || {
            for (state, letter, booking) in replies {
                let mut state = *black_box(state);
                black_box(call(black_box(sheet), &mut state, *letter, *booking));
            }
        }
    };
    three(sheet, replies.len(), &mut pass(library::reply), &mut pass(calls::reply))
}

/// From the states of the orders.
fn time_listings(sheet: &[u8], states: &[State]) -> Three {
    let pass = |call: fn(&[u8], &[u8], &mut [u8]) -> u32| {
        let mut listing = [0; LONGEST_LISTING];
        move || {
            for state in states {
                black_box(call(black_box(sheet), black_box(state), &mut listing));
            }
        }
    };
    three(sheet, states.len(), &mut pass(library::passed_ways), &mut pass(calls::passed_ways))
}

fn print_call(sheet: &Sheet, call: &str, times: Three) {
    println!(
        "| {} | {call} | {:.0} | {:.0} | {:.2} | {:.0} | {:.2} |",
        sheet.name,
        times.best(LIBRARY),
        times.best(RUST),
        times.ratio(LIBRARY, RUST),
        times.best(READER),
        times.ratio(LIBRARY, READER)
    );
}

fn print_calls(sheets: &[Sheet]) {
    println!("## Time of a call\n");
    println!("In nanoseconds; numbers after a sheet: bookings, links, ways. The reader is the Rust version's alone. Next order, reply and");
    println!("passed ways are means over up to {MEASURED} calls spread over a campaign, each order and reply on a copy of its state.\n");
    println!("| sheet | call | library | Rust | library / Rust | reader | library / reader |");
    println!("|---|---|--:|--:|--:|--:|--:|");
    for sheet in sheets {
        let bytes = &sheet.bytes;
        let campaign = long_campaign(bytes);
        print_call(sheet, "check", time_check(bytes));
        print_call(sheet, "start", time_start(bytes));
        print_call(sheet, "next order", time_orders(bytes, &campaign.orders));
        print_call(sheet, "reply", time_replies(bytes, &campaign.replies));
        print_call(sheet, "passed ways", time_listings(bytes, &campaign.orders));
    }
    let longest = sheets::longest_text();
    print_call(&longest, "check", time_check(&longest.bytes));
    println!();
}

fn print_growth(title: &str, series: &[Sheet]) {
    println!("### {title}\n");
    println!("| bookings, links, ways | bytes | check: library | Rust | ratio | next order: library | Rust | ratio |");
    println!("|---|--:|--:|--:|--:|--:|--:|--:|");
    for Sheet { name, bytes } in series {
        print!("| {name} | {} |", bytes.len());
        for times in [time_check(bytes), time_orders(bytes, &long_campaign(bytes).orders)] {
            let (here, there) = (times.best(LIBRARY), times.best(RUST));
            print!(" {here:.0} | {there:.0} | {:.2} |", times.ratio(LIBRARY, RUST));
        }
        println!();
    }
    println!();
}

type Call<'a> = Box<dyn FnMut() + Send + 'a>;

fn settling<'a>(
    call: fn(&[u8], &[u8], &[u8], &mut [u8]) -> u32,
    sheet: &'a [u8],
    fees: &'a [u8],
    journal: &'a [u8],
) -> Call<'a> {
    let mut report = [0; LONGEST_REPORT];
    Box::new(move || _ = black_box(call(sheet, fees, journal, &mut report)))
}

fn listing(call: fn(&[u8], &[u8], &mut [u8]) -> u32, sheet: &[u8], state: State) -> Call<'_> {
    let mut listing = [0; LONGEST_LISTING];
    Box::new(move || _ = black_box(call(sheet, &state, &mut listing)))
}

/// Each call of both versions on this sheet, as closures: (name, library, Rust).
fn calls_on<'a>(
    sheet: &'a [u8],
    state: State,
    reply: (State, u8, u32),
    (block, journal, fees): (&'a [u8], &'a [u8], &'a [u8]),
) -> Vec<(&'static str, Call<'a>, Call<'a>)> {
    let on = |call: fn(&[u8], &mut [u8]) -> u32| -> Call<'a> {
        Box::new(move || {
            let mut state = state;
            black_box(call(sheet, &mut state));
        })
    };
    let reply_to = |call: fn(&[u8], &mut [u8], u8, u32) -> u32| -> Call<'a> {
        Box::new(move || {
            let (mut state, letter, booking) = reply;
            black_box(call(sheet, &mut state, letter, booking));
        })
    };
    let with_lines = |call: fn(&[u8], &[u8], &mut [u8]) -> u32, state: State, lines: &'a [u8]| -> Call<'a> {
        Box::new(move || {
            let mut state = state;
            black_box(call(sheet, lines, &mut state));
        })
    };
    let block_to = |call| with_lines(call, reply.0, block);
    let restart_with = |call| with_lines(call, state, journal);
    let settle = |call| settling(call, sheet, fees, journal);
    let list = |call| listing(call, sheet, state);
    let check = |call: fn(&[u8]) -> u32| -> Call<'a> { Box::new(move || _ = black_box(call(sheet))) };
    vec![
        ("check", check(library::check), check(calls::check)),
        ("start", on(library::start), on(calls::start)),
        ("next order", on(library::next_order), on(calls::next_order)),
        ("reply", reply_to(library::reply), reply_to(calls::reply)),
        ("reply block", block_to(library::reply_block), block_to(calls::reply_block)),
        ("restart", restart_with(library::restart), restart_with(calls::restart)),
        ("settle", settle(library::settle), settle(calls::settle)),
        ("passed ways", list(library::passed_ways), list(calls::passed_ways)),
    ]
}

fn print_stack(sheets: &[Sheet]) {
    println!("## Stack used\n");
    println!("In bytes, below the caller's frame: how deep a painted stack is written by one call.\n");
    println!("| sheet | call | library | Rust |");
    println!("|---|---|--:|--:|");
    for sheet in sheets {
        let campaign = long_campaign(&sheet.bytes);
        let state = campaign.orders[campaign.orders.len() / 2];
        let reply = campaign.replies[campaign.replies.len() / 2];
        let fees = fees_for(&sheet.bytes);
        let lines = (&campaign::line(reply.1, reply.2)[..], &campaign.journal[..], &fees[..]);
        for (name, mut here, mut there) in calls_on(&sheet.bytes, state, reply, lines) {
            println!("| {} | {name} | {} | {} |", sheet.name, stack(&mut *here), stack(&mut *there));
        }
    }
    println!();
}

fn grown(sizes: &[(usize, usize, usize)]) -> Vec<Sheet> {
    sizes.iter().map(|&(n, m, a)| sheets::grown(n, m, a)).collect()
}

fn print_top(compared: usize) {
    println!("# The library and a Rust version on bit sets\n");
    println!("Both were given the same calls first, {compared} of them, and answered alike.");
    println!("Each time is the best of many short rounds, each ratio the median of the rounds' ratios.\n");
}

fn only_joins(examples: &str) {
    let pairs = pairs::measured(examples);
    print_top(equal::compare_joins(&pairs, examples));
    joins::print_joins(&pairs);
}

fn measure_all(examples: &str) {
    let sheets = sheets::main_sheets(examples);
    let by_bookings = grown(&[(4, 0, 1), (8, 0, 1), (16, 0, 1), (32, 0, 1), (64, 0, 1)]);
    let by_links = grown(&[(64, 0, 1), (64, 63, 1), (64, 128, 1), (64, 256, 1), (64, 512, 1)]);
    let by_ways = grown(&[(64, 512, 1), (64, 512, 2), (64, 512, 4), (64, 512, 8), (64, 512, 16)]);
    let longest = [sheets::longest_text()];
    let mut compared = equal::compare(&sheets, &longest);
    compared += equal::compare(&sheets::compared_only(examples), &[]);
    for series in [&by_bookings, &by_links, &by_ways] {
        compared += equal::compare(&[], series);
    }
    let partners = sheets::for_partners(examples);
    compared += equal::compare(&partners[2..4], &partners);
    let endless = sheets::endless(examples);
    compared += equal::compare_restarts(&endless);
    compared += equal::compare_settlements(&endless);
    let wide: Vec<Wide> = sheets::for_blocks(examples).into_iter().map(blocks::widest).collect();
    compared += equal::compare_blocks(&wide);
    let listed: Vec<Listed> = sheets::for_listings(examples).into_iter().map(listings::longest).collect();
    compared += equal::compare_listings(&listed);
    let pairs = pairs::measured(examples);
    compared += equal::compare_joins(&pairs, examples);
    print_top(compared);
    print_calls(&sheets);
    partners::print_partners(&partners);
    blocks::print_blocks(&wide);
    restart::print_restart(&endless);
    settlements::print_settlements(&endless[1..]);
    listings::print_listings(&listed);
    joins::print_joins(&pairs);
    println!("## How the time grows\n");
    print_growth("With bookings", &by_bookings);
    print_growth("With links", &by_links);
    print_growth("With ways", &by_ways);
    print_stack(&sheets);
}

fn main() {
    let arguments: Vec<String> = std::env::args().skip(1).collect();
    let examples = match &arguments[..] {
        [examples] => examples,
        [examples, only] if only == "join" => return only_joins(examples),
        _ => {
            eprintln!("usage: bench EXAMPLES [join]");
            std::process::exit(2);
        }
    };
    measure_all(examples);
}
