//! Compares the real static libraries, ours and the partner range's, with the second version.

use second::comparison::{Campaign, Comparison, Outcome};
use std::process::ExitCode;
use std::time::{Duration, Instant};

/// The real library's calls, as its header gives them.
mod library {
    #[link(name = "campaign", kind = "static")]
    extern "C" {
        pub fn campaign_check(sheet: *const u8, sheet_len: usize) -> u32;
        #[cfg(feature = "run")]
        pub fn campaign_start(sheet: *const u8, sheet_len: usize, state: *mut u8, state_len: usize) -> u32;
        #[cfg(feature = "run")]
        pub fn campaign_next_order(
            sheet: *const u8,
            sheet_len: usize,
            state: *mut u8,
            state_len: usize,
        ) -> u32;
        #[cfg(feature = "run")]
        pub fn campaign_reply(
            sheet: *const u8,
            sheet_len: usize,
            state: *mut u8,
            state_len: usize,
            letter: u8,
            booking: u32,
        ) -> u32;
        #[cfg(feature = "run")]
        pub fn campaign_reply_block(
            sheet: *const u8,
            sheet_len: usize,
            block: *const u8,
            block_len: usize,
            state: *mut u8,
            state_len: usize,
        ) -> u32;
        #[cfg(feature = "run")]
        pub fn campaign_journal_line(letter: u8, booking: u32, line: *mut u8, line_len: usize) -> u32;
        #[cfg(feature = "run")]
        pub fn campaign_restart(
            sheet: *const u8,
            sheet_len: usize,
            journal: *const u8,
            journal_len: usize,
            state: *mut u8,
            state_len: usize,
        ) -> u32;
        #[cfg(feature = "run")]
        pub fn campaign_settle(
            sheet: *const u8,
            sheet_len: usize,
            fees: *const u8,
            fees_len: usize,
            journal: *const u8,
            journal_len: usize,
            report: *mut u8,
            report_len: usize,
        ) -> u32;
        #[cfg(feature = "run")]
        pub fn campaign_passed_ways(
            sheet: *const u8,
            sheet_len: usize,
            state: *const u8,
            state_len: usize,
            listing: *mut u8,
            listing_len: usize,
        ) -> u32;
        #[cfg(feature = "run")]
        pub fn campaign_join(
            first: *const u8,
            first_len: usize,
            second: *const u8,
            second_len: usize,
            joined: *mut u8,
            joined_len: usize,
        ) -> u32;
    }
}

/// The partner range's library has one call.
mod partner_library {
    #[link(name = "partner", kind = "static")]
    extern "C" {
        pub fn partner_check(sheet: *const u8, sheet_len: usize) -> u32;
    }
}

struct Real;

/// Bytes as a call is lent them.
fn lent(bytes: Option<&[u8]>) -> (*const u8, usize) {
    bytes.map_or((std::ptr::null(), 0), |bytes| (bytes.as_ptr(), bytes.len()))
}

/// Bytes as a call is lent them that it may write.
#[cfg(feature = "run")]
fn lent_to_write(bytes: Option<&mut [u8]>) -> (*mut u8, usize) {
    bytes.map_or((std::ptr::null_mut(), 0), |bytes| (bytes.as_mut_ptr(), bytes.len()))
}

// Safety of each call: the pointers and lengths are those of live slices, or null and 0.
#[cfg(feature = "run")]
impl Campaign for Real {
    fn check(&self, sheet: &[u8]) -> u32 {
        unsafe { library::campaign_check(sheet.as_ptr(), sheet.len()) }
    }

    fn partner_check(&self, sheet: Option<&[u8]>) -> u32 {
        let (sheet, length) = lent(sheet);
        unsafe { partner_library::partner_check(sheet, length) }
    }

    fn start(&self, sheet: &[u8], state: &mut [u8]) -> u32 {
        unsafe { library::campaign_start(sheet.as_ptr(), sheet.len(), state.as_mut_ptr(), state.len()) }
    }

    fn next_order(&self, sheet: &[u8], state: &mut [u8]) -> u32 {
        unsafe { library::campaign_next_order(sheet.as_ptr(), sheet.len(), state.as_mut_ptr(), state.len()) }
    }

    fn reply(&self, sheet: &[u8], state: &mut [u8], letter: u8, booking: u32) -> u32 {
        let (start, length) = (state.as_mut_ptr(), state.len());
        unsafe { library::campaign_reply(sheet.as_ptr(), sheet.len(), start, length, letter, booking) }
    }

    fn reply_block(&self, sheet: &[u8], block: Option<&[u8]>, state: &mut [u8]) -> u32 {
        let (start, length) = (state.as_mut_ptr(), state.len());
        let (lines, lines_length) = lent(block);
        unsafe {
            library::campaign_reply_block(sheet.as_ptr(), sheet.len(), lines, lines_length, start, length)
        }
    }

    fn restart(&self, sheet: &[u8], journal: &[u8], state: &mut [u8]) -> u32 {
        let (start, length) = (state.as_mut_ptr(), state.len());
        let (lines, lines_length) = (journal.as_ptr(), journal.len());
        unsafe { library::campaign_restart(sheet.as_ptr(), sheet.len(), lines, lines_length, start, length) }
    }

    fn journal_line(&self, letter: u8, booking: u32, line: &mut [u8]) -> u32 {
        unsafe { library::campaign_journal_line(letter, booking, line.as_mut_ptr(), line.len()) }
    }

    fn settle(
        &self,
        sheet: &[u8],
        fees: Option<&[u8]>,
        journal: Option<&[u8]>,
        report: Option<&mut [u8]>,
    ) -> u32 {
        let ((fees, fees_length), (lines, lines_length)) = (lent(fees), lent(journal));
        let (start, length) = lent_to_write(report);
        let (sheet, sheet_length) = (sheet.as_ptr(), sheet.len());
        unsafe {
            library::campaign_settle(
                sheet,
                sheet_length,
                fees,
                fees_length,
                lines,
                lines_length,
                start,
                length,
            )
        }
    }

    fn passed_ways(&self, sheet: &[u8], state: Option<&[u8]>, listing: Option<&mut [u8]>) -> u32 {
        let ((state, state_length), (start, length)) = (lent(state), lent_to_write(listing));
        let (sheet, sheet_length) = (sheet.as_ptr(), sheet.len());
        unsafe { library::campaign_passed_ways(sheet, sheet_length, state, state_length, start, length) }
    }

    fn join(&self, first: Option<&[u8]>, second: Option<&[u8]>, joined: Option<&mut [u8]>) -> u32 {
        let ((first, first_length), (second, second_length)) = (lent(first), lent(second));
        let (start, length) = lent_to_write(joined);
        unsafe { library::campaign_join(first, first_length, second, second_length, start, length) }
    }
}

// Libraries with check and the partner range's check alone: the other calls are never made.
#[cfg(not(feature = "run"))]
impl Campaign for Real {
    fn check(&self, sheet: &[u8]) -> u32 {
        unsafe { library::campaign_check(sheet.as_ptr(), sheet.len()) }
    }

    fn partner_check(&self, sheet: Option<&[u8]>) -> u32 {
        let (sheet, length) = lent(sheet);
        unsafe { partner_library::partner_check(sheet, length) }
    }

    fn start(&self, _: &[u8], _: &mut [u8]) -> u32 {
        unreachable!()
    }

    fn next_order(&self, _: &[u8], _: &mut [u8]) -> u32 {
        unreachable!()
    }

    fn reply(&self, _: &[u8], _: &mut [u8], _: u8, _: u32) -> u32 {
        unreachable!()
    }

    fn reply_block(&self, _: &[u8], _: Option<&[u8]>, _: &mut [u8]) -> u32 {
        unreachable!()
    }

    fn restart(&self, _: &[u8], _: &[u8], _: &mut [u8]) -> u32 {
        unreachable!()
    }

    fn journal_line(&self, _: u8, _: u32, _: &mut [u8]) -> u32 {
        unreachable!()
    }

    fn settle(&self, _: &[u8], _: Option<&[u8]>, _: Option<&[u8]>, _: Option<&mut [u8]>) -> u32 {
        unreachable!()
    }

    fn passed_ways(&self, _: &[u8], _: Option<&[u8]>, _: Option<&mut [u8]>) -> u32 {
        unreachable!()
    }

    fn join(&self, _: Option<&[u8]>, _: Option<&[u8]>, _: Option<&mut [u8]>) -> u32 {
        unreachable!()
    }
}

struct Options {
    seed: u64,
    first_round: u64,
    rounds: Option<u64>,
    seconds: Option<u64>,
    check_only: bool,
}

/// So many restarts are compared before the rounds, however long it takes.
const FEWEST_JOURNALS: u64 = 120_000;

/// So many blocks are compared line by line before the rounds.
const FEWEST_BLOCKS: u64 = 120_000;

/// So many pairs of replies, and so many blocks, are compared in two orders before the rounds.
const FEWEST_ORDERS: u64 = 100_000;

/// So many reports of settlements are compared before the rounds.
const FEWEST_SETTLED: u64 = 80_000;

/// So many listings of the ways passed over are compared along campaigns before the rounds.
const FEWEST_LISTINGS: u64 = 40_000;

/// So many random pairs of sheets are joined before the rounds.
const FEWEST_JOINS: u64 = 16_000;

/// So many orders are passed over in campaigns with desks before the rounds.
const FEWEST_PASSED_OVER: u64 = 60_000;

const USAGE: &str = "usage: compare [--check-only] [--seconds N] [--rounds N] [--seed N] [--from-round N]";

fn options() -> Option<Options> {
    let check_only = !cfg!(feature = "run");
    let mut options = Options { seed: 1, first_round: 0, rounds: None, seconds: None, check_only };
    let mut words = std::env::args().skip(1);
    while let Some(word) = words.next() {
        if word == "--check-only" {
            options.check_only = true;
            continue;
        }
        let number: u64 = words.next()?.parse().ok()?;
        match word.as_str() {
            "--seconds" => options.seconds = Some(number),
            "--rounds" => options.rounds = Some(number),
            "--seed" => options.seed = number,
            "--from-round" => options.first_round = number,
            _ => return None,
        }
    }
    if options.rounds.is_none() && options.seconds.is_none() {
        options.seconds = Some(40);
    }
    Some(options)
}

/// What was answered before desks, the fixed part, the partner range, the desks, the journals, the
/// blocks, any order, the ways passed over, the settlements, the joined sheets, then rounds until their
/// number or the time is used up.
fn compare(comparison: &mut Comparison, options: &Options) -> Outcome<u64> {
    let began = Instant::now();
    comparison.old_cases()?;
    println!("stored cases: {:.1} s", began.elapsed().as_secs_f64());
    comparison.fixed_part(options.seed)?;
    println!("with the fixed part: {:.1} s", began.elapsed().as_secs_f64());
    comparison.partner(options.seed)?;
    comparison.enough_for_the_partner()?;
    println!("with the partner range: {:.1} s", began.elapsed().as_secs_f64());
    if !options.check_only {
        comparison.desks(options.seed, FEWEST_PASSED_OVER)?;
        comparison.enough_desks()?;
        println!("with the desks: {:.1} s", began.elapsed().as_secs_f64());
        comparison.journals(options.seed, FEWEST_JOURNALS)?;
        println!("with the journals: {:.1} s", began.elapsed().as_secs_f64());
        comparison.blocks(options.seed, FEWEST_BLOCKS)?;
        comparison.every_small_block()?;
        comparison.enough_blocks()?;
        println!("with the blocks: {:.1} s", began.elapsed().as_secs_f64());
        comparison.any_order(options.seed, FEWEST_ORDERS)?;
        comparison.every_small_pair()?;
        comparison.enough_orders()?;
        println!("with replies in any order: {:.1} s", began.elapsed().as_secs_f64());
        comparison.passed_ways(options.seed, FEWEST_LISTINGS)?;
        comparison.enough_listings()?;
        println!("with the ways passed over: {:.1} s", began.elapsed().as_secs_f64());
        comparison.settlements(options.seed, FEWEST_SETTLED)?;
        comparison.enough_settlements()?;
        println!("with the settlements: {:.1} s", began.elapsed().as_secs_f64());
        comparison.joins(options.seed, FEWEST_JOINS)?;
        comparison.enough_joins()?;
        println!("with the joined sheets: {:.1} s", began.elapsed().as_secs_f64());
    }
    let time = options.seconds.map(Duration::from_secs);
    let mut made = 0;
    while options.rounds.is_none_or(|most| made < most) && time.is_none_or(|most| began.elapsed() < most) {
        comparison.round(options.seed, options.first_round + made)?;
        made += 1;
    }
    Ok(made)
}

fn main() -> ExitCode {
    let Some(options) = options() else {
        eprintln!("{USAGE}");
        return ExitCode::from(2);
    };
    println!("seed {}, rounds from {}", options.seed, options.first_round);
    let mut comparison = Comparison::new(&Real, options.check_only);
    let outcome = compare(&mut comparison, &options);
    match &outcome {
        Ok(rounds) => print!("rounds: {rounds}\n{}", comparison.tally),
        Err(difference) => print!("{difference}"),
    }
    match outcome {
        Ok(_) => {
            println!("no difference");
            ExitCode::SUCCESS
        }
        Err(_) => ExitCode::FAILURE,
    }
}
