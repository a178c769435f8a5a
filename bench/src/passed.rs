//! The ways passed over: a line for each way before the current one.

use crate::check::Network;
use crate::refusal::Refusal;
use crate::run::Run;
use crate::settle::write_number;

pub const PASSED_LINE: usize = 11;

const EMPTY_LINE: &[u8; PASSED_LINE] = b"V         \n";

/// The length of the listing, which is written.
pub fn list(run: &Run, network: &Network, listing: &mut [u8]) -> Result<u32, Refusal> {
    let ways = run.earlier(network);
    let length = ways.len() * PASSED_LINE;
    let text = listing.get_mut(..length).ok_or(Refusal { number: 10, place: 0 })?;
    for (at, (line, &way)) in text.chunks_exact_mut(PASSED_LINE).zip(ways).enumerate() {
        let (letter, booking) = run.why_passed(network, way);
        line.copy_from_slice(EMPTY_LINE);
        write_number(line, 4, at as u64 + 1);
        line[5] = letter;
        write_number(line, 9, booking as u64 + 1);
    }
    Ok(length as u32)
}
