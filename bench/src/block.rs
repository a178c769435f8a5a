//! A block's lines, taken in one after the other, up to the first bad one.

use crate::check::Network;
use crate::journal::LINE_LENGTH;
use crate::plan::number;
use crate::refusal::Refusal;
use crate::run::Run;

const FORM: u32 = 1;
const MISFIT: u32 = 9;

/// Takes in a line; the number of its refusal if it is bad.
#[inline]
fn take_line(run: &mut Run, network: &Network, line: &[u8]) -> Result<(), u32> {
    if line.len() != LINE_LENGTH || line[5] != b'\n' {
        return Err(FORM);
    }
    let booking = number(&line[1..5]).ok_or(FORM)?;
    run.reply(network, line[0], booking).map(|_| ()).ok_or(MISFIT)
}

/// How many replies were taken, which is all of them, or the refusal of the first bad line.
pub fn take(run: &mut Run, network: &Network, block: &[u8]) -> Result<u32, Refusal> {
    let mut taken = 0;
    for line in block.chunks(LINE_LENGTH) {
        take_line(run, network, line).map_err(|number| Refusal { number, place: taken + 1 })?;
        taken += 1;
    }
    Ok(taken)
}
