//! A settlement as a program prints it: the report, or the refusal as the drill
//! prints one.

use crate::calls::{self, kind_of, place_of};
use crate::drill::refused_line;
use crate::plan::{MOST_BOOKINGS, MOST_WAYS};

/// A line for each booking and each way there can be, and the total.
const LONGEST_REPORT: usize = 42 * MOST_BOOKINGS + 30 * MOST_WAYS + 26;

pub fn bill(sheet: &[u8], fees: &[u8], journal: &[u8]) -> String {
    let mut report = [0; LONGEST_REPORT];
    let answer = calls::settle(sheet, fees, journal, &mut report);
    if kind_of(answer) == calls::REFUSED {
        return refused_line(answer);
    }
    String::from_utf8_lossy(&report[..place_of(answer) as usize]).into_owned()
}
