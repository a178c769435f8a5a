//! Settlements with their results, all written by hand.

use crate::flights::{chase, lines, plan_of, returnables, tanker};
use crate::plan::Plan;
use crate::written_desks::{passed_over_request, vans};

/// A fee sheet and a journal on a sheet that passes, and what follows with room
/// enough: the report, or the refusal and its place.
pub struct Written {
    pub plan: Plan,
    pub fees: Vec<u8>,
    pub journal: Vec<u8>,
    pub result: Result<String, (u32, u32)>,
}

/// What something comes to at the least and at the greatest fees.
pub type Ends = (usize, usize);

const TANKER_FEES: &str = "\
F   1   120   150    15    20\n\
F   2  4500  6000     0     0\n\
F   3   900          75      \n\
F   4   310   310     1     9\n\
";

const TANKER_WAYS: [Ends; 2] = [(5520, 7050), (4930, 6460)];

/// The range slot was taken back after a return that failed.
const TANKER_CALLED_OFF: &str = "\
S   1     1     1         135         170
S   2     0     0           0           0
S   3     0     0           0           0
S   4     0     0           0           0
M   1        5520        7050
M   2        4930        6460
T         135         170
";

const TANKER_FLOWN: &str = "\
S   1     1     0         120         150
S   2     1     0        4500        6000
S   3     0     0           0           0
S   4     1     0         310         310
M   1        5520        7050
M   2        4930        6460
T        4930        6460
";

const CHASE_FEES: &str = "\
F   1   200   250    30    40\n\
F   2    55           5     8\n\
F   3  7000  9999     0      \n\
F   4    90    95     9      \n\
";

const CHASE_WAYS: [Ends; 2] = [(7255, 10304), (290, 345)];

const CHASE_FLOWN: &str = "\
S   1     1     0         200         250
S   2     1     1          60          63
S   3     0     0           0           0
S   4     1     0          90          95
M   1        7255       10304
M   2         290         345
T         350         408
";

/// 1 and 2, or 3 alone, or 1 alone: so 1 may be given back and asked for again.
fn asked_again() -> Plan {
    plan_of("CCC", &[], &[&[1, 2], &[3], &[1]])
}

const ASKED_AGAIN_FEES: &str = "\
F   1999998999999     0999999\n\
F   2     0     0     0     0\n\
F   3     1999999999999      \n\
";

const ASKED_AGAIN_WAYS: [Ends; 3] = [(999_998, 999_999), (1, 999_999), (999_998, 999_999)];

const ASKED_AGAIN_FLOWN: &str = "\
S   1     2     1     1999996     2999997
S   2     0     0           0           0
S   3     0     0           0           0
M   1      999998      999999
M   2           1      999999
M   3      999998      999999
T     1999996     2999997
";

/// What is counted for a booking, and its amount at the least and at the greatest fees.
pub type Row = (usize, usize, usize, usize);

/// The report of these rows, the other bookings having none, and of these ways.
pub fn report(bookings: usize, rows: &[Row], ways: &[Ends], total: Ends) -> String {
    let row = |at: usize| rows.get(at).copied().unwrap_or((0, 0, 0, 0));
    let booking = |at: usize| {
        let (confirmed, returned, least, greatest) = row(at);
        format!("S{:>4}{confirmed:>6}{returned:>6}{least:>12}{greatest:>12}\n", at + 1)
    };
    let way = |(at, (least, greatest)): (usize, &Ends)| format!("M{:>4}{least:>12}{greatest:>12}\n", at + 1);
    let bookings: String = (0..bookings).map(booking).collect();
    let ways: String = ways.iter().enumerate().map(way).collect();
    bookings + &ways + &format!("T{:>12}{:>12}\n", total.0, total.1)
}

fn settled(plan: &Plan, fees: &str, words: &str, report: String) -> Written {
    let (fees, journal) = (fees.as_bytes().to_vec(), lines(words));
    Written { plan: plan.clone(), fees, journal, result: Ok(report) }
}

/// Reports in full.
fn in_full() -> Vec<Written> {
    let (tanker, again) = (tanker(), asked_again());
    let flown = "Q1 Y1 Q2 Y2 Q3 N3 Q4 N4 Q4 Y4";
    let chase_back = "Q1 Q2 N2 Q2 Y1 Q3 Y2 N3 U2 K2 U2 G2 Q4 Y4";
    vec![
        settled(&tanker, TANKER_FEES, flown, TANKER_FLOWN.to_string()),
        settled(&tanker, TANKER_FEES, "Q1 Y1 Q2 N2 U1 K1 U1 G1", TANKER_CALLED_OFF.to_string()),
        settled(&chase('D'), CHASE_FEES, chase_back, CHASE_FLOWN.to_string()),
        settled(&again, ASKED_AGAIN_FEES, "Q1 Q2 Y1 N2 U1 G1 Q3 N3 Q1 Y1", ASKED_AGAIN_FLOWN.to_string()),
    ]
}

/// A fee sheet, and what each way comes to with it.
type Fees<'a> = (&'a str, &'a [Ends]);

/// The new words of a journal, the rows after them, and the total.
type Step<'a> = (&'a str, &'a [Row], Ends);

/// Journals from the start on, each going on where the one above it ends.
fn step_by_step(plan: &Plan, (fees, ways): Fees, steps: &[Step]) -> Vec<Written> {
    let upto = |last: usize| steps[..=last].iter().map(|step| step.0).collect::<Vec<_>>().join(" ");
    let step = |last: usize| {
        let (_, rows, total) = steps[last];
        settled(plan, fees, &upto(last), report(plan.count(), rows, ways, total))
    };
    (0..steps.len()).map(step).collect()
}

/// Nothing is billed before the first `Y`, nor for a `Q`, `N`, `U` or `K`.
fn growing() -> Vec<Written> {
    let drill: [Step; 11] = [
        ("", &[], (0, 0)),
        ("Q1", &[], (0, 0)),
        ("Y1", &[(1, 0, 120, 150)], (120, 150)),
        ("Q2", &[(1, 0, 120, 150)], (120, 150)),
        ("Y2", &[(1, 0, 120, 150), (1, 0, 4500, 6000)], (4620, 6150)),
        ("Q3", &[(1, 0, 120, 150), (1, 0, 4500, 6000)], (4620, 6150)),
        ("N3", &[(1, 0, 120, 150), (1, 0, 4500, 6000)], (4620, 6150)),
        ("Q4", &[(1, 0, 120, 150), (1, 0, 4500, 6000)], (4620, 6150)),
        ("N4", &[(1, 0, 120, 150), (1, 0, 4500, 6000)], (4620, 6150)),
        ("Q4", &[(1, 0, 120, 150), (1, 0, 4500, 6000)], (4620, 6150)),
        ("Y4", &[(1, 0, 120, 150), (1, 0, 4500, 6000), (0, 0, 0, 0), (1, 0, 310, 310)], (4930, 6460)),
    ];
    let refused_tanker: [Step; 5] = [
        ("Q1 Y1 Q2 N2", &[(1, 0, 120, 150)], (120, 150)),
        ("U1", &[(1, 0, 120, 150)], (120, 150)),
        ("K1", &[(1, 0, 120, 150)], (120, 150)),
        ("U1", &[(1, 0, 120, 150)], (120, 150)),
        ("G1", &[(1, 1, 135, 170)], (135, 170)),
    ];
    let chase_back: [Step; 6] = [
        ("Q1 Q2 N2 Q2", &[], (0, 0)),
        ("Y1 Q3 Y2", &[(1, 0, 200, 250), (1, 0, 55, 55)], (255, 305)),
        ("N3 U2 K2", &[(1, 0, 200, 250), (1, 0, 55, 55)], (255, 305)),
        ("U2 K2", &[(1, 0, 200, 250), (1, 0, 55, 55)], (255, 305)),
        ("U2 G2 Q4", &[(1, 0, 200, 250), (1, 1, 60, 63)], (260, 313)),
        ("Y4", &[(1, 0, 200, 250), (1, 1, 60, 63), (0, 0, 0, 0), (1, 0, 90, 95)], (350, 408)),
    ];
    let again: [Step; 4] = [
        ("Q1 Q2 Y1 N2 U1", &[(1, 0, 999_998, 999_999)], (999_998, 999_999)),
        ("G1", &[(1, 1, 999_998, 1_999_998)], (999_998, 1_999_998)),
        ("Q3 N3 Q1", &[(1, 1, 999_998, 1_999_998)], (999_998, 1_999_998)),
        ("Y1", &[(2, 1, 1_999_996, 2_999_997)], (1_999_996, 2_999_997)),
    ];
    let mut written = step_by_step(&tanker(), (TANKER_FEES, &TANKER_WAYS), &drill);
    written.extend(step_by_step(&tanker(), (TANKER_FEES, &TANKER_WAYS), &refused_tanker));
    written.extend(step_by_step(&chase('D'), (CHASE_FEES, &CHASE_WAYS), &chase_back));
    written.extend(step_by_step(&asked_again(), (ASKED_AGAIN_FEES, &ASKED_AGAIN_WAYS), &again));
    written
}

/// Orders that a full desk passes over are no fault of the journal.
fn at_full_desks() -> Vec<Written> {
    let three = "\
F   1100000200000     1     2\n\
F   2    10          10      \n\
F   3     5     6     5     6\n\
";
    let two = "\
F   1    10    30     1     1
F   2    20    20     2     3
";
    let back: [Step; 3] = [
        ("Q1 Q3 Y1 Q2 Y2", &[(1, 0, 100_000, 200_000), (1, 0, 10, 10)], (100_010, 200_010)),
        ("N3 U1 K1 U1 G1 U2", &[(1, 1, 100_001, 200_002), (1, 0, 10, 10)], (100_011, 200_012)),
        ("G2", &[(1, 1, 100_001, 200_002), (1, 1, 20, 20)], (100_021, 200_022)),
    ];
    let vans_in_turn: [Step; 2] = [
        ("Q1 N1 Q1 Y1", &[(1, 0, 10, 30)], (10, 30)),
        ("Q2 Y2", &[(1, 0, 10, 30), (1, 0, 20, 20)], (30, 50)),
    ];
    let mut written = step_by_step(&passed_over_request(), (three, &[(100_015, 200_016)]), &back);
    written.extend(step_by_step(&vans("DD", 1), (two, &[(30, 50)]), &vans_in_turn));
    written
}

/// One to five bytes after the last whole line are no line.
fn tails() -> Vec<Written> {
    let tails: [(&[u8], &[Row], Ends); 6] = [
        (b"Y", &[], (0, 0)),
        (b"?????", &[], (0, 0)),
        (b"Q   1\nY   1", &[], (0, 0)),
        (b"Q   1\nY   1\nG", &[(1, 0, 120, 150)], (120, 150)),
        (b"Q   1\nY   1\nY   1", &[(1, 0, 120, 150)], (120, 150)),
        (b"Q   1\nY   1\n\n\n\n\n\n", &[(1, 0, 120, 150)], (120, 150)),
    ];
    let written = |(journal, rows, total): (&[u8], &[Row], Ends)| Written {
        journal: journal.to_vec(),
        ..settled(&tanker(), TANKER_FEES, "", report(4, rows, &TANKER_WAYS, total))
    };
    tails.into_iter().map(written).collect()
}

/// One booking in one way: the way's line says what it may cost before anything is asked for.
fn one_booking() -> Vec<Written> {
    let plan = plan_of("C", &[], &[&[1]]);
    let steps: [Step; 3] =
        [("", &[], (0, 0)), ("Q1", &[], (0, 0)), ("Y1", &[(1, 0, 4_000, 6_000)], (4_000, 6_000))];
    step_by_step(&plan, ("F   1  4000  6000   300   500\n", &[(4_000, 6_000)]), &steps)
}

/// Ways that share bookings, and one of a single booking: each digit of a way's sum
/// shows a booking. Whatever the journal says, the sums stay.
fn shared_bookings() -> Vec<Written> {
    let plan = plan_of("CCCC", &[], &[&[1, 2, 3], &[2, 3, 4], &[1, 4], &[3]]);
    let fees = "\
F   1     1     2 50000 60000\n\
F   2    10    20 50000 60000\n\
F   3   100   200 50000      \n\
F   4  1000  2000 50000 60000\n\
";
    let ways = [(111, 222), (1_110, 2_220), (1_001, 2_002), (100, 200)];
    let held: [Row; 3] = [(0, 0, 0, 0), (1, 0, 10, 20), (1, 0, 100, 200)];
    let back: [Row; 3] = [(0, 0, 0, 0), (1, 1, 50_010, 60_020), (1, 0, 100, 200)];
    let steps: [Step; 4] = [
        ("", &[], (0, 0)),
        ("Q1 Q2 Q3 Y2 N1", &[(0, 0, 0, 0), (1, 0, 10, 20)], (10, 20)),
        ("Y3 Q4", &held, (110, 220)),
        ("N4 U2 G2", &back, (50_110, 60_220)),
    ];
    step_by_step(&plan, (fees, &ways), &steps)
}

/// The fees of so many bookings, the columns of each made from its number.
fn fees_by_number(bookings: usize, columns: impl Fn(usize) -> String) -> String {
    (1..=bookings).map(|b| format!("F{b:>4}{}\n", columns(b))).collect()
}

/// Sixteen ways: of one booking each, and each with a booking more than the one before.
fn sixteen_ways() -> Vec<Written> {
    let plan_of_ways = |way: fn(usize) -> Vec<usize>| {
        let mut plan = returnables(16, 0);
        plan.ways = (1..=16).map(way).collect();
        plan
    };
    let sums = [1, 3, 6, 10, 15, 21, 28, 36, 45, 55, 66, 78, 91, 105, 120, 136];
    let sums = sums.map(|sum| (sum, 1_000 * sum));
    let single: Vec<Ends> = (1..=16).map(|b| (b, 1_000 * b)).collect();
    let fees = fees_by_number(16, |b| format!("{b:>6}{b:>3}000     7     9"));
    let steps: [Step; 2] = [("", &[], (0, 0)), ("Q1 Y1", &[(1, 0, 1, 1_000)], (1, 1_000))];
    let lost: [Step; 2] = [("", &[], (0, 0)), ("Q1 N1 Q2 Y2", &[(0, 0, 0, 0), (1, 0, 2, 2_000)], (2, 2_000))];
    let mut written = step_by_step(&plan_of_ways(|i| (1..=i).collect()), (&fees, &sums), &steps);
    written.extend(step_by_step(&plan_of_ways(|i| vec![i]), (&fees, &single), &lost));
    written
}

/// A journal that is wrong in this line, whatever the fee sheet.
fn wrong_journals() -> Vec<Written> {
    let texts: [(&[u8], u32); 15] = [
        (b"Q   2\n", 1),
        (b"Y   1\n", 1),
        (b"W   0\n", 1),
        (b"Q  01\n", 1),
        (b"??????", 1),
        (b"Q    \n", 1),
        (b"Q   1\nY    \n", 2),
        (b"Q   1\nY   1\nQ    \n", 3),
        (b"Q   1\nG   1\n", 2),
        (b"Q   1\nY   2\nY   1\n", 2),
        (b"Q   1\nY   1\nY   1\n", 3),
        (b"Q   1\nY   1\nQ   3\n", 3),
        (b"Q   1\nY   1\n\nQ   2\n", 3),
        (b"Q   1\nY   1\nQ   2\nN   2\nU   1\nY   1\n", 6),
        (b"Q   1\nY   1\nQ   2\nN   2\nU   1\nG   1\nG   1\nY", 7),
    ];
    let mut written = Vec::new();
    for (journal, line) in texts {
        for fees in [TANKER_FEES, "", "F   2     1     1     1     1\n", "F   1     2     1     1     1\n"] {
            let (fees, journal) = (fees.as_bytes().to_vec(), journal.to_vec());
            written.push(Written { plan: tanker(), fees, journal, result: Err((12, line)) });
        }
    }
    written
}

/// Two vans of which one is confirmed, with this fee sheet.
fn of_vans(fees: &str, result: Result<String, (u32, u32)>) -> Written {
    let journal = lines("Q1 Q2 Y2");
    Written { plan: vans("CC", 2), fees: fees.as_bytes().to_vec(), journal, result }
}

/// Each fee that can stand in six columns, as the least with a blank greatest, as both, and
/// as the greatest.
fn fees() -> Vec<Written> {
    let numbers: [(&str, usize); 9] = [
        ("     0", 0),
        ("     1", 1),
        ("     9", 9),
        ("    10", 10),
        ("   100", 100),
        (" 10000", 10_000),
        (" 65536", 65_536),
        ("100000", 100_000),
        ("999999", 999_999),
    ];
    let written = |least: &str, greatest: &str, ends: Ends| {
        let fees = format!("F   1   777   777   777   777\nF   2{least}{greatest}   777   777\n");
        let way = (777 + ends.0, 777 + ends.1);
        of_vans(&fees, Ok(report(2, &[(0, 0, 0, 0), (1, 0, ends.0, ends.1)], &[way], ends)))
    };
    let each = |(columns, fee): (&str, usize)| {
        [
            written(columns, "      ", (fee, fee)),
            written(columns, columns, (fee, fee)),
            written("     0", columns, (0, fee)),
        ]
    };
    numbers.into_iter().flat_map(each).collect()
}

/// Quotes of booking 1, which was confirmed once and returned once: its fields, what its
/// confirmation costs, and its amount.
fn quotes() -> Vec<Written> {
    let quotes: [(&str, Ends, Ends); 15] = [
        ("    40    60     3     9", (40, 60), (43, 69)),
        // A blank greatest of the one, of the other, of both.
        ("    40           3     9", (40, 40), (43, 49)),
        ("    40    60     3      ", (40, 60), (43, 63)),
        ("    40           3      ", (40, 40), (43, 43)),
        ("     0           0      ", (0, 0), (0, 0)),
        ("999999      999999      ", (999_999, 999_999), (1_999_998, 1_999_998)),
        // Both ends equal, or next to each other.
        ("    40    40     3     3", (40, 40), (43, 43)),
        ("     0     0     0     0", (0, 0), (0, 0)),
        ("999999999999999999999999", (999_999, 999_999), (1_999_998, 1_999_998)),
        ("    39    40     0     1", (39, 40), (39, 41)),
        ("999998999999     1     2", (999_998, 999_999), (999_999, 1_000_001)),
        // As far apart as can be; with more digits; the return above or below the confirmation.
        ("     0999999     0999999", (0, 999_999), (0, 1_999_998)),
        ("     9    10    99   100", (9, 10), (108, 110)),
        ("     2   100   101   200", (2, 100), (103, 300)),
        ("   100   200     2     3", (100, 200), (102, 203)),
    ];
    let written = |(fields, confirmation, amount): (&str, Ends, Ends)| {
        let fees = format!("F   1{fields}\nF   2 20000 30000     7     8\nF   3    50    60    70    80\n");
        let both = (20_000 + confirmation.0, 30_000 + confirmation.1);
        let ways = [both, (50, 60), confirmation];
        let text = report(3, &[(1, 1, amount.0, amount.1)], &ways, amount);
        settled(&asked_again(), &fees, "Q1 Q2 Y1 N2 U1 G1", text)
    };
    quotes.into_iter().map(written).collect()
}

/// A fee sheet that is wrong in this line.
fn wrong_fees() -> Vec<Written> {
    let texts: [(&str, u32); 62] = [
        // Missing, or unfinished.
        ("", 1),
        ("F", 1),
        ("\n", 1),
        ("F   1     1     1     1     1", 1),
        ("F   1     1     1     1     1\n", 2),
        ("F   1     1     1     1     1\n\n", 2),
        ("F   1     1     1     1     1\nF   2     1     1     1     1", 2),
        ("F   1     1     1     1     1\nF   2     1     1     1\n", 2),
        // One too many, or what follows.
        ("F   1     1     1     1     1\nF   2     1     1     1     1\n\n", 3),
        ("F   1     1     1     1     1\nF   2     1     1     1     1\nF", 3),
        ("F   1     1     1     1     1\nF   2     1     1     1     1\nF   3     1     1     1     1\n", 3),
        ("F   1     1     1     1     1\nF   2     1     1     1     1\nF   2     1     1     1     1\n", 3),
        ("F   1     1     1     1     1\nF   2     1     1     1     1\nF   3     2     1     1     1\n", 3),
        ("F   1     1     1     1     1\nF   2     1     1     1     1\nT           2           2\n", 3),
        // Out of sequence.
        ("F   2     1     1     1     1\nF   1     1     1     1     1\n", 1),
        ("F   2     1     1     1     1\n", 1),
        ("F   0     1     1     1     1\nF   1     1     1     1     1\n", 1),
        ("F   1     1     1     1     1\nF   1     1     1     1     1\nF   2     1     1     1     1\n", 2),
        ("F   1     1     1     1     1\nF   3     1     1     1     1\n", 2),
        ("F 257     1     1     1     1\nF   2     1     1     1     1\n", 1),
        ("F   1     1     1     1     1\nF 258     1     1     1     1\n", 2),
        // The first of two wrong lines.
        ("F   3     1     1     1     1\nF   2     1     1     1     1 ", 1),
        ("F   1     1     1     1     1 F   2     1     1     1     1\n\n", 1),
        ("F   1     1     1     1    01\nF   2     1     1     1     1\nF   3     1     1     1     1\n", 1),
        ("F   1     1     1     1     1\nF   2     1     1     1     X\nF   3     1     1     1     1\n", 2),
        // Other letters, other ends, and lines of two fees.
        ("f   1     1     1     1     1\nF   2     1     1     1     1\n", 1),
        ("S   1     1     1     1     1\nF   2     1     1     1     1\n", 1),
        ("F   1     1     1     1     1\r\nF   2     1     1     1     1\n", 1),
        ("F   1     1     1     1     1\n\nF   2     1     1     1     1\n", 2),
        (" F   1     1     1     1     1\nF   2     1     1     1     1\n", 1),
        ("F   1     1     1\nF   2     1     1\n", 1),
        ("F   1     1     1     1     1\nF   2     1     1\n", 2),
        // Numbers that are none.
        ("F  01     1     1     1     1\nF   2     1     1     1     1\n", 1),
        ("F1        1     1     1     1\nF   2     1     1     1     1\n", 1),
        ("F   1000001     1     1     1\nF   2     1     1     1     1\n", 1),
        ("F   1     1     1     1    01\nF   2     1     1     1     1\n", 1),
        ("F   1     1    01     1     1\nF   2     1     1     1     1\n", 1),
        ("F   1    00     1     1     1\nF   2     1     1     1     1\n", 1),
        ("F   1     0    00     1     1\nF   2     1     1     1     1\n", 1),
        ("F   1    -1     1     1     1\nF   2     1     1     1     1\n", 1),
        ("F   1     1     1     1    +1\nF   2     1     1     1     1\n", 1),
        ("F   1     1 1   1     1     1\nF   2     1     1     1     1\n", 1),
        ("F   1   1 1     1     1     1\nF   2     1     1     1     1\n", 1),
        ("F   1 1000000     1     1     1\nF   2     1     1     1     1\n", 1),
        ("F   1  1000  2000  10.5  10.6\nF   2     1     1     1     1\n", 1),
        // A blank number, a blank least, a line of blanks.
        ("F         1     1     1     1\nF   2     1     1     1     1\n", 1),
        ("F   1     1     1     1     1\nF         1     1     1     1\n", 2),
        ("F   1           1     1     1\nF   2     1     1     1     1\n", 1),
        ("F   1     1     1           1\nF   2     1     1     1     1\n", 1),
        ("F   1                 1     1\nF   2     1     1     1     1\n", 1),
        ("F   1     1     1            \nF   2     1     1     1     1\n", 1),
        ("F   1     1     1     1     1\nF   2                        \n", 2),
        ("                             \nF   2     1     1     1     1\n", 1),
        // Blanks where a greatest does not end, and what only looks like a blank.
        ("F   1     11          1     1\nF   2     1     1     1     1\n", 1),
        ("F   1     1    1      1     1\nF   2     1     1     1     1\n", 1),
        ("F   1     1     1     1 1    \nF   2     1     1     1     1\n", 1),
        ("F   1     1   1 1     1     1\nF   2     1     1     1     1\n", 1),
        ("F   1     1     -     1     1\nF   2     1     1     1     1\n", 1),
        ("F   1     1\t\t\t\t\t\t     1     1\nF   2     1     1     1     1\n", 1),
        ("F   1     1     \t     1     1\nF   2     1     1     1     1\n", 1),
        ("F   1     1     1     1\0\0\0\0\0\0\nF   2     1     1     1     1\n", 1),
        ("F   1     1     1     1\nF   2     1     1     1     1\n", 1),
    ];
    texts.into_iter().map(|(fees, line)| of_vans(fees, Err((13, line)))).collect()
}

/// A fee sheet with a least above its greatest: on each line 13 comes first, then 15, then the
/// next line.
fn crossed_quotes() -> Vec<Written> {
    let texts: [(&str, (u32, u32)); 34] = [
        // The one pair, the other, both; also of a booking that nothing is billed for.
        ("F   1     2     1     1     1\nF   2     1     1     1     1\n", (15, 1)),
        ("F   1     1     1     2     1\nF   2     1     1     1     1\n", (15, 1)),
        ("F   1     2     1     2     1\nF   2     1     1     1     1\n", (15, 1)),
        ("F   1     1     1     1     1\nF   2     2     1     1     1\n", (15, 2)),
        ("F   1     1     1     1     1\nF   2     1     1     2     1\n", (15, 2)),
        ("F   1     1     2     3     2\nF   2     1     1     1     1\n", (15, 1)),
        ("F   1     2     1     1     3\nF   2     1     1     1     1\n", (15, 1)),
        ("F   1     1     0     0     0\nF   2     1     1     1     1\n", (15, 1)),
        ("F   1     0     0     1     0\nF   2     1     1     1     1\n", (15, 1)),
        ("F   1    10     9     1     1\nF   2     1     1     1     1\n", (15, 1)),
        ("F   1     1     1100000 99999\nF   2     1     1     1     1\n", (15, 1)),
        ("F   1999999999998     1     1\nF   2     1     1     1     1\n", (15, 1)),
        ("F   1999999     0999999     0\nF   2     1     1     1     1\n", (15, 1)),
        ("F   1     2     1     1      \nF   2     1           1      \n", (15, 1)),
        ("F   1     1           2     1\nF   2     1           1      \n", (15, 1)),
        // On a line that is wrong as well.
        ("F   1     2     1     1     X\nF   2     1     1     1     1\n", (13, 1)),
        ("F   1     2     1    01     1\nF   2     1     1     1     1\n", (13, 1)),
        ("F   1     2     1           1\nF   2     1     1     1     1\n", (13, 1)),
        ("F   1           1     2     1\nF   2     1     1     1     1\n", (13, 1)),
        ("F   2     2     1     1     1\nF   2     1     1     1     1\n", (13, 1)),
        ("F         2     1     1     1\nF   2     1     1     1     1\n", (13, 1)),
        ("f   1     2     1     1     1\nF   2     1     1     1     1\n", (13, 1)),
        ("F   1     2     1     1     1 F   2     1     1     1     1\n", (13, 1)),
        ("F   1     1     1     1     1\nF   2     2     1     1     1", (13, 2)),
        ("F   1     1     1     1     1\nF   2     2     1     1", (13, 2)),
        // On one line, and another one wrong.
        ("F   1     2     1     1     1\n", (15, 1)),
        ("F   1     2     1     1     1\nF   3     1     1     1     1\n", (15, 1)),
        ("F   1     1     1     2     1\nF   2           1     1     1\n", (15, 1)),
        ("F   1     1     1     2     1\nF   2     1     1     2     1\n", (15, 1)),
        ("F   1     1     1    01     1\nF   2     2     1     1     1\n", (13, 1)),
        ("F   2     1     1     1     1\nF   2     2     1     1     1\n", (13, 1)),
        // With more behind the last line.
        ("F   1     2     1     1     1\nF   2     1     1     1     1\n\n", (15, 1)),
        ("F   1     1     1     1     1\nF   2     1     1     2     1\nF   3     1\n", (15, 2)),
        ("F   1     1     1     1     1\nF   2     2     1     1     1\nF", (15, 2)),
    ];
    texts.into_iter().map(|(fees, refusal)| of_vans(fees, Err(refusal))).collect()
}

/// The same fees for so many bookings.
fn same_fees(bookings: usize, columns: &str) -> String {
    fees_by_number(bookings, |_| columns.to_string())
}

/// As many bookings as there can be: all confirmed, a line too few, a line too many, the last
/// line crossed.
fn full_size() -> Vec<Written> {
    let plan = returnables(64, 0);
    let words = |letter: char| (1..=64).map(|b| format!("{letter}{b}")).collect::<Vec<_>>().join(" ");
    let all = words('Q') + " " + &words('Y');
    let (dear, way) = ("999999           0     0", [(63_999_936, 63_999_936)]);
    let fees = same_fees(64, dear);
    let refused =
        |fees: &str, refusal| Written { result: Err(refusal), ..settled(&plan, fees, "", String::new()) };
    let crossed = fees_by_number(64, |b| format!("     5{:>6}     0     0", if b == 64 { 4 } else { 5 }));
    vec![
        settled(&plan, &fees, "", report(64, &[], &way, (0, 0))),
        settled(&plan, &fees, &all, report(64, &[(1, 0, 999_999, 999_999); 64], &way, way[0])),
        refused(&same_fees(63, dear), (13, 64)),
        refused(&same_fees(65, dear), (13, 65)),
        refused(&crossed, (15, 64)),
        refused(&(crossed + "F  65     1     1     1     1\n"), (15, 64)),
    ]
}

/// 1 to 24 in every odd way and 25 to 48 in every even one, and in each a booking
/// of its own that is lost: so the others are confirmed and given back eight times.
pub fn back_and_forth() -> Plan {
    let way = |i: usize| (1..=24).map(|b| if i % 2 == 1 { b } else { 24 + b }).chain([48 + i]).collect();
    let mut plan = returnables(64, 0);
    plan.ways = (1..=16).map(way).collect();
    plan
}

/// The campaign on it up to the end, 1,568 lines; at the last of them 25 to 48 are
/// taken back, 25 after its return has failed so often.
pub fn lost_every_time(kept: usize) -> Vec<u8> {
    let mut words = Vec::new();
    for way in 1..=16 {
        let group = if way % 2 == 1 { 1..=24 } else { 25..=48 };
        let all = |letter: char| group.clone().map(move |b| format!("{letter}{b}"));
        words.extend(all('Q').chain([format!("Q{}", 48 + way)]));
        words.extend(all('Y').chain([format!("N{}", 48 + way)]));
        if way == 16 {
            words.extend((0..2 * kept).map(|at| ["U25", "K25"][at % 2].to_string()));
        }
        words.extend(all('U').chain(all('G')));
    }
    lines(&words.join(" "))
}

/// The biggest amounts: no booking can be confirmed or given back more often.
pub fn biggest(kept: usize) -> Written {
    let rows = [(8, 8, 16, 15_999_984); 48];
    let ways = [(25, 24_999_975); 16];
    let fees = same_fees(64, "     1999999     1999999");
    let text = report(64, &rows, &ways, (768, 767_999_232));
    Written { journal: lost_every_time(kept), ..settled(&back_and_forth(), &fees, "", text) }
}

/// As many bookings and ways as there can be, and each booking with a quote of its own: 1 to 24
/// come to 300, 25 to 48 to 876.
fn biggest_with_other_fees() -> Written {
    let fees = fees_by_number(64, |b| format!("{b:>6}{b:>3}000     0      "));
    let way = |i: usize| if i % 2 == 1 { 348 + i } else { 924 + i };
    let ways: Vec<Ends> = (1..=16).map(|i| (way(i), 1_000 * way(i))).collect();
    settled(&back_and_forth(), &fees, "", report(64, &[], &ways, (0, 0)))
}

pub fn settlements() -> Vec<Written> {
    let right = [in_full(), growing(), at_full_desks(), tails(), one_booking(), shared_bookings()];
    let more = [sixteen_ways(), fees(), quotes(), full_size(), vec![biggest_with_other_fees()]];
    let wrong = [wrong_journals(), wrong_fees(), crossed_quotes(), vec![biggest(0)]];
    right.into_iter().chain(more).chain(wrong).flatten().collect()
}

#[cfg(test)]
mod tests {
    use super::*;
    use crate::bill::bill;
    use crate::calls::{self, pack};
    use crate::flights::refused_sheets;
    use crate::plan;

    fn sheet(plan: &Plan) -> Vec<u8> {
        plan::write(plan).into_bytes()
    }

    /// The answer and what stands in so many bytes afterwards.
    fn settle(plan: &Plan, fees: &[u8], journal: &[u8], length: usize) -> (u32, Vec<u8>) {
        let mut report = vec![b'?'; length];
        (calls::settle(&sheet(plan), fees, journal, &mut report), report)
    }

    #[test]
    fn settlements_have_the_written_results() {
        assert_eq!(settlements().len(), 258);
        for Written { plan, fees, journal, result } in settlements() {
            let told = format!("{} {}", fees.escape_ascii(), journal.escape_ascii());
            let (answer, left) = settle(&plan, &fees, &journal, 4000);
            let (due, text) = match &result {
                Ok(text) => (pack(6, 0, text.len() as u32), text.as_str()),
                Err((refusal, place)) => (pack(0, *refusal, *place), ""),
            };
            assert_eq!(answer, due, "{told}");
            let kept = "?".repeat(4000 - text.len());
            assert_eq!(String::from_utf8(left).unwrap(), format!("{text}{kept}"), "{told}");
        }
    }

    #[test]
    fn the_report_has_42_bytes_for_each_booking_and_30_for_each_way_and_26() {
        let plans = [(returnables(1, 0), 98), (returnables(2, 0), 140), (returnables(4, 0), 224)];
        let full = [(returnables(64, 0), 2744), (back_and_forth(), 3194), (tanker(), 254)];
        for (plan, length) in plans.into_iter().chain(full) {
            let fees = same_fees(plan.count(), "     5     6     5      ");
            for room in [0, 1, 97, length - 1] {
                let due = (pack(0, 10, 0), vec![b'?'; room]);
                assert_eq!(settle(&plan, fees.as_bytes(), b"", room), due);
            }
            for room in [length, length + 1, 5000] {
                let (answer, left) = settle(&plan, fees.as_bytes(), b"", room);
                assert_eq!(answer, pack(6, 0, length as u32));
                assert!(left[..length].ends_with(b"T           0           0\n"));
                assert!(left[length..].iter().all(|&byte| byte == b'?'));
            }
        }
    }

    #[test]
    fn ten_thousand_lines_are_settled() {
        let plan = plan_of("R", &[], &[&[1]]);
        let journal = b"Q   1\nN   1\n".repeat(5_001);
        let fees = b"F   1     7     7     7     7\n";
        for (length, refusal) in
            [(59_994, 0), (59_999, 0), (60_000, 0), (60_005, 0), (60_006, 14), (60_012, 14)]
        {
            let (answer, left) = settle(&plan, fees, &journal[..length], 98);
            match refusal {
                0 => assert_eq!(answer, pack(6, 0, 98), "{length}"),
                _ => assert_eq!((answer, left), (pack(0, 14, 0), vec![b'?'; 98]), "{length}"),
            }
        }
        let written = biggest(4_216);
        assert_eq!(written.journal.len(), 60_000);
        let text = written.result.unwrap();
        let (answer, left) = settle(&written.plan, &written.fees, &written.journal, 3194);
        assert_eq!((answer, String::from_utf8(left).unwrap()), (pack(6, 0, 3194), text));
    }

    #[test]
    fn refusals_come_in_order() {
        let (good, bad) = (vans("CC", 2), plan_of("PP", &[], &[&[1, 2]]));
        let right = b"F   1     1     1     1     1\nF   2     1     1     1     1\n";
        let crossed = b"F   1     1     1     1     1\nF   2     2     1     1     1\n";
        let long = b"Q   1\n".repeat(10_001);
        for (journal, fees, length) in
            [(&long[..], &b"?"[..], 3), (b"Y   1\n", b"", 0), (b"", right, 140), (b"", crossed, 140)]
        {
            assert_eq!(settle(&bad, fees, journal, length), (pack(0, 8, 257), vec![b'?'; length]));
        }
        for fees in [&b"?"[..], right, crossed] {
            assert_eq!(settle(&good, fees, &long, 3).0, pack(0, 14, 0));
            assert_eq!(settle(&good, fees, &long, 140).0, pack(0, 14, 0));
            assert_eq!(settle(&good, fees, &long[..60_000], 3).0, pack(0, 12, 2));
            assert_eq!(settle(&good, fees, b"Q   1\nQ   2\nQ   1\n", 3).0, pack(0, 12, 3));
        }
        assert_eq!(settle(&good, b"?", b"Q   1\nQ   2\nQ   ", 3).0, pack(0, 13, 1));
        assert_eq!(settle(&good, &right[..30], b"", 3).0, pack(0, 13, 2));
        for room in [0, 3, 139, 140, 141] {
            let due = (pack(0, 15, 2), vec![b'?'; room]);
            assert_eq!(settle(&good, crossed, b"Q   1\nQ   2\nQ   ", room), due);
        }
        assert_eq!(settle(&good, right, b"", 139).0, pack(0, 10, 0));
        assert_eq!(settle(&good, right, b"", 140).0, pack(6, 0, 140));
    }

    #[test]
    fn each_refusal_of_a_sheet_comes_first() {
        let long = b"Q   1\n".repeat(10_001);
        for (name, sheet, (refusal, place)) in refused_sheets() {
            for journal in [&b""[..], b"Y   1\n", &long] {
                for fees in [b"F   1     1     1     1     1\n", b"F   1     2     1     1     1\n"] {
                    let mut report = [b'?'; 98];
                    let answer = calls::settle(&sheet, fees, journal, &mut report);
                    assert_eq!((answer, report), (pack(0, refusal, place), [b'?'; 98]), "{name}");
                }
            }
        }
    }

    #[test]
    fn a_bill_is_the_report_or_the_refusal() {
        let sheet = sheet(&tanker());
        let journal = lines("Q1 Y1 Q2 Y2 Q3 N3 Q4 N4 Q4 Y4");
        assert_eq!(bill(&sheet, TANKER_FEES.as_bytes(), &journal), TANKER_FLOWN);
        assert_eq!(bill(&sheet, &TANKER_FEES.as_bytes()[..60], &journal), "X  13     3\n");
        assert_eq!(bill(&sheet, b"F   1     2     1     1     1\n", &journal), "X  15     1\n");
        assert_eq!(bill(&sheet, b"", &journal[6..]), "X  12     1\n");
        assert_eq!(bill(&sheet, b"", &journal.repeat(1_001)), "X  14     0\n");
        assert_eq!(bill(b"", TANKER_FEES.as_bytes(), b""), "X   1     1\n");
        let full = plan::write(&back_and_forth());
        let printed = bill(full.as_bytes(), same_fees(64, "     3     4     5     6").as_bytes(), b"");
        assert_eq!((printed.len(), printed.lines().last()), (3194, Some("T           0           0")));
    }
}
