//! Desks and the limit of their matters: sheets, campaigns and states with
//! their results, all written by hand.

use crate::calls::{pack, ACCEPTED, CALLED_OFF, FLOWN, REQUEST, RETURN, WAIT};
use crate::comparison::Call;
use crate::flights::{plan_of, returnables, state_of, Flight};
use crate::plan::{self, Plan};
use crate::run::State;

/// Bookings of these kinds without links, in one way.
fn beside(kinds: &str, desks: &[usize], limit: usize) -> Plan {
    let way: Vec<usize> = (1..=kinds.len()).collect();
    plan_of(kinds, &[], &[&way]).with_desks(desks, limit)
}

/// Two telemetry vans at one desk.
pub fn vans(kinds: &str, limit: usize) -> Plan {
    beside(kinds, &[1, 1], limit)
}

/// One booking, with this text as the limit and this one as its desk.
fn one_booking(limit: &str, desk: &str) -> Vec<u8> {
    format!("P   1   0   1{limit}\nB   1 C{desk}\nA   1   1\n").into_bytes()
}

fn flight(name: &'static str, sheet: Vec<u8>, verdict: (u32, u32)) -> Flight {
    Flight { name, sheet, verdict }
}

fn of_plan(name: &'static str, plan: Plan, verdict: (u32, u32)) -> Flight {
    flight(name, plan::write(&plan).into_bytes(), verdict)
}

fn circle() -> Plan {
    plan_of("CC", &[(1, 2), (2, 1)], &[&[1, 2]])
}

/// Numbers of their form.
fn numbers() -> Vec<Flight> {
    vec![
        flight("limit 0", one_booking("   0", "   1"), (2, 1)),
        flight("limit 1", one_booking("   1", "   1"), (0, 0)),
        flight("limit 64", one_booking("  64", "   1"), (0, 0)),
        flight("limit 65", one_booking("  65", "   1"), (2, 1)),
        flight("limit 320", one_booking(" 320", "   1"), (2, 1)),
        flight("limit 9999", one_booking("9999", "   1"), (2, 1)),
        flight("desk 0", one_booking("   2", "   0"), (3, 2)),
        flight("desk 1", one_booking("   2", "   1"), (0, 0)),
        flight("desk 8", one_booking("   2", "   8"), (0, 0)),
        flight("desk 9", one_booking("   2", "   9"), (3, 2)),
        flight("desk 10", one_booking("   2", "  10"), (3, 2)),
        flight("desk 257", one_booking("   2", " 257"), (3, 2)),
        flight("wrong limit and wrong desk", one_booking("   0", "   9"), (2, 1)),
        of_plan("wrong desk of the last booking", beside("CDC", &[1, 8, 9], 2), (3, 4)),
        of_plan("wrong desk before a circle", circle().with_desks(&[1, 9], 2), (3, 3)),
        of_plan(
            "desk 9 of booking 64",
            returnables(64, 0).with_desks(&[&[1; 63][..], &[9]].concat(), 1),
            (3, 65),
        ),
    ]
}

/// Fields that are no numbers; the form of a line comes before its numbers.
fn misformed() -> Vec<Flight> {
    vec![
        flight("blank limit", one_booking("    ", "   1"), (1, 1)),
        flight("limit with a leading zero", one_booking("  01", "   1"), (1, 1)),
        flight("limit of zeros", one_booking("0000", "   1"), (1, 1)),
        flight("letter as limit", one_booking("   X", "   1"), (1, 1)),
        flight("limit to the left", one_booking("2   ", "   1"), (1, 1)),
        flight("limit of three columns", one_booking("  2", "   1"), (1, 1)),
        flight("limit of five columns", one_booking("    2", "   1"), (1, 1)),
        flight("limit with a sign", one_booking("  +2", "   1"), (1, 1)),
        flight("blank desk", one_booking("   2", "    "), (1, 2)),
        flight("desk with a leading zero", one_booking("   2", "  01"), (1, 2)),
        flight("letter as desk", one_booking("   2", "   C"), (1, 2)),
        flight("desk to the left", one_booking("   2", "1   "), (1, 2)),
        flight("desk of three columns", one_booking("   2", "  1"), (1, 2)),
        flight("desk of five columns", one_booking("   2", "    1"), (1, 2)),
        flight("head without a limit", one_booking("", "   1"), (1, 1)),
        flight("booking without a desk", one_booking("   2", ""), (1, 2)),
        flight("neither limit nor desk", one_booking("", ""), (1, 1)),
        flight("no booking and a blank limit", b"P   0   0   1    \n".to_vec(), (1, 1)),
        flight("wrong limit, the head not ended", b"P   1   0   1   0".to_vec(), (1, 1)),
        flight("wrong desk, its line not ended", one_booking("   2", "   9 "), (1, 2)),
        flight("wrong desk and no kind", b"P   1   0   1   2\nB   1 X   9\n".to_vec(), (1, 2)),
        flight("out of sequence and a blank desk", b"P   1   0   1   2\nB   2 C    \n".to_vec(), (1, 2)),
        flight("out of sequence and a wrong desk", b"P   1   0   1   2\nB   2 C   9\n".to_vec(), (3, 2)),
    ]
}

/// Sheets that pass and have campaigns below.
pub fn passing() -> Vec<Flight> {
    vec![
        of_plan("two vans, limit 1", vans("DD", 1), (0, 0)),
        of_plan("two vans, limit 2", vans("DD", 2), (0, 0)),
        of_plan("two vans that may be refused, limit 1", vans("CC", 1), (0, 0)),
        of_plan("a passed-over request", passed_over_request(), (0, 0)),
        of_plan("a passed-over return", passed_over_return(), (0, 0)),
    ]
}

/// Each limit of the new numbers, reached and passed, and fields that are none.
pub fn fields() -> Vec<Flight> {
    numbers().into_iter().chain(misformed()).collect()
}

/// A campaign from the start on: calls and their answers.
pub struct Written {
    pub plan: Plan,
    pub calls: Vec<(Call, u32)>,
}

/// The call of a word and its answer. Orders: Q1 request, U1 return, W wait, E1
/// flown, O called off; replies that are accepted: Y1, N1, G1, K1.
fn call_of(word: &str) -> (Call, u32) {
    let (letter, place) = (word.as_bytes()[0], word[1..].parse().unwrap_or(0));
    let order = |kind| (Call::NextOrder, pack(kind, 0, place));
    match letter {
        b'Q' => order(REQUEST),
        b'U' => order(RETURN),
        b'W' => order(WAIT),
        b'E' => order(FLOWN),
        b'O' => order(CALLED_OFF),
        _ => (Call::Reply(letter, place), pack(ACCEPTED, 0, place)),
    }
}

fn written(plan: Plan, words: &str) -> Written {
    Written { plan, calls: words.split_whitespace().map(call_of).collect() }
}

/// Booking 2 waits for its desk, 3 has another desk.
pub fn passed_over_request() -> Plan {
    beside("CCC", &[1, 1, 2], 1)
}

/// 1 and 2 at one desk, 3 and 4 at desks of their own.
fn passed_over_return() -> Plan {
    beside("CCCC", &[5, 5, 2, 8], 1)
}

/// Three bookings of one way at desks 1, 1, 2, or else one at desk 1.
fn two_ways(limit: usize) -> Plan {
    plan_of("CCCC", &[], &[&[1, 2, 3], &[4]]).with_desks(&[1, 1, 2, 1], limit)
}

/// All 64 requested as far as the one desk takes them on, then one confirmed.
fn full_size(limit: usize) -> Written {
    let mut words: Vec<String> = (1..=limit).map(|b| format!("Q{b}")).collect();
    words.extend(["W".to_string(), "Y1".to_string()]);
    words.extend((limit < 64).then(|| format!("Q{}", limit + 1)));
    words.push("W".to_string());
    written(returnables(64, 0).with_desks(&[8; 64], limit), &words.join(" "))
}

fn requests() -> Vec<Written> {
    let three_at_desk_8 = || beside("PDD", &[8, 8, 8], 2);
    let linked = || plan_of("CCC", &[(2, 3)], &[&[1, 2, 3]]).with_desks(&[1, 2, 1], 1);
    vec![
        // The limit changes the order of the requests.
        written(vans("DD", 1), "Q1 W Y1 Q2 W Y2 E1 E1"),
        written(vans("DD", 2), "Q1 Q2 W Y1 W Y2 E1"),
        written(vans("DD", 64), "Q1 Q2 W Y2 W Y1 E1"),
        written(vans("CC", 1), "Q1 W Y1 Q2 W Y2 E1"),
        written(vans("CC", 2), "Q1 Q2 W Y1 W Y2 E1"),
        written(beside("DD", &[1, 2], 1), "Q1 Q2 W Y1 W Y2 E1"),
        // The lowest comes first again, so the other one waits on.
        written(vans("DD", 1), "Q1 W N1 Q1 W N1 Q1 W Y1 Q2 W N2 Q2 W Y2 E1"),
        written(vans("DD", 2), "Q1 Q2 W N1 Q1 W N2 Q2 W Y1 W Y2 E1"),
        // A higher one at another desk is taken.
        written(passed_over_request(), "Q1 Q3 W Y3 W Y1 Q2 W Y2 E1"),
        written(passed_over_request(), "Q1 Q3 W Y1 Q2 W Y2 W Y3 E1"),
        written(three_at_desk_8(), "Q1 Q2 W Y2 Q3 W N3 Q3 W Y1 W Y3 E1"),
        // With something lost in the way, nobody is asked, though a desk is open.
        written(passed_over_request(), "Q1 Q3 W N1 W Y3 U3 W G3 O"),
        written(linked(), "Q1 Q2 W Y2 W Y1 Q3 W Y3 E1"),
        full_size(63),
        full_size(64),
        full_size(1),
    ]
}

fn returns() -> Vec<Written> {
    vec![
        // One after the other: the second return is passed over, and rule 3 waits.
        written(passed_over_request(), "Q1 Q3 W Y1 Q2 W Y2 W N3 U1 W G1 U2 W G2 O"),
        // A return that was kept is asked again, before the higher one.
        written(passed_over_request(), "Q1 Q3 W Y1 Q2 W Y2 W N3 U1 W K1 U1 W G1 U2 W K2 U2 W G2 O"),
        // A higher one at another desk is taken.
        written(passed_over_return(), "Q1 Q3 Q4 W Y1 Q2 W Y2 W Y3 W N4 U1 U3 W K1 U1 W G3 W G1 U2 W G2 O"),
        written(passed_over_return(), "Q1 Q3 Q4 W Y1 Q2 W Y2 W Y3 W N4 U1 U3 W K3 U3 W G1 U2 W G2 W G3 O"),
        // Three held, two at a time.
        written(
            beside("CDDC", &[3, 3, 3, 4], 2),
            "Q1 Q2 Q4 W Y1 Q3 W Y2 W Y3 W N4 U1 U2 W G2 U3 W K1 U1 W G3 W G1 O",
        ),
        // Another way is asked for when all is given back, though its desk was open for one more.
        written(two_ways(2), "Q1 Q2 Q3 W Y1 W Y2 W N3 U1 U2 W G1 W G2 Q4 W Y4 E2"),
        written(two_ways(1), "Q1 Q3 W Y1 Q2 W Y2 W N3 U1 W G1 U2 W G2 Q4 W Y4 E2"),
    ]
}

/// Campaigns with all their answers.
pub fn campaigns() -> Vec<Written> {
    [requests(), returns()].into_iter().flatten().collect()
}

/// A state of a sheet that passes, and whether it is sound; what is not sound has
/// a desk above the limit, and nothing else wrong.
pub struct Judged {
    pub plan: Plan,
    pub state: State,
    pub sound: bool,
}

pub fn states() -> Vec<Judged> {
    let three = |limit| beside("CCC", &[1, 1, 2], limit);
    let lost = |limit| beside("CCCC", &[7, 7, 7, 2], limit);
    let (all, odd) = (returnables(64, 0), returnables(64, 0).with_desks(&[8; 64], 63));
    let one_free = [&[1; 64][..], &[0]].concat();
    let states: [(Plan, &[u8], bool); 16] = [
        (vans("DD", 1), &[1, 1], true),
        (vans("DD", 1), &[1, 0, 1], true),
        (vans("DD", 1), &[1, 2, 1], true),
        (vans("DD", 1), &[1, 1, 1], false),
        (vans("DD", 2), &[1, 1, 1], true),
        (three(1), &[1, 1, 0, 1], true),
        (three(1), &[1, 0, 1, 1], true),
        (three(1), &[1, 1, 1, 0], false),
        (three(1), &[1, 1, 1, 2], false),
        (three(2), &[1, 1, 1, 1], true),
        (lost(2), &[0, 4, 4, 2, 3], true),
        (lost(2), &[0, 4, 4, 4, 3], false),
        (lost(3), &[0, 4, 4, 4, 3], true),
        (all, &[1; 65], true),
        (odd.clone(), &[1; 65], false),
        (odd, &one_free, true),
    ];
    states.into_iter().map(|(plan, bytes, sound)| Judged { plan, state: state_of(bytes), sound }).collect()
}

#[cfg(test)]
mod tests {
    use super::*;
    use crate::calls::{self, REFUSED};
    use crate::run::{self, STATE_LENGTH};

    fn sheet(plan: &Plan) -> Vec<u8> {
        plan::write(plan).into_bytes()
    }

    #[test]
    fn sheets_have_the_written_verdicts() {
        for flight in fields().into_iter().chain(passing()) {
            let (refusal, place) = flight.verdict;
            let kind = if refusal == 0 { ACCEPTED } else { REFUSED };
            assert_eq!(calls::check(&flight.sheet), pack(kind, refusal, place), "{}", flight.name);
        }
    }

    #[test]
    fn campaigns_have_the_written_answers() {
        for Written { plan, calls } in campaigns() {
            let sheet = sheet(&plan);
            let mut state = [7; STATE_LENGTH];
            calls::start(&sheet, &mut state);
            for (at, (call, due)) in calls.into_iter().enumerate() {
                let answer = match call {
                    Call::Reply(letter, booking) => calls::reply(&sheet, &mut state, letter, booking),
                    _ => calls::next_order(&sheet, &mut state),
                };
                assert_eq!(answer, due, "call {} on {plan:?}", at + 1);
            }
        }
    }

    #[test]
    fn states_are_sound_or_have_a_desk_above_the_limit() {
        for Judged { plan, state, sound } in states() {
            let network = crate::check::check(plan).unwrap();
            let broken = run::broken_sentences(&network, &state);
            assert_eq!(broken.is_empty(), sound, "{state:?}");
            assert!(sound || broken == [run::ABOVE_THE_LIMIT], "{state:?}");
        }
    }
}
