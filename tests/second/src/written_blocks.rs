//! Blocks with their results, all written by hand.

use crate::flights::{chase, lines, plan_of, returnables, state_of, tanker};
use crate::plan::Plan;
use crate::run::State;
use crate::written_desks::{passed_over_request, vans};

/// A block on a sheet that passes and a sound state, and what follows: the
/// refusal (0 if it is taken whole), the place, the state.
pub struct Written {
    pub plan: Plan,
    pub before: State,
    pub text: Vec<u8>,
    pub refusal: u32,
    pub place: u32,
    pub after: State,
}

/// Bytes of a state before and after.
type Change<'a> = (&'a [u8], &'a [u8]);

fn taken(plan: &Plan, words: &str, place: u32, (before, after): Change) -> Written {
    let (before, after) = (state_of(before), state_of(after));
    Written { plan: plan.clone(), before, text: lines(words), refusal: 0, place, after }
}

fn misfit(plan: &Plan, words: &str, line: u32, change: Change) -> Written {
    Written { refusal: 9, ..taken(plan, words, line, change) }
}

/// Three returnables beside each other, in one way.
fn three() -> Plan {
    plan_of("CCC", &[], &[&[1, 2, 3]])
}

/// A pivot with a repeatable, or the repeatable alone.
fn pivot_and_repeatable() -> Plan {
    plan_of("PR", &[], &[&[1, 2], &[2]])
}

fn taken_one_by_one() -> Vec<Written> {
    let tanker = tanker();
    vec![
        taken(&tanker, "", 0, (&[1], &[1])),
        taken(&tanker, "", 0, (&[1, 1], &[1, 1])),
        taken(&tanker, "", 0, (&[0, 4, 3], &[0, 4, 3])),
        taken(&tanker, "Y1", 1, (&[1, 1], &[1, 2])),
        taken(&tanker, "N1", 1, (&[1, 1], &[0, 3])),
        taken(&tanker, "N2", 1, (&[1, 2, 1], &[0, 2, 3])),
        taken(&tanker, "Y3", 1, (&[1, 2, 2, 1], &[1, 2, 2, 2])),
        taken(&tanker, "N3", 1, (&[1, 2, 2, 1], &[2, 2, 2, 3])),
        taken(&tanker, "N4", 1, (&[2, 2, 2, 3, 1], &[2, 2, 2, 3, 0])),
        taken(&tanker, "Y4", 1, (&[2, 2, 2, 3, 1], &[2, 2, 2, 3, 2])),
        taken(&tanker, "K1", 1, (&[0, 4, 3], &[0, 2, 3])),
        taken(&tanker, "G1", 1, (&[0, 4, 3], &[0, 0, 3])),
    ]
}

fn taken_together() -> Vec<Written> {
    let (three, repeatable, chase) = (three(), pivot_and_repeatable(), chase('D'));
    let pivot_and_both = plan_of("PD", &[], &[&[1, 2]]);
    vec![
        taken(&three, "Y1 Y2 Y3", 3, (&[1, 1, 1, 1], &[1, 2, 2, 2])),
        taken(&three, "Y3 Y1 Y2", 3, (&[1, 1, 1, 1], &[1, 2, 2, 2])),
        taken(&three, "Y3 Y1", 2, (&[1, 1, 1, 1], &[1, 2, 1, 2])),
        taken(&three, "N1", 1, (&[1, 1, 1, 1], &[1, 3, 1, 1])),
        taken(&three, "N3 N1", 2, (&[1, 1, 1, 1], &[1, 3, 1, 3])),
        taken(&three, "N1 Y2 Y3", 3, (&[1, 1, 1, 1], &[0, 3, 2, 2])),
        taken(&three, "Y2 N1 N3", 3, (&[1, 1, 1, 1], &[0, 3, 2, 3])),
        taken(&three, "G2 K3", 2, (&[0, 3, 4, 4], &[0, 3, 0, 2])),
        taken(&three, "K3", 1, (&[0, 3, 4, 4], &[0, 3, 4, 2])),
        taken(&repeatable, "N1 N2", 2, (&[1, 1, 1], &[2, 3, 0])),
        taken(&repeatable, "N2 N1", 2, (&[1, 1, 1], &[2, 3, 0])),
        taken(&repeatable, "N1 Y2", 2, (&[1, 1, 1], &[2, 3, 2])),
        taken(&repeatable, "Y1 N2", 2, (&[1, 1, 1], &[1, 2, 0])),
        taken(&pivot_and_both, "N1 Y2", 2, (&[1, 1, 1], &[0, 3, 2])),
        taken(&pivot_and_both, "N2 Y1", 2, (&[1, 1, 1], &[1, 2, 0])),
        taken(&pivot_and_both, "K2", 1, (&[0, 3, 4], &[0, 3, 2])),
        taken(&chase, "N2 N3", 2, (&[1, 2, 1, 1], &[2, 2, 0, 3])),
        taken(&chase, "N3 Y2", 2, (&[1, 2, 1, 1], &[2, 2, 2, 3])),
        taken(&chase, "G2", 1, (&[2, 2, 4, 3], &[2, 2, 0, 3])),
    ]
}

/// A reply that does not fit, before others or after them.
fn misfits() -> Vec<Written> {
    let (tanker, three, chase) = (tanker(), three(), chase('D'));
    vec![
        misfit(&tanker, "Y1", 1, (&[1], &[1])),
        misfit(&tanker, "G1", 1, (&[1, 1], &[1, 1])),
        misfit(&tanker, "K1 Y1", 1, (&[1, 1], &[1, 1])),
        misfit(&tanker, "Y2 Y1", 1, (&[1, 1], &[1, 1])),
        misfit(&tanker, "Y1 Y1", 2, (&[1, 1], &[1, 2])),
        misfit(&tanker, "Y1 N1", 2, (&[1, 1], &[1, 2])),
        misfit(&tanker, "N1 Y1", 2, (&[1, 1], &[0, 3])),
        misfit(&tanker, "Y1 Y2", 2, (&[1, 1], &[1, 2])),
        misfit(&tanker, "Y1", 1, (&[0, 4, 3], &[0, 4, 3])),
        misfit(&tanker, "K1 K1", 2, (&[0, 4, 3], &[0, 2, 3])),
        misfit(&three, "Y1 G2 Y3", 2, (&[1, 1, 1, 1], &[1, 2, 1, 1])),
        misfit(&three, "Y1 Y2 Y3 Y1", 4, (&[1, 1, 1, 1], &[1, 2, 2, 2])),
        misfit(&three, "N1 N2 N3 Y1", 4, (&[1, 1, 1, 1], &[0, 3, 3, 3])),
        misfit(&three, "G2 Y3 G3", 2, (&[0, 3, 4, 4], &[0, 3, 0, 4])),
        misfit(&three, "K3 G3 G2", 2, (&[0, 3, 4, 4], &[0, 3, 4, 2])),
        misfit(&pivot_and_repeatable(), "N2 Y2", 2, (&[1, 1, 1], &[1, 1, 0])),
        misfit(&chase, "N2 Y2", 2, (&[1, 2, 1, 1], &[1, 2, 0, 1])),
        misfit(&chase, "Y2 N3 G2", 3, (&[1, 2, 1, 1], &[2, 2, 2, 3])),
    ]
}

/// Letters that no reply has, orders that would be due among them, and bookings
/// that are not on the sheet.
fn unknown() -> Vec<Written> {
    let (tanker, three) = (tanker(), three());
    vec![
        misfit(&tanker, "Q1", 1, (&[1], &[1])),
        misfit(&tanker, "Q1 Y1", 1, (&[1], &[1])),
        misfit(&tanker, "Y1 Q2", 2, (&[1, 1], &[1, 2])),
        misfit(&tanker, "U1", 1, (&[0, 2, 3], &[0, 2, 3])),
        misfit(&tanker, "K1 U1", 2, (&[0, 4, 3], &[0, 2, 3])),
        misfit(&tanker, "y1", 1, (&[1, 1], &[1, 1])),
        misfit(&tanker, "W0", 1, (&[1, 1], &[1, 1])),
        misfit(&tanker, "E1", 1, (&[1, 1], &[1, 1])),
        misfit(&tanker, "Y0", 1, (&[1, 1], &[1, 1])),
        misfit(&tanker, "Y5", 1, (&[1, 1], &[1, 1])),
        misfit(&tanker, "Y64", 1, (&[1, 1], &[1, 1])),
        misfit(&tanker, "Y65", 1, (&[1, 1], &[1, 1])),
        misfit(&tanker, "Y257", 1, (&[1, 1], &[1, 1])),
        misfit(&tanker, "Y9999", 1, (&[1, 1], &[1, 1])),
        misfit(&three, "Y1 Y4 Y2", 2, (&[1, 1, 1, 1], &[1, 2, 1, 1])),
        misfit(&three, "Y3 N1 Q2 Y2", 3, (&[1, 1, 1, 1], &[1, 3, 1, 2])),
    ]
}

/// A text on the Tanker with booking 1 requested, the bad line and the state after.
type Text<'a> = (&'a [u8], u32, &'a [u8]);

fn text(refusal: u32, (text, place, after): Text) -> Written {
    let (before, after) = (state_of(&[1, 1]), state_of(after));
    Written { plan: tanker(), before, text: text.to_vec(), refusal, place, after }
}

/// The first bad line is not of its form, or unfinished.
fn misformed() -> Vec<Written> {
    let texts: [Text; 24] = [
        (b"Y  01\n", 1, &[1, 1]),
        (b"Y0001\n", 1, &[1, 1]),
        (b"Y1   \n", 1, &[1, 1]),
        (b"Y  1 \n", 1, &[1, 1]),
        (b"Y    \n", 1, &[1, 1]),
        (b"Y  +1\n", 1, &[1, 1]),
        (b"Y\t  1\n", 1, &[1, 1]),
        (b"Y   1 ", 1, &[1, 1]),
        (b"Y   1\r\n", 1, &[1, 1]),
        (b"Y   1\0", 1, &[1, 1]),
        (b"\nY   1\n", 1, &[1, 1]),
        (b"Q  01\n", 1, &[1, 1]),
        (b"?    \n", 1, &[1, 1]),
        (b"?????\n", 1, &[1, 1]),
        (b"Y  01\nG   1\n", 1, &[1, 1]),
        (b"Y", 1, &[1, 1]),
        (b"\n", 1, &[1, 1]),
        (b"Y   1", 1, &[1, 1]),
        (b"Q   1", 1, &[1, 1]),
        (b"Y   1\nY", 2, &[1, 2]),
        (b"Y   1\n\n", 2, &[1, 2]),
        (b"Y   1\nQ   2", 2, &[1, 2]),
        (b"Y   1\nY  02\n", 2, &[1, 2]),
        (b"N   1\nY 1 1\nY   1\n", 2, &[0, 3]),
    ];
    texts.into_iter().map(|one| text(1, one)).collect()
}

/// The first bad line is of its form: any byte may be its letter, and a line
/// behind it may be worse.
fn odd_letters() -> Vec<Written> {
    let texts: [Text; 8] = [
        (b"?   1\n", 1, &[1, 1]),
        (b"\n   1\n", 1, &[1, 1]),
        (b"    1\n", 1, &[1, 1]),
        (b"\0   1\n", 1, &[1, 1]),
        (b"\xFF   1\n", 1, &[1, 1]),
        (b"G   1\nY  01\n", 1, &[1, 1]),
        (b"Y   1\nG   1\nY", 2, &[1, 2]),
        (b"Y   1\nY   1\n\n", 2, &[1, 2]),
    ];
    texts.into_iter().map(|one| text(9, one)).collect()
}

/// Bookings of two digits.
fn two_digits() -> Vec<Written> {
    let plan = returnables(12, 0);
    let requested = [1; 13];
    let mut held = [1; 13];
    (held[10], held[12]) = (2, 2);
    let apart = b"Y  12\nY  10\nN 1 1\n".to_vec();
    vec![
        taken(&plan, "Y12 Y10", 2, (&requested, &held)),
        misfit(&plan, "Y12 Y10 N13 N11", 3, (&requested, &held)),
        Written { text: apart, refusal: 1, ..taken(&plan, "", 3, (&requested, &held)) },
    ]
}

/// As many replies as can fit, and then a line more: all 64 of one letter.
fn full() -> Vec<Written> {
    let all = |letter: char| (1..=64).map(|b| format!("{letter}{b}")).collect::<Vec<_>>().join(" ");
    let state = |way: u8, code: u8| [&[way], &[code; 64][..]].concat();
    let plan = returnables(64, 0);
    let change = (&state(1, 1)[..], &state(1, 2)[..]);
    let refused = (&state(1, 1)[..], &state(0, 3)[..]);
    let after_all = |more: &[u8]| [&lines(&all('Y')), more].concat();
    vec![
        taken(&plan, &all('Y'), 64, change),
        taken(&plan, &all('N'), 64, refused),
        misfit(&plan, &(all('Y') + " Y1"), 65, change),
        misfit(&plan, &(all('Y') + " Y65 Y1"), 65, change),
        Written { text: after_all(b"Y  01\n"), refusal: 1, ..taken(&plan, "", 65, change) },
        Written { text: after_all(b"Y   1"), refusal: 1, ..taken(&plan, "", 65, change) },
    ]
}

/// Replies to desks that are full.
fn at_full_desks() -> Vec<Written> {
    let (one, two, three) = (vans("DD", 1), vans("DD", 2), passed_over_request());
    vec![
        taken(&one, "Y1", 1, (&[1, 1], &[1, 2])),
        taken(&one, "N2", 1, (&[1, 2, 1], &[1, 2, 0])),
        taken(&two, "N2 Y1", 2, (&[1, 1, 1], &[1, 2, 0])),
        taken(&three, "Y3 Y1", 2, (&[1, 1, 0, 1], &[1, 2, 0, 2])),
        taken(&three, "K1", 1, (&[0, 4, 2, 3], &[0, 2, 2, 3])),
        misfit(&one, "Y1 Y2", 2, (&[1, 1], &[1, 2])),
        misfit(&three, "G1 G2", 2, (&[0, 4, 2, 3], &[0, 0, 2, 3])),
    ]
}

pub fn blocks() -> Vec<Written> {
    let taken = [taken_one_by_one(), taken_together(), at_full_desks()].into_iter().flatten();
    let bad = [misfits(), unknown(), misformed(), odd_letters()].into_iter().flatten();
    taken.chain(bad).chain(two_digits()).chain(full()).collect()
}

#[cfg(test)]
mod tests {
    use super::*;
    use crate::calls::{self, pack};
    use crate::flights::{refused_sheets, unsound_states};
    use crate::plan;

    fn sheet(plan: &Plan) -> Vec<u8> {
        plan::write(plan).into_bytes()
    }

    #[test]
    fn blocks_have_the_written_results() {
        assert_eq!(blocks().len(), 113);
        for Written { plan, before, text, refusal, place, after } in blocks() {
            let mut state = before;
            let answer = calls::reply_block(&sheet(&plan), &text, &mut state);
            let kind = if refusal == 0 { 6 } else { 0 };
            assert_eq!((answer, state), (pack(kind, refusal, place), after), "{}", text.escape_ascii());
        }
    }

    #[test]
    fn a_refused_sheet_comes_before_state_and_block() {
        for (name, sheet, (refusal, place)) in refused_sheets() {
            for block in [&b""[..], b"Y   1\n", b"?", b"Y  01\n", b"Q   1\n"] {
                for length in [0, 64, 65, 66] {
                    let mut state = vec![1; length];
                    let answer = calls::reply_block(&sheet, block, &mut state);
                    assert_eq!((answer, state), (pack(0, refusal, place), vec![1; length]), "{name}");
                }
            }
        }
    }

    #[test]
    fn an_unsound_state_comes_before_the_block() {
        let blocks = [&b""[..], b"Y   1\n", b"Y   2\n", b"G   1\nG   4\n", b"?", b"Y  01\n", b"Q   1\n"];
        for unsound in unsound_states() {
            for block in blocks {
                let mut state = unsound.state;
                assert_eq!(calls::reply_block(&sheet(&unsound.plan), block, &mut state), pack(0, 11, 0));
                assert_eq!(state, unsound.state);
            }
        }
        for length in [0, 1, 64, 66, 200] {
            for block in blocks {
                let mut state = [&[1, 1][..], &[0; 200]].concat()[..length].to_vec();
                let before = state.clone();
                assert_eq!(calls::reply_block(&sheet(&tanker()), block, &mut state), pack(0, 11, 0));
                assert_eq!(state, before);
            }
        }
    }

    #[test]
    fn kept_lines_by_the_answer() {
        let answers = [(pack(6, 0, 0), 0), (pack(6, 0, 64), 64), (pack(0, 1, 1), 0), (pack(0, 1, 3), 2)];
        let refused = [(pack(0, 9, 1), 0), (pack(0, 9, 65), 64), (pack(0, 11, 0), 0), (pack(0, 8, 257), 0)];
        for (answer, kept) in answers.into_iter().chain(refused) {
            assert_eq!(calls::kept_of(answer), kept, "{answer:#010x}");
        }
    }
}
