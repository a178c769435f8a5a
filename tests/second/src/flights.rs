//! Named sheets with their verdicts, states that break one sentence each, and
//! journals with what follows from them.

use crate::plan::{self, Kind, Plan};
use crate::run::{self, State, STATE_LENGTH};
use crate::written_desks::{self, passed_over_request, vans};

/// A plan from its kinds as letters, its links and its ways, all at desk 1 with limit 64.
pub fn plan_of(kinds: &str, links: &[(usize, usize)], ways: &[&[usize]]) -> Plan {
    let kinds = kinds.bytes().map(|letter| Kind::of_letter(letter).unwrap()).collect();
    Plan::at_one_desk(kinds, links.to_vec(), ways.iter().map(|way| way.to_vec()).collect())
}

/// A sheet and what check says of it: refusal and place, or (0, 0) if it passes.
pub struct Flight {
    pub name: &'static str,
    pub sheet: Vec<u8>,
    pub verdict: (u32, u32),
}

fn flight(name: &'static str, plan: Plan, verdict: (u32, u32)) -> Flight {
    Flight { name, sheet: plan::write(&plan).into_bytes(), verdict }
}

pub fn tanker() -> Plan {
    plan_of("CPCR", &[(1, 2), (2, 3), (2, 4)], &[&[1, 2, 3], &[1, 2, 4]])
}

/// 1 range slot, 2 chase aircraft of this kind, 3 tanker; or 1 and 4 a van.
pub fn chase(kind: char) -> Plan {
    plan_of(&format!("C{kind}PC"), &[(1, 3)], &[&[1, 2, 3], &[1, 4]])
}

/// Bookings that are all requested at once: one pivot among those that repeat and return; all
/// that can be lost, in two ways; all kinds but the pivot, with a refuge of repeatables.
pub fn wide() -> Vec<Plan> {
    vec![
        plan_of("DPDDD", &[], &[&[1, 2, 3, 4, 5]]),
        plan_of("CCDC", &[], &[&[1, 2, 3], &[3, 4]]),
        plan_of("CDRR", &[], &[&[1, 2, 3, 4], &[3, 4]]),
    ]
}

/// Two pivots in a row with choices after each, and a way without either.
pub fn middle_sized() -> Plan {
    plan_of(
        "CCPCCPCRRCRC",
        &[(1, 3), (2, 3), (3, 4), (3, 5), (3, 10), (3, 11), (4, 6), (5, 6), (6, 7), (6, 8), (8, 9)],
        &[&[1, 2, 3, 4, 5, 6, 7], &[1, 2, 3, 4, 5, 6, 8, 9], &[1, 2, 3, 10], &[1, 2, 3, 11], &[1, 12]],
    )
}

/// The named sheets, small enough to be damaged at every byte.
pub fn named() -> Vec<Flight> {
    let at_one_desk = [
        flight("tanker", tanker(), (0, 0)),
        flight("tanker without refuge", plan_of("CPC", &[(1, 2), (2, 3)], &[&[1, 2, 3]]), (8, 259)),
        flight("two pivots", plan_of("PP", &[], &[&[1, 2]]), (8, 257)),
        flight("pivot and repeatable", plan_of("PR", &[], &[&[1, 2], &[2]]), (0, 0)),
        flight("other order of ways", plan_of("PR", &[], &[&[2], &[1, 2]]), (8, 513)),
        flight("circle", plan_of("CC", &[(1, 2), (2, 1)], &[&[1, 2]]), (4, 1)),
        flight("link to itself", plan_of("CC", &[(2, 2)], &[&[1, 2]]), (4, 2)),
        flight("unclosed way", plan_of("CC", &[(1, 2)], &[&[1, 2], &[2]]), (5, 2)),
        flight("unused booking", plan_of("CCC", &[], &[&[1], &[3]]), (6, 2)),
        flight("repeated way", plan_of("CC", &[], &[&[1, 2], &[1], &[1, 2]]), (7, 3)),
        flight("one returnable", plan_of("C", &[], &[&[1]]), (0, 0)),
        flight("two returnables", plan_of("CC", &[], &[&[1, 2]]), (0, 0)),
        flight("pivot and repeatable, no other way", plan_of("PR", &[], &[&[1, 2]]), (8, 257)),
        flight("pivot and one that repeats and returns", plan_of("PD", &[], &[&[1, 2]]), (0, 0)),
        flight("chase that can be returned", chase('D'), (0, 0)),
        flight("chase that can't be returned", chase('R'), (8, 257)),
        flight("chase that may be lost", chase('C'), (8, 258)),
        flight("two repeatables", plan_of("RR", &[], &[&[1], &[2]]), (0, 0)),
        flight("middle-sized", middle_sized(), (0, 0)),
    ];
    at_one_desk.into_iter().chain(written_desks::passing()).collect()
}

/// n bookings C in one way, and the first m links that rise.
pub fn returnables(n: usize, m: usize) -> Plan {
    let pairs = (1..=n).flat_map(|u| (u + 1..=n).map(move |v| (u, v)));
    let everything: Vec<usize> = (1..=n).collect();
    plan_of(&"C".repeat(n), &pairs.take(m).collect::<Vec<_>>(), &[&everything])
}

/// a ways, each with a booking of its own.
fn separate_ways(a: usize) -> Plan {
    let n = a.max(1);
    let mut plan = returnables(n, 0);
    plan.ways = (1..=a).map(|booking| vec![booking]).collect();
    plan
}

/// One chain of links through all 64 bookings, a repeatable at its end.
fn chain(rising: bool) -> Plan {
    let returnables = "C".repeat(63);
    let everything: Vec<usize> = (1..=64).collect();
    let (kinds, links): (String, Vec<(usize, usize)>) = if rising {
        (returnables + "R", (1..64).map(|b| (b, b + 1)).collect())
    } else {
        ("R".to_string() + &returnables, (2..=64).map(|b| (b, b - 1)).collect())
    };
    plan_of(&kinds, &links, &[&everything])
}

/// The chain closed to a circle.
fn longest_circle() -> Plan {
    let mut plan = chain(true);
    plan.links.push((64, 1));
    plan
}

fn last_circle() -> Plan {
    let mut plan = returnables(64, 0);
    plan.links = vec![(62, 63), (63, 64), (64, 63)];
    plan
}

/// As many links as there can be, and only the last one closes a circle.
fn last_link_closes() -> Plan {
    let mut plan = returnables(64, 511);
    plan.links.push((64, 1));
    plan
}

/// Ways of one returnable each, then these ways of further bookings.
fn late_ways(returnables: usize, kinds: &str, last: &[&[usize]]) -> Plan {
    let single: Vec<Vec<usize>> = (1..=returnables).map(|booking| vec![booking]).collect();
    let ways: Vec<&[usize]> = single.iter().map(Vec::as_slice).chain(last.iter().copied()).collect();
    plan_of(&("C".repeat(returnables) + kinds), &[], &ways)
}

/// As many bookings, links and ways as there can be, and every way full.
pub fn longest() -> Plan {
    let mut plan = returnables(plan::MOST_BOOKINGS, plan::MOST_LINKS);
    plan.ways = vec![plan.ways[0].clone(); plan::MOST_WAYS];
    plan
}

/// Each limit, reached and passed.
pub fn boundaries() -> Vec<Flight> {
    let mut overlong = flight("a byte after the longest sheet", longest(), (1, 594));
    overlong.sheet.push(b'\n');
    let counts = [
        Flight { name: "empty sheet", sheet: Vec::new(), verdict: (1, 1) },
        flight("64 bookings", returnables(64, 0), (0, 0)),
        flight("65 bookings", returnables(65, 0), (2, 1)),
        flight("no booking", returnables(0, 0), (2, 1)),
        flight("512 links", returnables(64, 512), (0, 0)),
        flight("513 links", returnables(64, 513), (2, 1)),
        flight("16 ways", separate_ways(16), (0, 0)),
        flight("17 ways", separate_ways(17), (2, 1)),
        flight("no way", separate_ways(0), (2, 1)),
        flight("longest chain", chain(true), (0, 0)),
        flight("longest chain falling", chain(false), (0, 0)),
        flight("longest circle", longest_circle(), (4, 1)),
        flight("circle of the last two", last_circle(), (4, 63)),
        flight("512th link closes a circle", last_link_closes(), (4, 1)),
        flight("way 16 strands", late_ways(15, "PP", &[&[16, 17]]), (8, 16 * 256 + 16)),
        flight("way 15 strands", late_ways(14, "PPC", &[&[15, 16], &[17]]), (8, 15 * 256 + 15)),
        flight("way 16 is the refuge", late_ways(14, "PR", &[&[15, 16], &[16]]), (0, 0)),
        flight("longest sheet", longest(), (7, 2)),
        overlong,
    ];
    counts.into_iter().chain(written_desks::fields()).chain(blanks()).collect()
}

/// A sheet with a field left blank, each in turn: its line is not of its form. In one of them the
/// blank would stand for no links.
fn blanks() -> Vec<Flight> {
    let lines = [
        "P   2   1   2  64\n",
        "B   1 C   1\n",
        "B   2 D   1\n",
        "L   1   2\n",
        "A   1   1\n",
        "A   2   1   2\n",
    ];
    let blanks = [
        (1, "P       1   2  64\n"),
        (1, "P   2       2  64\n"),
        (1, "P   2   1      64\n"),
        (1, "P   2   1   2    \n"),
        (1, "P                \n"),
        (2, "B     C   1\n"),
        (2, "B   1 C    \n"),
        (3, "B     D   1\n"),
        (3, "B   2 D    \n"),
        (4, "L       2\n"),
        (4, "L   1    \n"),
        (5, "A       1\n"),
        (5, "A   1    \n"),
        (6, "A       1   2\n"),
        (6, "A   2       2\n"),
        (6, "A   2   1    \n"),
    ];
    let blank = |(line, text): (usize, &str)| {
        let mut lines = lines;
        lines[line - 1] = text;
        Flight { name: "a blank field", sheet: lines.concat().into_bytes(), verdict: (1, line as u32) }
    };
    let no_links = b"P   1       1  64\nB   1 C   1\nA   1   1\n".to_vec();
    let no_links = Flight { name: "a blank for no links", sheet: no_links, verdict: (1, 1) };
    blanks.map(blank).into_iter().chain([no_links]).collect()
}

/// A state that breaks one sentence of soundness and no other.
pub struct Unsound {
    pub plan: Plan,
    pub state: State,
    pub sentence: &'static str,
}

/// A state from its first bytes.
pub fn state_of(bytes: &[u8]) -> State {
    let mut state = [0; STATE_LENGTH];
    state[..bytes.len()].copy_from_slice(bytes);
    state
}

fn unsound(plan: Plan, bytes: &[u8], sentence: &'static str) -> Unsound {
    Unsound { plan, state: state_of(bytes), sentence }
}

pub fn unsound_states() -> Vec<Unsound> {
    let two_choices = || plan_of("CCC", &[], &[&[1, 2], &[3]]);
    let linked = || plan_of("CCC", &[(1, 2)], &[&[1, 2, 3]]);
    let repeatables = || plan_of("RR", &[], &[&[1], &[2]]);
    let mut last_byte = unsound(tanker(), &[1], "bytes past the bookings are zero");
    last_byte.state[64] = 3;
    let above = written_desks::states().into_iter().filter(|judged| !judged.sound);
    let above = above.map(|judged| unsound(judged.plan, &judged.state, run::ABOVE_THE_LIMIT));
    let others = [
        unsound(tanker(), &[1, 5], "codes exist"),
        unsound(tanker(), &[1, 0, 0, 0, 255], "codes exist"),
        unsound(tanker(), &[3, 3], "current way exists"),
        unsound(tanker(), &[255, 3], "current way exists"),
        unsound(tanker(), &[1, 0, 0, 0, 0, 1], "bytes past the bookings are zero"),
        last_byte,
        unsound(tanker(), &[1, 0, 1], "requested, held, returning stand on held"),
        unsound(tanker(), &[1, 0, 2], "requested, held, returning stand on held"),
        unsound(tanker(), &[0, 0, 3, 4], "requested, held, returning stand on held"),
        unsound(tanker(), &[1, 0, 0, 0, 3], "lost are exposed"),
        unsound(chase('D'), &[1, 1, 3], "lost are exposed"),
        unsound(tanker(), &[1, 2, 2, 0, 1], "requested are in the current way"),
        unsound(tanker(), &[1, 2, 2, 0, 4], "returning are returnable"),
        unsound(tanker(), &[1, 4], "returning are outside the current way"),
        unsound(chase('D'), &[1, 2, 4], "returning are outside the current way"),
        unsound(two_choices(), &[2, 3, 2, 1], "nothing requested while clearing"),
        unsound(two_choices(), &[2, 3, 4, 1], "nothing requested while clearing"),
        unsound(tanker(), &[2], "earlier ways are not live"),
        unsound(tanker(), &[0], "earlier ways are not live"),
        unsound(tanker(), &[1, 2, 2, 0, 2], "held firm are in the current way"),
        unsound(repeatables(), &[0, 2, 2], "held firm are in the current way"),
        unsound(linked(), &[1, 0, 3, 1], "lost in the current way stand on held"),
        unsound(tanker(), &[1, 3], "lost in the current way means requested"),
    ];
    others.into_iter().chain(above).collect()
}

/// A sheet for each refusal, 1 to 8, with its verdict.
pub fn refused_sheets() -> Vec<(&'static str, Vec<u8>, (u32, u32))> {
    let refused = named().into_iter().chain(boundaries()).filter(|flight| flight.verdict != (0, 0));
    let mut sheets: Vec<_> = refused.map(|flight| (flight.name, flight.sheet, flight.verdict)).collect();
    let out_of_sequence = b"P   1   0   1  64\nB   2 C   1\nA   1   1\n";
    sheets.push(("number out of sequence", out_of_sequence.to_vec(), (3, 2)));
    sheets
}

/// A journal and what restart makes of it: the state, or the first wrong line.
pub struct Journal {
    pub plan: Plan,
    pub text: Vec<u8>,
    pub result: Result<State, u32>,
}

/// The lines of words like Q1 or Y12.
pub fn lines(words: &str) -> Vec<u8> {
    let line = |word: &str| format!("{}{:>4}\n", &word[..1], &word[1..]);
    words.split_whitespace().flat_map(|word| line(word).into_bytes()).collect()
}

fn right(plan: &Plan, words: &str, state: &[u8]) -> Journal {
    Journal { plan: plan.clone(), text: lines(words), result: Ok(state_of(state)) }
}

fn wrong(plan: &Plan, words: &str, line: u32) -> Journal {
    Journal { plan: plan.clone(), text: lines(words), result: Err(line) }
}

/// Journals from the start on, each going on where the one above it ends: the
/// new words, and the first bytes of the state after them.
fn step_by_step(plan: &Plan, steps: &[(&str, &[u8])]) -> Vec<Journal> {
    let upto = |last: usize| steps[..=last].iter().map(|step| step.0).collect::<Vec<_>>().join(" ");
    (0..steps.len()).map(|last| right(plan, &upto(last), steps[last].1)).collect()
}

/// The Tanker's drill; its tanker refused, and a return kept; a pivot refused
/// while a request is open; a chase aircraft that repeats and returns; a full desk.
fn right_journals() -> Vec<Journal> {
    let drill: [(&str, &[u8]); 11] = [
        ("", &[1, 0, 0, 0, 0]),
        ("Q1", &[1, 1, 0, 0, 0]),
        ("Y1", &[1, 2, 0, 0, 0]),
        ("Q2", &[1, 2, 1, 0, 0]),
        ("Y2", &[1, 2, 2, 0, 0]),
        ("Q3", &[1, 2, 2, 1, 0]),
        ("N3", &[2, 2, 2, 3, 0]),
        ("Q4", &[2, 2, 2, 3, 1]),
        ("N4", &[2, 2, 2, 3, 0]),
        ("Q4", &[2, 2, 2, 3, 1]),
        ("Y4", &[2, 2, 2, 3, 2]),
    ];
    let refused_tanker: [(&str, &[u8]); 4] =
        [("Q1 Y1 Q2 N2", &[0, 2, 3]), ("U1", &[0, 4, 3]), ("K1", &[0, 2, 3]), ("U1 G1", &[0, 0, 3])];
    let open_request: [(&str, &[u8]); 5] = [
        ("Q1 Q2", &[1, 1, 1]),
        ("N1", &[1, 3, 1]),
        ("N2", &[2, 3, 0]),
        ("Q2", &[2, 3, 1]),
        ("Y2", &[2, 3, 2]),
    ];
    let chase_back: [(&str, &[u8]); 9] = [
        ("Q1 Q2", &[1, 1, 1]),
        ("N2", &[1, 1, 0]),
        ("Q2 Y1", &[1, 2, 1]),
        ("Q3", &[1, 2, 1, 1]),
        ("Y2 N3", &[2, 2, 2, 3]),
        ("U2", &[2, 2, 4, 3]),
        ("K2 U2 G2", &[2, 2, 0, 3]),
        ("Q4", &[2, 2, 0, 3, 1]),
        ("Y4", &[2, 2, 0, 3, 2]),
    ];
    let vans_in_turn: [(&str, &[u8]); 4] =
        [("Q1", &[1, 1]), ("N1 Q1 Y1", &[1, 2]), ("Q2", &[1, 2, 1]), ("Y2", &[1, 2, 2])];
    let returned_in_turn: [(&str, &[u8]); 4] = [
        ("Q1 Q3", &[1, 1, 0, 1]),
        ("Y1 Q2 Y2", &[1, 2, 2, 1]),
        ("N3 U1 K1 U1", &[0, 4, 2, 3]),
        ("G1 U2", &[0, 0, 4, 3]),
    ];
    let pivot_and_repeatable = plan_of("PR", &[], &[&[1, 2], &[2]]);
    let mut journals = step_by_step(&tanker(), &drill);
    journals.extend(step_by_step(&tanker(), &refused_tanker));
    journals.extend(step_by_step(&pivot_and_repeatable, &open_request));
    journals.extend(step_by_step(&chase('D'), &chase_back));
    journals.extend(step_by_step(&vans("DD", 1), &vans_in_turn));
    journals.extend(step_by_step(&vans("DD", 2), &[("Q1 Q2", &[1, 1, 1])]));
    journals.extend(step_by_step(&passed_over_request(), &returned_in_turn));
    journals
}

/// Orders that were not due, replies that do not fit, lines of other letters.
fn wrong_journals() -> Vec<Journal> {
    let (tanker, chase) = (tanker(), chase('D'));
    vec![
        wrong(&tanker, "Q2", 1),
        wrong(&tanker, "U1", 1),
        wrong(&tanker, "Y1", 1),
        wrong(&tanker, "Q0", 1),
        wrong(&tanker, "Q5", 1),
        wrong(&tanker, "Q65", 1),
        wrong(&tanker, "Q257", 1),
        wrong(&tanker, "q1", 1),
        wrong(&tanker, "W0", 1),
        wrong(&tanker, "Q1 W0 Y1", 2),
        wrong(&tanker, "Q1 Q1", 2),
        wrong(&tanker, "Q1 Q2", 2),
        wrong(&tanker, "Q1 G1", 2),
        wrong(&tanker, "Q1 y1", 2),
        wrong(&tanker, "Q1 Y2 Y1", 2),
        wrong(&tanker, "Q1 Y1 Y1", 3),
        wrong(&tanker, "Q1 N1 Q1", 3),
        wrong(&tanker, "Q1 N1 O0", 3),
        wrong(&tanker, "Q1 Y1 Q2 N2 U1 Y1", 6),
        wrong(&tanker, "Q1 Y1 Q2 Y2 Q3 N3 Q3", 7),
        wrong(&tanker, "Q1 Y1 Q2 Y2 Q3 N3 U1", 7),
        wrong(&tanker, "Q1 Y1 Q2 Y2 Q3 N3 Q4 N4 Q4 Y4 E2", 11),
        wrong(&tanker, "Q1 Y1 Q2 Y2 Q3 N3 Q4 N4 Q4 Y4 Q3", 11),
        wrong(&tanker, "Q1 Y1 Q2 Y2 Q3 N3 Q4 N4 N4 Y4", 9),
        wrong(&chase, "Q1 Y1 Q3", 3),
        wrong(&chase, "Q1 Q2 Y1 Q3 Y2 N3 Q4", 7),
        wrong(&chase, "Q1 Q2 Y1 Q3 Y2 N3 U1", 7),
        wrong(&plan_of("PR", &[], &[&[1, 2], &[2]]), "Q1 Q2 N1 Q2", 4),
        wrong(&plan_of("CCC", &[], &[&[1, 2, 3]]), "Q1 Q2 Q3 Y1 Y2 N3 U2", 7),
        wrong(&plan_of("CCC", &[(1, 2)], &[&[1, 2, 3]]), "Q1 Q3 Y1 Q2 Y2 N3 U1", 7),
        wrong(&vans("DD", 1), "Q1 Q2", 2),
        wrong(&vans("DD", 2), "Q1 Y1 Q2 Q2", 4),
        wrong(&passed_over_request(), "Q1 Q2", 2),
        wrong(&passed_over_request(), "Q1 Q3 Y1 Q2 Y2 N3 U1 U2", 8),
        wrong(&passed_over_request(), "Q1 Q3 Y1 Q2 Y2 N3 U2", 7),
    ]
}

/// Tails of one to five bytes, which are never looked at.
fn journals_with_tails() -> Vec<Journal> {
    let tails: [(&[u8], &[u8]); 6] = [
        (b"Q", &[1]),
        (b"Q   1", &[1]),
        (b"?????", &[1]),
        (b"Q   1\nY   ", &[1, 1]),
        (b"Q   1\nQ   2", &[1, 1]),
        (b"Q   1\nY   1\n\n", &[1, 2]),
    ];
    let journal = |(text, state): (&[u8], &[u8])| Journal {
        plan: tanker(),
        text: text.to_vec(),
        result: Ok(state_of(state)),
    };
    tails.into_iter().map(journal).collect()
}

/// Lines that are not of their form.
fn misformed_journals() -> Vec<Journal> {
    let wrong: [(&[u8], u32); 13] = [
        (b"Q  01\n", 1),
        (b"Q0001\n", 1),
        (b"Q1   \n", 1),
        (b"Q  1 \n", 1),
        (b"Q    \n", 1),
        (b"Q  +1\n", 1),
        (b"Q   1 ", 1),
        (b"Q   1\r", 1),
        (b"\nQ   1\n", 1),
        (b"Q   1\n\nY   1\n", 2),
        (b"Q   1\nY   1 \n", 2),
        (b"Q   1\nY 1 1\n", 2),
        (b"Q   1\nY   1\nQ  02\nY   2\n", 3),
    ];
    let journal =
        |(text, line): (&[u8], u32)| Journal { plan: tanker(), text: text.to_vec(), result: Err(line) };
    wrong.into_iter().map(journal).chain([number_with_a_blank()]).collect()
}

/// The request of booking 10 is due where a 1 and a 0 stand apart.
fn number_with_a_blank() -> Journal {
    let text = [&lines("Q1 Q2 Q3 Q4 Q5 Q6 Q7 Q8 Q9")[..], b"Q 1 0\n"].concat();
    Journal { plan: returnables(12, 0), text, result: Err(10) }
}

pub fn journals() -> Vec<Journal> {
    [right_journals(), journals_with_tails(), wrong_journals(), misformed_journals()]
        .into_iter()
        .flatten()
        .collect()
}

#[cfg(test)]
mod tests {
    use super::*;
    use crate::calls::{self, *};
    use crate::drill::drill;

    const TANKER_PRINTS: &str =
        "Q   1\nW   0\nQ   2\nW   0\nQ   3\nW   0\nQ   4\nW   0\nQ   4\nW   0\nE   2\n";

    fn sheet(plan: &Plan) -> Vec<u8> {
        plan::write(plan).into_bytes()
    }

    #[test]
    fn verdicts_of_named_sheets_and_boundaries() {
        for flight in named().iter().chain(&boundaries()) {
            let kind = if flight.verdict == (0, 0) { ACCEPTED } else { REFUSED };
            let (refusal, place) = flight.verdict;
            assert_eq!(calls::check(&flight.sheet), pack(kind, refusal, place), "{}", flight.name);
        }
        assert_eq!(sheet(&longest()).len(), plan::LONGEST_SHEET);
    }

    #[test]
    fn tanker_prints_in_full() {
        let printed = drill(&sheet(&tanker()), b"Y   1\nY   2\nN   3\nN   4\nY   4\n");
        assert_eq!(printed, TANKER_PRINTS);
    }

    /// Plays replies after taking orders to the first wait; gives all answers.
    fn answers(plan: &Plan, replies: &[(u8, u32)]) -> Vec<u32> {
        let sheet = sheet(plan);
        let mut state = [7; STATE_LENGTH];
        let mut given = vec![calls::start(&sheet, &mut state)];
        let orders = |given: &mut Vec<u32>, state: &mut State| loop {
            given.push(calls::next_order(&sheet, state));
            if ![REQUEST, RETURN].contains(&kind_of(*given.last().unwrap())) {
                break;
            }
        };
        orders(&mut given, &mut state);
        for &(letter, booking) in replies {
            given.push(calls::reply(&sheet, &mut state, letter, booking));
            orders(&mut given, &mut state);
        }
        given
    }

    const STARTED: u32 = 6 << 24;
    const WAITS: u32 = 3 << 24;
    const OFF: u32 = 5 << 24;

    #[test]
    fn one_returnable_refused_is_called_off() {
        let given = answers(&plan_of("C", &[], &[&[1]]), &[(b'N', 1)]);
        assert_eq!(given, [STARTED, pack(1, 0, 1), WAITS, pack(6, 0, 1), OFF]);
    }

    #[test]
    fn a_kept_return_is_ordered_again() {
        let plan = plan_of("CC", &[], &[&[1, 2]]);
        let given = answers(&plan, &[(b'Y', 1), (b'N', 2), (b'K', 1), (b'G', 1)]);
        let (one, two) = (pack(6, 0, 1), pack(6, 0, 2));
        let back = pack(2, 0, 1);
        let requests = [STARTED, pack(1, 0, 1), pack(1, 0, 2), WAITS];
        let replies = [one, WAITS, two, back, WAITS, one, back, WAITS, one, OFF];
        assert_eq!(given, [&requests[..], &replies[..]].concat());
    }

    #[test]
    fn replies_that_do_not_fit() {
        let sheet = sheet(&tanker());
        let mut state = run::start();
        calls::next_order(&sheet, &mut state);
        let before = state;
        for (letter, booking, place) in [
            (b'G', 1, 1),
            (b'Y', 2, 2),
            (b'Y', 0, 0),
            (b'y', 1, 1),
            (b'Y', 5, 5),
            (b'Y', 64, 64),
            (b'Y', 65, 0),
            (b'Y', u32::MAX, 0),
            (b'Y', 257, 0),
        ] {
            assert_eq!(calls::reply(&sheet, &mut state, letter, booking), pack(0, 9, place));
            assert_eq!(state, before);
        }
    }

    #[test]
    fn refusals_come_in_order() {
        let (good, bad) = (sheet(&tanker()), sheet(&plan_of("PP", &[], &[&[1, 2]])));
        for length in [0, 1, 64, 66, 200] {
            let mut state = vec![1; length];
            assert_eq!(calls::start(&good, &mut state), pack(0, 11, 0));
            assert_eq!(calls::next_order(&good, &mut state), pack(0, 11, 0));
            assert_eq!(calls::reply(&good, &mut state, b'?', 99), pack(0, 11, 0));
            assert_eq!(calls::start(&bad, &mut state), pack(0, 8, 257));
            assert_eq!(calls::reply(&bad, &mut state, b'?', 99), pack(0, 8, 257));
            assert_eq!(state, vec![1; length]);
        }
    }

    #[test]
    fn each_unsound_state_breaks_its_own_sentence() {
        for case in unsound_states() {
            let network = crate::check::check(case.plan).unwrap();
            assert_eq!(run::broken_sentences(&network, &case.state), [case.sentence]);
        }
        for (sentence, _) in run::SENTENCES {
            assert!(unsound_states().iter().any(|case| case.sentence == sentence));
        }
    }

    #[test]
    fn a_returning_booking_may_be_of_two_kinds() {
        let plan = plan_of("CCDPR", &[], &[&[1], &[2, 3], &[3, 4], &[5]]);
        let network = crate::check::check(plan).unwrap();
        for (booking, sound) in [(2, true), (3, true), (4, false), (5, false)] {
            let mut state = state_of(&[1]);
            state[booking] = run::RETURNING;
            assert_eq!(run::is_sound(&network, &state), sound, "booking {booking}");
        }
    }

    #[test]
    fn one_that_repeats_and_returns() {
        let plan = plan_of("PD", &[], &[&[1, 2]]);
        let (one, two) = (pack(6, 0, 1), pack(6, 0, 2));
        let requests = [STARTED, pack(1, 0, 1), pack(1, 0, 2), WAITS];
        let flown = answers(&plan, &[(b'N', 2), (b'Y', 1), (b'Y', 2)]);
        let replies = [two, pack(1, 0, 2), WAITS, one, WAITS, two, pack(4, 0, 1)];
        assert_eq!(flown, [&requests[..], &replies[..]].concat());
        let off = answers(&plan, &[(b'Y', 2), (b'N', 1), (b'K', 2), (b'G', 2)]);
        let back = pack(2, 0, 2);
        let replies = [two, WAITS, one, back, WAITS, two, back, WAITS, two, OFF];
        assert_eq!(off, [&requests[..], &replies[..]].concat());
    }

    #[test]
    fn drill_of_refused_sheets_and_replies() {
        let sheet = sheet(&tanker());
        assert_eq!(drill(b"", b"Y   1\n"), "X   1     1\n");
        assert_eq!(drill(&sheet, b""), "Q   1\nW   0\n");
        assert_eq!(
            drill(&sheet, b"?   1\nG   1\nY9999\n"),
            "Q   1\nW   0\nX   9     1\nX   9     1\nX   9     0\n"
        );
        assert_eq!(
            drill(&sheet, b"\n   1\nY   2\nY   1\nY  02\n"),
            "Q   1\nW   0\nX   9     1\nX   9     2\nQ   2\nW   0\nX   1     4\n"
        );
        assert_eq!(drill(&sheet, b"Y   1"), "Q   1\nW   0\nX   1     1\n");
        let unlinked = plan::write(&plan_of("PP", &[], &[&[1, 2]]));
        assert_eq!(drill(unlinked.as_bytes(), b"Y   1\n"), "X   8   257\n");
    }

    #[test]
    fn journals_have_the_written_results() {
        for Journal { plan, text, result } in journals() {
            let mut state = [9; STATE_LENGTH];
            let answer = calls::restart(&sheet(&plan), &text, &mut state);
            let told = text.escape_ascii();
            match result {
                Ok(due) => assert_eq!((answer, state), (pack(ACCEPTED, 0, 0), due), "{told}"),
                Err(line) => assert_eq!((answer, state), (pack(REFUSED, 12, line), [9; 65]), "{told}"),
            }
        }
    }

    #[test]
    fn restart_judges_sheet_then_length_then_journal() {
        let (good, bad) = (sheet(&tanker()), sheet(&plan_of("PP", &[], &[&[1, 2]])));
        for length in [0, 1, 64, 66, 200] {
            for journal in [&b""[..], b"Q   1\n", b"Y   1\n", b"Q  "] {
                let mut state = vec![1; length];
                assert_eq!(calls::restart(&bad, journal, &mut state), pack(0, 8, 257));
                assert_eq!(calls::restart(&good, journal, &mut state), pack(0, 11, 0));
                assert_eq!(state, vec![1; length]);
            }
        }
    }

    #[test]
    fn each_refusal_of_a_sheet_comes_before_the_journal() {
        for (name, sheet, (refusal, place)) in refused_sheets() {
            for journal in [&b""[..], b"Y   1\n"] {
                assert_eq!(calls::restart(&sheet, journal, &mut [1; 65]), pack(0, refusal, place), "{name}");
            }
        }
        assert!((1..=8).all(|refusal| refused_sheets().iter().any(|(_, _, verdict)| verdict.0 == refusal)));
    }

    #[test]
    fn a_wrong_line_beyond_65535_is_65535() {
        let sheet = sheet(&plan_of("R", &[], &[&[1]]));
        for (lines, place) in [(65_534, 65_534), (65_535, 65_535), (65_536, 65_535), (70_000, 65_535)] {
            let mut journal = b"Q   1\nN   1\n".repeat(35_000);
            journal[lines * 6 - 6] = b'?';
            assert_eq!(calls::restart(&sheet, &journal, &mut [1; 65]), pack(0, 12, place));
        }
    }

    #[test]
    fn journal_lines_in_full() {
        let write = |letter, booking| {
            let mut line = *b"abcdefgh";
            (calls::journal_line(letter, booking, &mut line), line)
        };
        assert_eq!(write(b'Q', 1), (pack(6, 0, 6), *b"Q   1\ngh"));
        assert_eq!(write(b'U', 64), (pack(6, 0, 6), *b"U  64\ngh"));
        assert_eq!(write(b'K', 10), (pack(6, 0, 6), *b"K  10\ngh"));
        for (letter, booking, place) in
            [(b'q', 1, 1), (b'W', 0, 0), (b'Q', 0, 0), (b'Y', 65, 0), (b'E', 64, 64), (b'N', 257, 0)]
        {
            assert_eq!(write(letter, booking), (pack(0, 9, place), *b"abcdefgh"));
            assert_eq!(calls::journal_line(letter, booking, &mut []), pack(0, 9, place));
        }
        let mut short = *b"abcde";
        assert_eq!(calls::journal_line(b'Q', 1, &mut short), pack(0, 10, 0));
        assert_eq!(short, *b"abcde");
    }
}
