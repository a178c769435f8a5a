//! Sheets in the form without desks, with what the library answered then, and
//! their conversion to the form with desks.
//!
//! A stored case is a line `sheet` with a name; the sheet's lines after `|`, one
//! without its line feed after `>`; then calls with the answer in sixteens and the
//! state after it: the way, then the codes without the zeros at their end.

use crate::comparison::Call;
use crate::flights::state_of;
use crate::run::State;

const STORED: [&str; 3] = [
    include_str!("../old/flights.txt"),
    include_str!("../old/examples.txt"),
    include_str!("../old/random.txt"),
];

/// A stored call.
#[derive(Clone, Debug, PartialEq, Eq)]
pub enum Made {
    Call(Call),
    Block(Vec<u8>),
    /// From so many bytes of the journal of the calls before, on a state of its own.
    Restart(usize),
}

/// A stored call, its answer and the state after it; check has none.
pub struct Step {
    pub made: Made,
    pub answer: u32,
    pub state: Option<State>,
}

pub struct Old {
    pub name: &'static str,
    pub sheet: Vec<u8>,
    pub steps: Vec<Step>,
}

/// The bytes of a text in which some stand as `\n`, `\t`, `\r`, `\x00` or behind a backslash.
fn unescaped(text: &str) -> Vec<u8> {
    let mut bytes = Vec::new();
    let mut rest = text.bytes();
    while let Some(byte) = rest.next() {
        bytes.push(match byte {
            b'\\' => match rest.next().expect("a byte after the backslash") {
                b'n' => b'\n',
                b'r' => b'\r',
                b't' => b'\t',
                b'x' => {
                    let mut digit = || (rest.next().expect("a digit") as char).to_digit(16).expect("a digit");
                    (16 * digit() + digit()) as u8
                }
                other => other,
            },
            _ => byte,
        });
    }
    bytes
}

fn state_in(text: &str) -> State {
    let (way, codes) = text.split_once(':').expect("a way and codes");
    let codes = codes.bytes().map(|digit| digit - b'0');
    state_of(&[way.parse().expect("a way")].into_iter().chain(codes).collect::<Vec<u8>>())
}

fn made_in(text: &str) -> Made {
    let (name, rest) = text.split_once(' ').unwrap_or((text, ""));
    match name {
        "check" => Made::Call(Call::Check),
        "start" => Made::Call(Call::Start),
        "next" => Made::Call(Call::NextOrder),
        "reply" => Made::Call(Call::Reply(rest.as_bytes()[0], rest[1..].parse().expect("a booking"))),
        "block" => Made::Block(unescaped(rest)),
        "restart" => Made::Restart(rest.parse().expect("a number of bytes")),
        _ => panic!("no stored call: {text}"),
    }
}

fn step_in(line: &str) -> Step {
    let (made, said) = line.rsplit_once(" = ").expect("a call and its answer");
    let (answer, state) = said.split_once(' ').map_or((said, None), |(answer, state)| (answer, Some(state)));
    let answer = u32::from_str_radix(answer, 16).expect("an answer");
    Step { made: made_in(made), answer, state: state.map(state_in) }
}

/// All stored cases.
pub fn cases() -> Vec<Old> {
    let mut cases: Vec<Old> = Vec::new();
    for line in STORED.iter().flat_map(|file| file.lines()) {
        if let Some(name) = line.strip_prefix("sheet ") {
            cases.push(Old { name, sheet: Vec::new(), steps: Vec::new() });
            continue;
        }
        let Some(case) = cases.last_mut() else { continue };
        match line.as_bytes()[0] {
            b'|' => case.sheet.extend([&unescaped(&line[1..])[..], b"\n"].concat()),
            b'>' => case.sheet.extend(unescaped(&line[1..])),
            b'#' => {}
            _ => case.steps.push(step_in(line)),
        }
    }
    cases
}

/// An old sheet in the new form: limit 64 at the end of its first line, desk 1 at
/// the end of each line that begins like a booking's. A line without its line feed
/// stays as it is: it is unfinished in either form. What is wrong with a line of the
/// old form stays wrong with it, and on the same line.
pub fn converted(sheet: &[u8]) -> Vec<u8> {
    let mut text = Vec::new();
    for (at, line) in sheet.split_inclusive(|&byte| byte == b'\n').enumerate() {
        let field: &[u8] = match line {
            _ if at == 0 => b"  64",
            [b'B', ..] => b"   1",
            _ => b"",
        };
        match line.strip_suffix(b"\n") {
            Some(whole) => text.extend([whole, field, b"\n"].concat()),
            None => text.extend(line),
        }
    }
    text
}

#[cfg(test)]
mod tests {
    use super::*;
    use crate::calls::refusal_of;
    use crate::comparison::{Comparison, Second};

    #[test]
    fn stored_answers_and_states_are_those_of_the_second_version() {
        assert_eq!(Comparison::new(&Second, false).old_cases(), Ok(()));
    }

    #[test]
    fn every_refusal_and_every_call_is_stored() {
        let cases = cases();
        let verdict = |case: &Old| refusal_of(case.steps[0].answer);
        assert!((0..=8).all(|refusal| cases.iter().filter(|case| verdict(case) == refusal).count() >= 10));
        let count = |is: fn(&Made) -> bool| {
            cases.iter().flat_map(|case| &case.steps).filter(|step| is(&step.made)).count()
        };
        assert!(count(|made| matches!(made, Made::Call(Call::NextOrder))) > 1000);
        assert!(count(|made| matches!(made, Made::Call(Call::Reply(..)))) > 500);
        assert!(count(|made| matches!(made, Made::Block(_))) > 100);
        assert!(count(|made| matches!(made, Made::Restart(_))) > 100);
    }

    #[test]
    fn sheets_are_converted_line_by_line() {
        let converted = |text: &str| String::from_utf8(converted(text.as_bytes())).unwrap();
        assert_eq!(
            converted("P   1   0   1\nB   1 C\nA   1   1\n"),
            "P   1   0   1  64\nB   1 C   1\nA   1   1\n"
        );
        assert_eq!(converted(""), "");
        assert_eq!(converted("P   1   0   1"), "P   1   0   1");
        assert_eq!(converted("P   1   0   1\nB   1 C"), "P   1   0   1  64\nB   1 C");
        assert_eq!(converted("B   1 C\nX   1 C\n\n"), "B   1 C  64\nX   1 C\n\n");
    }

    #[test]
    fn stored_texts_are_read() {
        assert_eq!(unescaped("a\\nb\\\\\\x00\\xff\\'"), b"a\nb\\\0\xFF'");
        let step = step_in("reply Y12 = 0600000c 2:0124");
        assert_eq!((step.made, step.answer), (Made::Call(Call::Reply(b'Y', 12)), 0x0600_000C));
        assert_eq!(step.state, Some(state_of(&[2, 0, 1, 2, 4])));
        let step = step_in("block Y   1\\n = 06000001 1:2");
        assert_eq!(step.made, Made::Block(b"Y   1\n".to_vec()));
        assert_eq!(step_in("block  = 06000000 1:").made, Made::Block(Vec::new()));
    }
}
