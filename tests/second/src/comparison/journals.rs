//! Journals for restart: those of campaigns, whole, cut and damaged; others
//! that no campaign wrote; and what is judged before any journal.

use super::damage::{damages, Damage};
use super::lent::Lent;
use super::record::Record;
use super::walks::Walk;
use super::{Case, Comparison, Outcome};
use crate::calls::{kind_of, pack, place_of, refusal_of, ACCEPTED, REFUSED};
use crate::check::Network;
use crate::dice::Dice;
use crate::flights;
use crate::journal::{self, LETTERS, LINE_LENGTH};
use crate::plan::{self, Plan};
use crate::run::{self, Order, State};

/// Behind a journal stands what could be taken for more of it.
const BEHIND: &[u8] = b"Q   1\nY   1\n";

pub const RIGHT: u32 = 6 << 24;
const OF_ANOTHER: &str = "journals: of some other sheet";

pub fn any_state(dice: &mut Dice) -> Vec<u8> {
    (0..65).map(|_| dice.byte()).collect()
}

/// Any bytes, or such as stand in journals.
fn random_bytes(dice: &mut Dice) -> Vec<u8> {
    let all = dice.percent(30);
    (0..dice.below(40)).map(|_| if all { dice.byte() } else { dice.pick(b"QUYNGK   1234\n") }).collect()
}

fn random_line(dice: &mut Dice, n: usize) -> Vec<u8> {
    let letter = dice.pick(LETTERS);
    journal::write_line(letter, dice.between(0, n + 1))
}

/// Lines of their form, most of which are wrong.
fn random_lines(dice: &mut Dice, n: usize) -> Vec<u8> {
    (0..dice.below(12)).flat_map(|_| random_line(dice, n)).collect()
}

/// The order that is due, or a reply that most likely fits.
fn likely_line(dice: &mut Dice, network: &Network, state: &State) -> Vec<u8> {
    let waiting = |b: &usize| [run::REQUESTED, run::RETURNING].contains(&state[*b]);
    let waiting: Vec<usize> = network.plan.bookings().filter(waiting).collect();
    match run::next_order(network, *state).0 {
        Order::Request(b) if dice.percent(60) => journal::write_line(b'Q', b),
        Order::Return(b) if dice.percent(60) => journal::write_line(b'U', b),
        _ if waiting.is_empty() => random_line(dice, network.plan.count()),
        _ => {
            let booking = dice.pick(&waiting);
            let requested = state[booking] == run::REQUESTED;
            journal::write_line(dice.pick(if requested { b"YYYNNNG" } else { b"GGGKKKY" }), booking)
        }
    }
}

/// Likely lines up to the first wrong one.
fn likely_lines(dice: &mut Dice, network: &Network) -> Vec<u8> {
    let mut state = run::start();
    let mut journal = Vec::new();
    for _ in 0..dice.below(60) {
        let line = likely_line(dice, network, &state);
        journal.extend(&line);
        match journal::after_line(network, state, &line) {
            Some(after) => state = after,
            None => break,
        }
    }
    journal
}

/// A journal of so many lines, of a repeatable 1 that is refused ever again.
fn refused_again(lines: usize) -> Vec<u8> {
    b"Q   1\nN   1\n".iter().copied().cycle().take(lines * LINE_LENGTH).collect()
}

/// A journal that no campaign wrote.
pub fn random_journal(dice: &mut Dice, network: &Network) -> Vec<u8> {
    match dice.below(3) {
        0 => random_bytes(dice),
        1 => random_lines(dice, network.plan.count()),
        _ => likely_lines(dice, network),
    }
}

pub fn case_of(plan: &Plan) -> Case {
    Case::new(plan::write(plan).as_bytes())
}

/// The named sheets that pass.
pub fn passing() -> Vec<Case> {
    let cases = flights::named().into_iter().map(|flight| Case::new(&flight.sheet));
    cases.filter(|case| case.network().is_some()).collect()
}

impl Comparison<'_> {
    /// What is fixed about journals, then campaigns of the named sheets with
    /// damaged journals until there were so many restarts here.
    pub fn journals(&mut self, seed: u64, fewest: u64) -> Outcome {
        let mut dice = Dice::new(seed);
        let fewest = self.tally.count_of_calls("restart") + fewest;
        self.every_line()?;
        self.written_journals()?;
        self.refused_before_journals()?;
        self.damage_tanker(&mut dice)?;
        let cases = passing();
        self.damage_flights(&cases, &mut dice)?;
        self.long_journals()?;
        self.part = "journals of campaigns on the flights".to_string();
        while self.tally.count_of_calls("restart") < fewest {
            let case = &cases[dice.below(cases.len())];
            let record = self.campaign(case, &mut dice)?;
            self.some_journals(case, &record, &mut dice)?;
            let other = &cases[dice.below(cases.len())];
            self.other_journal(other, OF_ANOTHER, &record.journal, &mut dice)?;
        }
        Ok(())
    }

    /// Restarts with a journal from which this must follow.
    pub fn expect(&mut self, case: &Case, journal: &[u8], before: &[u8], due: (u32, &[u8])) -> Outcome {
        let mut state = before.to_vec();
        let answer = self.restart(case, &Lent::with_rest(journal, BEHIND), &mut state)?;
        if (answer, &state[..]) == due {
            return Ok(());
        }
        Err(self.report(case, &state, "not the answer and state that must follow\n"))
    }

    fn written_journals(&mut self) -> Outcome {
        for written in flights::journals() {
            self.part = format!("journal \"{}\"", written.text.escape_ascii());
            let case = case_of(&written.plan);
            let before = [7; 65];
            self.tally.event("journals: with results written down");
            match written.result {
                Ok(state) => self.expect(&case, &written.text, &before, (RIGHT, &state))?,
                Err(line) => {
                    self.expect(&case, &written.text, &before, (pack(REFUSED, 12, line), &before))?
                }
            }
        }
        Ok(())
    }

    /// Sheets that are refused, and states of other lengths: both come before
    /// the journal, right or wrong, and change nothing.
    fn refused_before_journals(&mut self) -> Outcome {
        let journals: [&[u8]; 6] = [b"", b"Q   1\n", b"Q   1\nY   1\n", b"Y   1\n", b"?", b"Q   1\nQ   1"];
        let journals = journals.map(<[u8]>::to_vec).into_iter().chain([b"?".repeat(60)]);
        for journal in journals {
            for (name, sheet, (refusal, place)) in flights::refused_sheets() {
                self.part = format!("journals on the refused sheet \"{name}\"");
                self.refused_whatever_state(&Case::new(&sheet), &journal, pack(REFUSED, refusal, place))?;
            }
            self.part = "journals with states of other lengths".to_string();
            self.other_lengths(&case_of(&flights::tanker()), &journal)?;
        }
        Ok(())
    }

    fn refused_whatever_state(&mut self, case: &Case, journal: &[u8], answer: u32) -> Outcome {
        for length in [0, 1, 64, 65, 66, 200] {
            self.tally.event("journals: on a sheet that is refused");
            self.expect(case, journal, &vec![3; length], (answer, &vec![3; length]))?;
        }
        Ok(())
    }

    fn other_lengths(&mut self, case: &Case, journal: &[u8]) -> Outcome {
        for length in [0, 1, 2, 63, 64, 66, 67, 200, 1000] {
            for filling in [0, 1, 255] {
                let state = vec![filling; length];
                self.tally.event("journals: with a state of another length");
                self.expect(case, journal, &state, (pack(REFUSED, 11, 0), &state))?;
            }
        }
        Ok(())
    }

    /// Every byte of the Tanker's journal changed to every other.
    fn damage_tanker(&mut self, dice: &mut Dice) -> Outcome {
        self.part = "damaged journal of the Tanker".to_string();
        let case = case_of(&flights::tanker());
        let record = self.longest_campaign(&case, 20, dice)?;
        self.cut_everywhere(&case, &record, dice)?;
        for before in 0..record.lines() {
            for damage in damages(&record.journal, before, 4, true).iter().flatten() {
                self.damaged(&case, &record, damage, dice)?;
            }
        }
        Ok(())
    }

    /// A campaign of each flight, cut and damaged everywhere, and tried on
    /// each other flight.
    fn damage_flights(&mut self, cases: &[Case], dice: &mut Dice) -> Outcome {
        for case in cases {
            self.part = "damaged journals of the flights".to_string();
            let record = self.longest_campaign(case, 8, dice)?;
            self.cut_everywhere(case, &record, dice)?;
            let n = case.network().expect("a sheet that passes").plan.count();
            for before in 0..record.lines() {
                for damage in damages(&record.journal, before, n, false).iter().flatten() {
                    self.damaged(case, &record, damage, dice)?;
                }
            }
            for other in cases {
                self.other_journal(other, OF_ANOTHER, &record.journal, dice)?;
            }
        }
        Ok(())
    }

    /// The one with the most lines among some, but none of very many.
    pub fn longest_campaign(&mut self, case: &Case, tried: usize, dice: &mut Dice) -> Outcome<Record> {
        let mut longest = self.campaign(case, dice)?;
        for _ in 1..tried {
            let record = self.campaign(case, dice)?;
            if record.lines() > longest.lines() && record.lines() <= 40 {
                longest = record;
            }
        }
        Ok(longest)
    }

    fn cut_everywhere(&mut self, case: &Case, record: &Record, dice: &mut Dice) -> Outcome {
        (0..=record.journal.len()).try_for_each(|at| self.cut(case, record, at, dice))
    }

    /// A campaign's journal cut at a byte, with the rest behind what is lent:
    /// the state must be the one that the campaign had after those calls.
    fn cut(&mut self, case: &Case, record: &Record, at: usize, dice: &mut Dice) -> Outcome {
        self.tally.event(match at % LINE_LENGTH {
            _ if at == 0 => "journals: empty",
            _ if at < LINE_LENGTH => "journals: a tail alone",
            0 if at == record.journal.len() => "journals: whole, of a campaign",
            0 => "journals: cut between lines",
            _ => "journals: cut within a line",
        });
        let lines = at / LINE_LENGTH;
        let lent = Lent::with_rest(&record.journal[..at], &record.journal[at..]);
        let mut state = any_state(dice);
        let answer = self.restart(case, &lent, &mut state)?;
        if answer != RIGHT || state != record.state_after(lines) {
            return Err(self.report(case, &state, "not the state that the campaign had after these calls\n"));
        }
        if dice.percent(10) {
            self.go_on(case, record.first(lines), dice)?;
        }
        Ok(())
    }

    /// The campaign goes on from its restarted state, and stops once more.
    fn go_on(&mut self, case: &Case, record: Record, dice: &mut Dice) -> Outcome {
        let plan = &case.network().expect("a sheet that passes").plan;
        let state = record.state_after(record.lines()).to_vec();
        let mut walk = Walk { state, ledger: record.ledger(plan), record };
        self.walk(case, &mut walk, dice.between(1, 60), dice)?;
        self.tally.event("campaigns that went on after a restart");
        self.expect(case, &walk.record.journal, &any_state(dice), (RIGHT, &walk.state))
    }

    /// A journal of which nothing is known beforehand; if it is right, some
    /// calls follow.
    fn other_journal(&mut self, case: &Case, name: &str, journal: &[u8], dice: &mut Dice) -> Outcome<u32> {
        self.tally.event(name);
        let mut state = any_state(dice);
        let answer = self.restart(case, &Lent::with_rest(journal, BEHIND), &mut state)?;
        if kind_of(answer) == ACCEPTED {
            self.tally.event("journals: right, of those not just cut");
            self.some_calls(case, &state, dice)?;
        }
        Ok(answer)
    }

    /// No line before the damage is wrong; some damages are wrong for sure.
    fn damaged(&mut self, case: &Case, record: &Record, damage: &Damage, dice: &mut Dice) -> Outcome {
        let name = format!("journals: {}", damage.name);
        let answer = self.other_journal(case, &name, &damage.of(&record.journal), dice)?;
        let line = place_of(answer) as usize;
        let as_due = match damage.wrong {
            Some(wrong) => refusal_of(answer) == 12 && line == wrong,
            None => answer == RIGHT || refusal_of(answer) == 12 && line > damage.before,
        };
        if as_due {
            return Ok(());
        }
        let told = format!("{name} after line {}: not the line that is wrong\n", damage.before);
        Err(self.report(case, &any_state(dice), &told))
    }

    /// A campaign's journal with some cuts and damages, and some other journals.
    pub fn some_journals(&mut self, case: &Case, record: &Record, dice: &mut Dice) -> Outcome {
        let network = case.network().expect("a sheet that passes");
        let n = network.plan.count();
        for _ in 0..4 {
            self.cut(case, record, dice.between(0, record.journal.len()), dice)?;
        }
        self.cut(case, record, record.journal.len(), dice)?;
        self.tail(case, record, dice)?;
        if record.lines() > 0 {
            (0..6).try_for_each(|_| self.some_damage(case, record, n, dice))?;
        }
        self.other_journal(case, "journals: random bytes", &random_bytes(dice), dice)?;
        self.other_journal(case, "journals: random lines", &random_lines(dice, n), dice)?;
        self.other_journal(case, "journals: random lines, likely ones", &likely_lines(dice, network), dice)?;
        Ok(())
    }

    /// Any one to five bytes after whole lines are dropped.
    fn tail(&mut self, case: &Case, record: &Record, dice: &mut Dice) -> Outcome {
        let lines = dice.between(0, record.lines());
        let mut journal = record.first(lines).journal;
        (0..dice.between(1, LINE_LENGTH - 1)).for_each(|_| journal.push(dice.byte()));
        self.tally.event("journals: with a random tail");
        self.expect(case, &journal, &any_state(dice), (RIGHT, record.state_after(lines)))
    }

    fn some_damage(&mut self, case: &Case, record: &Record, n: usize, dice: &mut Dice) -> Outcome {
        let groups = damages(&record.journal, dice.below(record.lines()), n, false);
        let group = &groups[dice.below(groups.len())];
        self.damaged(case, record, &group[dice.below(group.len())], dice)
    }

    /// Long journals, right ones and such as have their first wrong line late.
    fn long_journals(&mut self) -> Outcome {
        let case = case_of(&flights::plan_of("R", &[], &[&[1]]));
        let wrong: [&[u8]; 3] = [b"Y   2\n", b"Q  01\n", b"U   1\n"];
        let places = [(65_534, 65_534), (65_535, 65_535), (65_536, 65_535), (65_537, 65_535)];
        let later = [(70_000, 65_535), (131_071, 65_535), (131_072, 65_535)];
        for (at, &(line, place)) in places.iter().chain(&later).enumerate() {
            self.part = format!("long journal, wrong in line {line}");
            self.tally.event("journals: long, with a wrong line");
            let journal = [&refused_again(line - 1), wrong[at % wrong.len()], &refused_again(4)].concat();
            self.expect(&case, &journal, &[1; 65], (pack(REFUSED, 12, place), &[1; 65]))?;
        }
        for (lines, tail, code) in [(65_536, 0, 0), (99_999, 0, 1), (100_000, 0, 0), (100_000, 5, 0)] {
            self.part = format!("long journal of {lines} lines");
            self.tally.event("journals: long");
            let journal = [&refused_again(lines)[..], &b"Y   1"[..tail]].concat();
            let mut state = [0; 65];
            (state[0], state[1]) = (1, code);
            self.expect(&case, &journal, &[1; 65], (RIGHT, &state))?;
        }
        Ok(())
    }
}
