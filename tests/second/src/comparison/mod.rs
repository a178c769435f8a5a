//! The comparison of a first version of the ten calls and of the partner
//! range's with this one: the same 32 bits, the same bytes of state, and no
//! other byte changed.

pub mod any_order;
pub mod as_second;
pub mod blocks;
mod choices;
mod damage;
pub mod desks;
mod every;
mod fees;
pub mod groupings;
mod join_plans;
mod joined;
pub mod joins;
pub mod journals;
mod ledger;
mod lent;
mod lines;
mod old;
pub mod partner;
pub mod passed;
mod record;
mod replies;
pub mod settlements;
pub mod sheets;
mod tally;
pub mod walks;

use crate::as_second;
use crate::calls::{self, Judged};
use crate::check::Network;
use crate::dice::Dice;
use crate::generate::{self, LIMITS, MIDDLE, SMALL};
use crate::journal::LINE_LENGTH;
use crate::plan;
use lent::Lent;
use tally::Tally;

/// The calls of the version under test.
pub trait Campaign {
    fn check(&self, sheet: &[u8]) -> u32;
    /// Check at the partner range. No sheet at all is lent as null and 0.
    fn partner_check(&self, sheet: Option<&[u8]>) -> u32;
    fn start(&self, sheet: &[u8], state: &mut [u8]) -> u32;
    fn next_order(&self, sheet: &[u8], state: &mut [u8]) -> u32;
    fn reply(&self, sheet: &[u8], state: &mut [u8], letter: u8, booking: u32) -> u32;
    /// No block at all is lent as null and 0.
    fn reply_block(&self, sheet: &[u8], block: Option<&[u8]>, state: &mut [u8]) -> u32;
    fn restart(&self, sheet: &[u8], journal: &[u8], state: &mut [u8]) -> u32;
    fn journal_line(&self, letter: u8, booking: u32, line: &mut [u8]) -> u32;
    /// What is not there is lent as null and 0.
    fn settle(
        &self,
        sheet: &[u8],
        fees: Option<&[u8]>,
        journal: Option<&[u8]>,
        report: Option<&mut [u8]>,
    ) -> u32;
    /// What is not there is lent as null and 0.
    fn passed_ways(&self, sheet: &[u8], state: Option<&[u8]>, listing: Option<&mut [u8]>) -> u32;
    /// What is not there is lent as null and 0.
    fn join(&self, first: Option<&[u8]>, second: Option<&[u8]>, joined: Option<&mut [u8]>) -> u32;
}

/// The second version in the place of the first: it must not differ from itself.
pub struct Second;

impl Second {
    fn judged<T>(&self, sheet: &[u8], with: impl FnOnce(&Judged) -> T) -> T {
        with(&calls::judge(sheet))
    }
}

impl Campaign for Second {
    as_second!(check, partner_check, start, next_order, reply, reply_block, restart);
    as_second!(journal_line, settle, passed_ways, join);
}

/// Nothing to say, or what differs.
pub type Outcome<T = ()> = Result<T, String>;

/// The calls that a walk is made of.
#[derive(Clone, Copy, Debug, PartialEq, Eq)]
pub enum Call {
    Check,
    Start,
    NextOrder,
    Reply(u8, u32),
}

/// A call that was made, for the report.
enum Made {
    Call(Call),
    PartnerCheck,
    Block(Vec<u8>),
}

/// A sheet to compare with, and what the second version makes of it.
pub struct Case {
    sheet: Lent,
    judged: Judged,
}

impl Case {
    pub fn new(sheet: &[u8]) -> Case {
        // Behind the sheet stands what could be taken for more of it.
        Case::with_rest(sheet, b"A   1   1\nA   1   1\n")
    }

    /// A sheet with bytes behind it that are not lent.
    pub fn with_rest(sheet: &[u8], rest: &[u8]) -> Case {
        Case { sheet: Lent::with_rest(sheet, rest), judged: calls::judge(sheet) }
    }

    pub fn network(&self) -> Option<&Network> {
        self.judged.as_ref().ok()
    }
}

pub struct Comparison<'a> {
    first: &'a dyn Campaign,
    check_only: bool,
    pub tally: Tally,
    /// What is being compared, for the report.
    pub part: String,
    /// The calls since the last check, start or restart.
    history: Vec<(Made, u32)>,
    /// The journal of the last restart, if no check or start came after it.
    journal: Option<Vec<u8>>,
}

/// What a version answered and the state it left.
struct Said<'a> {
    answer: u32,
    state: &'a [u8],
}

impl<'a> Comparison<'a> {
    pub fn new(first: &'a dyn Campaign, check_only: bool) -> Comparison<'a> {
        let (tally, part) = (Tally::default(), String::new());
        Comparison { first, check_only, tally, part, history: Vec::new(), journal: None }
    }

    /// Makes one call with both versions. Gives the answer of the first and
    /// leaves in `state` what both wrote. What check gets, the partner range's
    /// check gets too.
    fn call(&mut self, case: &Case, state: &mut Vec<u8>, call: Call) -> Outcome<u32> {
        let mut expected_state = state.clone();
        let expected = second_answer(&case.judged, &mut expected_state, call);
        let before = state.clone();
        let mut lent = Lent::new(state);
        let answer = self.first_answer(case.sheet.bytes(), lent.bytes_mut(), call);
        self.tally.note(name_of(call), answer);
        if call == Call::Check || call == Call::Start {
            self.begin(None);
        }
        self.history.push((Made::Call(call), answer));
        let whole = lent.guards_are_whole() && case.sheet.is_whole();
        let first = Said { answer, state: lent.bytes() };
        self.settle(case, state, first, Said { answer: expected, state: &expected_state }, whole)?;
        match call {
            Call::Check => self.partner_too(case, answer)?,
            Call::NextOrder => {
                self.note_passed_over(case, &before, answer);
                self.demand_no_stranding(case, &before, answer)?;
            }
            _ => {}
        }
        Ok(answer)
    }

    /// Restarts with both versions, as `call` makes a call.
    fn restart(&mut self, case: &Case, journal: &Lent, state: &mut Vec<u8>) -> Outcome<u32> {
        let mut expected_state = state.clone();
        let expected = calls::restart_judged(&case.judged, journal.bytes(), &mut expected_state);
        let mut lent = Lent::new(state);
        let answer = self.first.restart(case.sheet.bytes(), journal.bytes(), lent.bytes_mut());
        self.tally.note("restart", answer);
        self.begin(Some(journal.bytes().to_vec()));
        let whole = lent.guards_are_whole() && case.sheet.is_whole() && journal.is_whole();
        let first = Said { answer, state: lent.bytes() };
        self.settle(case, state, first, Said { answer: expected, state: &expected_state }, whole)
    }

    /// A campaign begins, with this journal if with any.
    fn begin(&mut self, journal: Option<Vec<u8>>) {
        self.history.clear();
        self.journal = journal;
    }

    /// Takes over what both versions said, or tells what differs.
    fn settle(
        &self,
        case: &Case,
        state: &mut Vec<u8>,
        first: Said,
        second: Said,
        whole: bool,
    ) -> Outcome<u32> {
        if first.answer == second.answer && first.state == second.state && whole {
            *state = second.state.to_vec();
            return Ok(first.answer);
        }
        let mut told = format!(
            "first version: {}\nstate after:   {}\n",
            shown_answer(first.answer),
            shown_state(first.state)
        );
        told += &format!(
            "second version: {}\nstate after:    {}\n",
            shown_answer(second.answer),
            shown_state(second.state)
        );
        if !whole {
            told += "a byte that was not lent, or of the sheet, the block or the journal, has changed\n";
        }
        Err(self.report(case, state, &told))
    }

    fn first_answer(&self, sheet: &[u8], state: &mut [u8], call: Call) -> u32 {
        match call {
            Call::Check => self.first.check(sheet),
            Call::Start => self.first.start(sheet, state),
            Call::NextOrder => self.first.next_order(sheet, state),
            Call::Reply(letter, booking) => self.first.reply(sheet, state, letter, booking),
        }
    }

    /// What to print when something differs.
    fn report(&self, case: &Case, state: &[u8], told: &str) -> String {
        let mut text = format!("DIFFERENCE in {}\n{}", self.part, shown_sheet("sheet", case.sheet.bytes()));
        text += &format!("state before:  {}\n", shown_state(state));
        if let Some(journal) = &self.journal {
            text += &shown_journal(journal);
        }
        let recent = self.history.len().saturating_sub(60);
        if !self.history.is_empty() {
            text += "calls since check, start or restart, the last one being the call in question:\n";
        }
        for (made, answer) in &self.history[recent..] {
            text += &format!("  {}: {}\n", shown_made(made), shown_answer(*answer));
        }
        text + told
    }

    /// Check alone, and the other calls once if the sheet is refused.
    pub fn compare_sheet(&mut self, case: &Case, dice: &mut Dice) -> Outcome {
        self.call(case, &mut Vec::new(), Call::Check)?;
        self.note_field(case);
        if self.check_only {
            return Ok(());
        }
        let mut state: Vec<u8> = (0..65).map(|_| dice.below(5) as u8).collect();
        self.call(case, &mut state, Call::NextOrder)?;
        self.call(case, &mut state, Call::Reply(dice.pick(b"YNGK"), dice.below(70) as u32))?;
        self.any_block(case, &state, dice)?;
        self.call(case, &mut state, Call::Start)?;
        self.call(case, &mut state, Call::NextOrder)?;
        self.any_block(case, &state, dice)?;
        self.call(case, &mut state, Call::Reply(b'Y', 1))?;
        self.plain_listing(case)?;
        self.plain_settlement(case)?;
        self.plain_join(case)
    }

    /// One random plan with its campaigns and some damaged copies.
    pub fn round(&mut self, seed: u64, round: u64) -> Outcome {
        self.part = format!("round {round} of seed {seed}");
        let mut dice = Dice::for_round(seed, round);
        let size = match round % 16 {
            15 => LIMITS,
            3 | 7 | 11 => MIDDLE,
            _ => SMALL,
        };
        let sheet = plan::write(&generate::random_plan(&mut dice, size)).into_bytes();
        let case = Case::new(&sheet);
        self.tally.note_sheet(case.network());
        self.compare_sheet(&case, &mut dice)?;
        let mut recorded = None;
        if case.network().is_some() && !self.check_only {
            let record = self.campaign(&case, &mut dice)?;
            self.some_journals(&case, &record, &mut dice)?;
            self.some_blocks(&case, &record, &mut dice)?;
            self.some_orders(&case, &record, &mut dice)?;
            self.some_listings(&case, &record, &mut dice)?;
            self.some_above_the_limit(&case, &record, &mut dice)?;
            for _ in 0..2 {
                self.campaign(&case, &mut dice)?;
            }
            recorded = Some(record);
        }
        for _ in 0..4 {
            let spoiled = Case::new(&generate::spoil_sheet(&mut dice, &sheet));
            self.compare_sheet(&spoiled, &mut dice)?;
        }
        if let Some(record) = recorded {
            self.some_settlements(&case, &record, &mut dice)?;
        }
        match round % 8 {
            1 => self.some_near_the_partners_limits(&mut dice)?,
            5 if !self.check_only => self.listings_beside_a_tanker(&mut dice)?,
            _ => {}
        }
        if self.check_only {
            return Ok(());
        }
        self.some_joins(&sheet, &mut dice)
    }
}

fn second_answer(judged: &Judged, state: &mut [u8], call: Call) -> u32 {
    match call {
        Call::Check => calls::check_judged(judged),
        Call::Start => calls::start_judged(judged, state),
        Call::NextOrder => calls::next_order_judged(judged, state),
        Call::Reply(letter, booking) => calls::reply_judged(judged, state, letter, booking),
    }
}

fn name_of(call: Call) -> &'static str {
    match call {
        Call::Check => "check",
        Call::Start => "start",
        Call::NextOrder => "next order",
        Call::Reply(..) => "reply",
    }
}

fn shown_call(call: Call) -> String {
    match call {
        Call::Reply(letter, booking) => format!("reply {} {booking}", letter.escape_ascii()),
        _ => name_of(call).to_string(),
    }
}

fn shown_made(made: &Made) -> String {
    match made {
        Made::Call(call) => shown_call(*call),
        Made::PartnerCheck => "the partner range's check".to_string(),
        Made::Block(block) => format!("reply block \"{}\"", block.escape_ascii()),
    }
}

/// A journal, without the middle of a long one.
fn shown_journal(journal: &[u8]) -> String {
    let lines: Vec<&[u8]> = journal.chunks(LINE_LENGTH).collect();
    let mut text = format!("restart with a journal of {} bytes:\n", journal.len());
    for (at, line) in lines.iter().enumerate() {
        if at < 100 || at + 40 > lines.len() {
            text += &format!("  {}: {}\n", at + 1, line.escape_ascii());
        }
    }
    text
}

fn shown_sheet(name: &str, sheet: &[u8]) -> String {
    let mut text = format!("{name} of {} bytes:\n", sheet.len());
    for line in sheet.split_inclusive(|&byte| byte == b'\n') {
        text += &format!("  {}\n", line.escape_ascii());
    }
    text
}

fn shown_answer(answer: u32) -> String {
    let (kind, refusal, place) = (calls::kind_of(answer), calls::refusal_of(answer), calls::place_of(answer));
    format!("kind {kind}, refusal {refusal}, place {place} ({answer:#010x})")
}

fn shown_state(state: &[u8]) -> String {
    let codes: Vec<String> = state.iter().map(|byte| byte.to_string()).collect();
    format!("{} bytes: {}", state.len(), codes.join(" "))
}
