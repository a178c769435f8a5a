//! The fixed part: flights, boundaries, damaged sheets, unsound states.

use super::{Call, Case, Comparison, Outcome};
use crate::calls;
use crate::dice::Dice;
use crate::flights::{self, Flight};
use crate::generate;
use crate::plan;

/// A field of a sheet was left blank.
pub const BLANK_FIELD: &str = "sheets: a field left blank";

impl Comparison<'_> {
    pub fn fixed_part(&mut self, seed: u64) -> Outcome {
        let mut dice = Dice::new(seed);
        for flight in flights::named().iter().chain(&flights::boundaries()) {
            self.compare_flight(flight, &mut dice)?;
        }
        for flight in flights::named() {
            self.damage_everywhere(&flight, &mut dice)?;
            self.blank_everywhere(&flight, &mut dice)?;
        }
        self.damage_longest(&mut dice)?;
        self.every_kind()?;
        self.every_limit_and_desk()?;
        self.every_small_plan()?;
        if self.check_only {
            return Ok(());
        }
        self.every_split_of_three()?;
        self.part = "the flights' replies".to_string();
        self.play_flights()?;
        self.unsound_states()
    }

    /// The verdict is compared with the one written down as well.
    fn compare_flight(&mut self, flight: &Flight, dice: &mut Dice) -> Outcome {
        self.part = format!("flight \"{}\"", flight.name);
        let case = Case::new(&flight.sheet);
        let answer = self.call(&case, &mut Vec::new(), Call::Check)?;
        if (calls::refusal_of(answer), calls::place_of(answer)) != flight.verdict {
            return Err(self.report(&case, &[], "not the verdict written down\n"));
        }
        self.compare_sheet(&case, dice)?;
        if self.check_only || case.network().is_none() {
            return Ok(());
        }
        // Long sheets cost more and show less.
        let campaigns = if flight.sheet.len() > 500 { 2 } else { 20 };
        (0..campaigns).try_for_each(|_| self.campaign(&case, dice).map(drop))
    }

    /// Every byte changed, every end cut off, and bytes behind the end.
    fn damage_everywhere(&mut self, flight: &Flight, dice: &mut Dice) -> Outcome {
        self.part = format!("damaged flight \"{}\"", flight.name);
        let sheet = &flight.sheet;
        for at in 0..sheet.len() {
            for value in generate::damages(sheet[at]) {
                let mut damaged = sheet.clone();
                damaged[at] = value;
                self.compare_sheet(&Case::new(&damaged), dice)?;
            }
            // The rest of the sheet still stands behind, but is not lent.
            self.compare_sheet(&Case::with_rest(&sheet[..at], &sheet[at..]), dice)?;
        }
        for more in ["\n", " ", "A", "A   1   1\n", "\0", "P   1   0   1   1\n"] {
            self.compare_sheet(&Case::new(&[sheet, more.as_bytes()].concat()), dice)?;
        }
        Ok(())
    }

    /// Each field of a sheet that can be read left blank: its line is not of its form.
    fn blank_everywhere(&mut self, flight: &Flight, dice: &mut Dice) -> Outcome {
        self.part = format!("blank fields on flight \"{}\"", flight.name);
        if plan::read(&flight.sheet).is_err() {
            return Ok(());
        }
        let mut begin = 0;
        for (line, text) in (1..).zip(flight.sheet.split_inclusive(|&byte| byte == b'\n')) {
            for field in generate::fields_of(&text[..text.len() - 1]) {
                let mut damaged = flight.sheet.clone();
                damaged[begin + field..begin + field + 4].fill(b' ');
                let case = Case::new(&damaged);
                self.tally.event(BLANK_FIELD);
                let answer = self.call(&case, &mut Vec::new(), Call::Check)?;
                if answer != calls::pack(calls::REFUSED, 1, line) {
                    return Err(self.report(&case, &[], "a blank field is not of its form\n"));
                }
                self.compare_sheet(&case, dice)?;
            }
            begin += text.len();
        }
        Ok(())
    }

    /// The longest sheet is damaged at random places only.
    fn damage_longest(&mut self, dice: &mut Dice) -> Outcome {
        self.part = "damaged longest sheet".to_string();
        let sheet = plan::write(&flights::longest()).into_bytes();
        for _ in 0..300 {
            let at = dice.below(sheet.len());
            let mut damaged = sheet.clone();
            damaged[at] = dice.pick(&generate::damages(sheet[at]));
            self.compare_sheet(&Case::new(&damaged), dice)?;
            self.compare_sheet(&Case::with_rest(&sheet[..at], &sheet[at..]), dice)?;
            self.compare_sheet(&Case::new(&generate::spoil_sheet(dice, &sheet)), dice)?;
        }
        Ok(())
    }

    /// Every byte as the letter of a kind: four are kinds, the others are no
    /// line of this form.
    fn every_kind(&mut self) -> Outcome {
        self.part = "every byte as a kind".to_string();
        for letter in 0..=255 {
            let sheet = [b"P   1   0   1  64\nB   1 ", &[letter][..], b"   1\nA   1   1\n"].concat();
            let case = Case::new(&sheet);
            let answer = self.call(&case, &mut Vec::new(), Call::Check)?;
            let due = match letter {
                b'C' | b'P' | b'R' | b'D' => calls::pack(calls::ACCEPTED, 0, 0),
                _ => calls::pack(calls::REFUSED, 1, 2),
            };
            if answer != due {
                return Err(self.report(&case, &[], "not the verdict written down\n"));
            }
        }
        Ok(())
    }

    /// The flights that name replies, with orders taken until wait or end.
    fn play_flights(&mut self) -> Outcome {
        let one = flights::plan_of("C", &[], &[&[1]]);
        let two = flights::plan_of("CC", &[], &[&[1, 2]]);
        let tanker_replies = [(b'Y', 1), (b'Y', 2), (b'N', 3), (b'N', 4), (b'Y', 4)];
        self.play(&flights::tanker(), &tanker_replies, calls::pack(calls::FLOWN, 0, 2))?;
        self.play(&one, &[(b'N', 1)], calls::pack(calls::CALLED_OFF, 0, 0))?;
        let kept = [(b'Y', 1), (b'N', 2), (b'K', 1), (b'G', 1)];
        self.play(&two, &kept, calls::pack(calls::CALLED_OFF, 0, 0))?;
        let pivot_and_both = flights::plan_of("PD", &[], &[&[1, 2]]);
        let asked_again = [(b'N', 2), (b'Y', 1), (b'Y', 2)];
        self.play(&pivot_and_both, &asked_again, calls::pack(calls::FLOWN, 0, 1))?;
        let given_back = [(b'N', 2), (b'Y', 2), (b'N', 1), (b'K', 2), (b'G', 2)];
        self.play(&pivot_and_both, &given_back, calls::pack(calls::CALLED_OFF, 0, 0))?;
        let chase_back = [(b'N', 2), (b'Y', 1), (b'Y', 2), (b'N', 3), (b'G', 2), (b'Y', 4)];
        self.play(&flights::chase('D'), &chase_back, calls::pack(calls::FLOWN, 0, 2))
    }

    fn play(&mut self, plan: &plan::Plan, replies: &[(u8, u32)], end: u32) -> Outcome {
        let case = Case::new(plan::write(plan).as_bytes());
        let mut state = vec![9; 65];
        self.call(&case, &mut state, Call::Start)?;
        let mut last = self.orders(&case, &mut state)?;
        for &(letter, booking) in replies {
            self.call(&case, &mut state, Call::Reply(letter, booking))?;
            last = self.orders(&case, &mut state)?;
        }
        if last != end {
            return Err(self.report(&case, &state, "not the end written down\n"));
        }
        Ok(())
    }

    /// Takes orders until a wait or an end, which it gives.
    pub fn orders(&mut self, case: &Case, state: &mut Vec<u8>) -> Outcome<u32> {
        loop {
            let answer = self.call(case, state, Call::NextOrder)?;
            if ![calls::REQUEST, calls::RETURN].contains(&calls::kind_of(answer)) {
                return Ok(answer);
            }
        }
    }

    /// States of other lengths, and states that break one sentence each.
    fn unsound_states(&mut self) -> Outcome {
        self.part = "unsound states".to_string();
        let case = Case::new(plan::write(&flights::tanker()).as_bytes());
        for length in [0, 1, 2, 63, 64, 66, 67, 200, 1000] {
            for filling in [0, 1, 255] {
                self.all_calls(&case, &vec![filling; length])?;
                // All that is wrong with these may be the length.
                let mut requested = vec![1, 1];
                requested.resize(65, 0);
                requested.resize(length, filling);
                self.all_calls(&case, &requested)?;
            }
        }
        for unsound in flights::unsound_states() {
            let case = Case::new(plan::write(&unsound.plan).as_bytes());
            self.tally.broke_alone(unsound.sentence);
            self.all_calls(&case, &unsound.state)?;
        }
        Ok(())
    }

    /// Each call from this same state.
    pub fn all_calls(&mut self, case: &Case, state: &[u8]) -> Outcome {
        let fitting = [(b'Y', 1), (b'N', 1), (b'G', 1), (b'K', 1)];
        let odd = [(b'Y', 0), (b'?', 1), (b'N', 64), (b'G', 65), (b'K', u32::MAX)];
        self.call(case, &mut state.to_vec(), Call::Start)?;
        self.call(case, &mut state.to_vec(), Call::NextOrder)?;
        for (letter, booking) in fitting.into_iter().chain(odd) {
            self.call(case, &mut state.to_vec(), Call::Reply(letter, booking))?;
        }
        Ok(())
    }
}
