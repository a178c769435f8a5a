//! Counts of what was compared.

use super::Outcome;
use crate::calls::{kind_of, refusal_of};
use crate::check::Network;
use crate::plan::Kind;
use std::collections::BTreeMap;
use std::fmt;

#[derive(Default)]
pub struct Tally {
    calls: BTreeMap<&'static str, u64>,
    kinds: BTreeMap<u32, u64>,
    refusals: BTreeMap<u32, u64>,
    sentences: BTreeMap<&'static str, u64>,
    events: BTreeMap<String, u64>,
}

impl Tally {
    pub fn note(&mut self, call: &'static str, answer: u32) {
        *self.calls.entry(call).or_default() += 1;
        *self.kinds.entry(kind_of(answer)).or_default() += 1;
        if kind_of(answer) == 0 {
            *self.refusals.entry(refusal_of(answer)).or_default() += 1;
        }
    }

    /// A random plan, before any damage.
    pub fn note_sheet(&mut self, network: Option<&Network>) {
        self.event("random plans");
        if let Some(network) = network {
            self.event("random plans that pass");
            let plan = &network.plan;
            let both = plan.kinds.iter().filter(|&&kind| kind == Kind::RepeatableReturnable).count();
            self.events_add("D in random plans that pass", both as u64);
            if both > 0 {
                self.event("that pass with a D");
            }
            if plan.count() == 64 {
                self.event("that pass with 64 bookings");
            }
            if plan.links.len() == 512 {
                self.event("that pass with 512 links");
            }
            if plan.ways.len() == 16 {
                self.event("that pass with 16 ways");
            }
        }
    }

    pub fn event(&mut self, name: &str) {
        self.events_add(name, 1);
    }

    pub fn events_add(&mut self, name: &str, count: u64) {
        match self.events.get_mut(name) {
            Some(counted) => *counted += count,
            None => drop(self.events.insert(name.to_string(), count)),
        }
    }

    pub fn count_of_events(&self, name: &str) -> u64 {
        self.events.get(name).copied().unwrap_or(0)
    }

    /// Whether each of these was met so often; tells the first that was not.
    pub fn demand(&self, fewest: &[(&str, u64)]) -> Outcome {
        for (name, fewest) in fewest {
            let met = self.count_of_events(name);
            if met < *fewest {
                return Err(format!("TOO FEW: {name}: {met}, but {fewest} are due\n"));
            }
        }
        Ok(())
    }

    /// A state that breaks this sentence of soundness alone.
    pub fn broke_alone(&mut self, sentence: &'static str) {
        *self.sentences.entry(sentence).or_default() += 1;
    }

    pub fn count_of_calls(&self, call: &str) -> u64 {
        self.calls.get(call).copied().unwrap_or(0)
    }

    pub fn count_of_kind(&self, kind: u32) -> u64 {
        self.kinds.get(&kind).copied().unwrap_or(0)
    }

    pub fn count_of_refusal(&self, refusal: u32) -> u64 {
        self.refusals.get(&refusal).copied().unwrap_or(0)
    }
}

impl fmt::Display for Tally {
    fn fmt(&self, out: &mut fmt::Formatter) -> fmt::Result {
        for (name, count) in &self.calls {
            writeln!(out, "calls of {name}: {count}")?;
        }
        for kind in 0..=6 {
            writeln!(out, "kind {kind}: {}", self.count_of_kind(kind))?;
        }
        for refusal in 1..=17 {
            writeln!(out, "refusal {refusal}: {}", self.count_of_refusal(refusal))?;
        }
        for (name, count) in &self.events {
            writeln!(out, "{name}: {count}")?;
        }
        for (name, count) in &self.sentences {
            writeln!(out, "states that break only \"{name}\": {count}")?;
        }
        Ok(())
    }
}

#[cfg(test)]
mod tests {
    use super::*;

    #[test]
    fn too_few_are_told() {
        let mut tally = Tally::default();
        assert!(tally.demand(&[("one", 0)]).is_ok());
        assert!(tally.demand(&[("one", 1)]).is_err());
        tally.event("one");
        tally.events_add("two", 3);
        assert!(tally.demand(&[("one", 1), ("two", 3)]).is_ok());
        assert!(tally.demand(&[("one", 1), ("two", 4)]).unwrap_err().contains("two: 3"));
    }
}
