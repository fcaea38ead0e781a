// SPDX-License-Identifier: Apache-2.0 AND BSD-3-Clause
//! How often each outcome of each call came up, and how many calls differ, as one line.

use std::fmt;

/// Outcomes of a call: a number below [`OUTCOMES`], and its name.
pub type Outcomes = &'static [(usize, &'static str)];

/// The calls, each with its outcomes in one or more lists.
pub type Calls = &'static [(&'static str, &'static [Outcomes])];
pub const OUTCOMES: usize = 80;

/// The outcome of a refusal is its number; that of an answer is this and its kind.
pub const TOLD: usize = 16;

/// That of a response is this and its reason, or one more than all where the model has none.
pub const WHY: usize = 64;

/// The responses to a request, and those that a host's answer ends.
pub const SERVED: Outcomes = &[
    (WHY, "served"),
    (WHY + 1, "why-1"),
    (WHY + 2, "why-2"),
    (WHY + 3, "why-3"),
    (WHY + 4, "why-4"),
    (WHY + 5, "why-5"),
    (WHY + 6, "why-6"),
    (WHY + 7, "why-7"),
    (WHY + 8, "why-8"),
    (WHY + 9, "why-9"),
    (WHY + 10, "why-10"),
];
pub const ENDED: Outcomes = &[
    (WHY, "served"),
    (WHY + 9, "why-9"),
    (WHY + 10, "why-10"),
    (WHY + 11, "why-11"),
];

pub fn why(reason: u64) -> usize {
    WHY + reason.min(12) as usize
}

/// How often each outcome came up, and how many calls had another than they should.
pub struct Tally {
    what: &'static str,
    seed: u64,
    table: Calls,
    counts: Vec<[u64; OUTCOMES]>,
    pub calls: u64,
    pub differ: u64,
}

impl Tally {
    pub fn new(what: &'static str, seed: u64, table: Calls) -> Tally {
        Tally {
            what,
            seed,
            table,
            counts: vec![[0; OUTCOMES]; table.len()],
            calls: 0,
            differ: 0,
        }
    }

    pub fn count(&mut self, call: usize, outcome: usize) {
        self.counts[call][outcome] += 1;
    }

    /// Each call and outcome, with how often it came up.
    fn outcomes(&self) -> impl Iterator<Item = (&'static str, &'static str, u64)> + '_ {
        let calls = self.table.iter().zip(&self.counts);
        calls.flat_map(|((call, outcomes), counts)| {
            let outcomes = outcomes.iter().copied().flatten();
            outcomes.map(|(at, outcome)| (*call, *outcome, counts[*at]))
        })
    }

    /// The outcomes that never came up.
    #[cfg(test)]
    pub fn missing(&self) -> Vec<(&'static str, &'static str)> {
        let never = self.outcomes().filter(|(_, _, count)| *count == 0);
        never.map(|(call, outcome, _)| (call, outcome)).collect()
    }
}

impl fmt::Display for Tally {
    fn fmt(&self, f: &mut fmt::Formatter<'_>) -> fmt::Result {
        let Tally {
            what, calls, seed, ..
        } = self;
        write!(f, "{what}: {calls} calls from seed {seed}:")?;
        let mut last = "";
        for (call, outcome, count) in self.outcomes() {
            if call != last {
                let separator = if last.is_empty() { "" } else { ";" };
                write!(f, "{separator} {call}")?;
                last = call;
            }
            write!(f, " {outcome}={count}")?;
        }
        write!(f, "; {} differ", self.differ)
    }
}
