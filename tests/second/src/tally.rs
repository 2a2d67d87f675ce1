//! Counting comparisons, showing differences, and which replies occurred.

use crate::reply::Reply;
use std::collections::BTreeMap;

/// What was called. Solving counts by what its mode asks for.
#[derive(Clone, Copy, Debug, PartialEq, Eq, PartialOrd, Ord)]
pub enum Entry {
    ReadContext,
    ReadSpecification,
    ReadController,
    Write,
    SolvePlain,
    SolveUnblocked,
    SolveUnknown,
    Check,
}

/// How many differences are shown at once. Further ones are counted, and the shortest of so
/// many is shown at the end.
const SHOWN: u64 = 3;
const LOOKED_AT: u64 = 1000;

#[derive(Default)]
pub struct Tally {
    pub passed: u64,
    pub failed: u64,
    /// How often each entry gave each number with each record.
    seen: BTreeMap<(Entry, u32, u32), u64>,
    most_states: u32,
    most_rounds: u32,
    shortest: Option<String>,
}

impl Tally {
    /// Count a comparison, and show it if it failed.
    pub fn count(&mut self, same: bool, told: impl FnOnce() -> String) {
        if same {
            self.passed += 1;
            return;
        }
        self.failed += 1;
        if self.failed > LOOKED_AT {
            return;
        }
        let told = told();
        if self.failed <= SHOWN {
            println!("DIFFERENCE\n{told}\n");
        }
        let shorter = |known: &String| told.len() < known.len();
        if self.shortest.as_ref().map_or(true, shorter) {
            self.shortest = Some(told);
        }
    }

    /// Remember that an entry gave this reply.
    pub fn saw(&mut self, entry: Entry, reply: Reply) {
        *self
            .seen
            .entry((entry, reply.number, reply.record))
            .or_default() += 1;
        if entry == Entry::SolvePlain || entry == Entry::SolveUnblocked {
            self.most_states = self.most_states.max(reply.states);
            self.most_rounds = self.most_rounds.max(reply.rounds);
        }
    }

    /// Each reply that can be given must have occurred: else the inputs are too weak, which
    /// counts as a failure.
    pub fn missing(&mut self) {
        for (entry, number, record) in possible() {
            if !self.seen.contains_key(&(entry, number, record)) {
                self.failed += 1;
                println!("{entry:?} never gave {number} with record {record}");
            }
        }
    }

    /// Say how often each reply occurred, and show the shortest difference.
    pub fn tell(&self) {
        if let Some(told) = &self.shortest {
            println!("THE SHORTEST DIFFERENCE\n{told}\n");
        }
        let mut lines: BTreeMap<Entry, String> = BTreeMap::new();
        for (&(entry, number, record), times) in &self.seen {
            let of = match record {
                0 => String::new(),
                _ => format!("/{record}"),
            };
            *lines.entry(entry).or_default() += &format!(" {number}{of}:{times}");
        }
        println!("replies, number/record:times");
        for (entry, line) in lines {
            println!("  {entry:?}{line}");
        }
        let (states, rounds) = (self.most_states, self.most_rounds);
        println!("largest answer {states} states, most rounds {rounds}");
    }
}

/// Every reply that document 01 lets each entry give: entry, number, record.
fn possible() -> Vec<(Entry, u32, u32)> {
    use Entry::*;
    let mut all = vec![(Write, 4, 3), (Write, 5, 3), (Check, 8, 2), (Check, 8, 3)];
    let mut add = |entry, records: &[u32], numbers: &[u32]| {
        for &number in numbers {
            for &record in records {
                all.push((entry, number, record));
            }
        }
    };
    let faults = &[1, 2, 3, 4, 5, 6, 7];
    add(ReadContext, &[1], faults);
    add(ReadContext, &[0], &[0]);
    add(ReadSpecification, &[2], faults);
    add(ReadSpecification, &[0], &[0]);
    add(ReadController, &[3], faults);
    add(ReadController, &[0], &[0, 10]);
    add(Write, &[0], &[0, 10]);
    for solve in [SolvePlain, SolveUnblocked] {
        add(solve, &[1, 2], faults);
        add(solve, &[2], &[8]);
        add(solve, &[0], &[0, 9, 10, 11]);
    }
    add(SolveUnblocked, &[0], &[12]);
    add(SolveUnknown, &[0], &[13]);
    add(Check, &[1, 2, 3], faults);
    add(Check, &[0], &[0, 9, 10, 14, 15, 16]);
    all
}
