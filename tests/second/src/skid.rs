//! A skid: the context and the specification side by side, as the steps of its pairs.

use crate::records::Table;
use crate::reply::Reply;
use std::collections::{BTreeMap, BTreeSet};

/// A state of the context. It is never taken for a state of the specification.
#[derive(Clone, Copy, PartialEq, Eq, PartialOrd, Ord)]
pub struct ContextState(pub u32);

/// A state of the specification.
#[derive(Clone, Copy, PartialEq, Eq, PartialOrd, Ord)]
pub struct SpecificationState(pub u32);

/// A pair (a, c).
pub type Pair = (ContextState, SpecificationState);

/// A set of pairs.
pub type Pairs = BTreeSet<Pair>;

/// The pair that every combined word starts from.
pub const START: Pair = (ContextState(0), SpecificationState(0));

/// What the context's rows with one u and one v do from one pair.
#[derive(Default)]
pub struct Joint {
    /// The pairs reached by the rows that have a specification row for their i and o.
    pub reached: Pairs,
    /// Some of the rows have none.
    pub leaves: bool,
}

/// A context and a specification whose counts match.
pub struct Skid {
    /// The counts I, U and V.
    pub i: u32,
    pub u: u32,
    pub v: u32,
    specification_states: u32,
    joint: BTreeMap<(Pair, u32, u32), Joint>,
    signals: BTreeMap<(ContextState, u32), BTreeSet<(u32, u32)>>,
}

/// Refusal 8 for the specification: I or O differ from those of the context.
pub fn same_outside(context: &Table, specification: &Table) -> Result<(), Reply> {
    if context.counts[..2] != specification.counts[..2] {
        return Err(Reply::of_record(8, 2));
    }
    Ok(())
}

/// Refusal 9: the product of the states is over 64.
pub fn in_product(context: &Table, specification: &Table) -> Result<(), Reply> {
    if context.counts[4] * specification.counts[2] > 64 {
        return Err(Reply::refused(9));
    }
    Ok(())
}

impl Skid {
    /// Put each row of the context beside each state of the specification.
    pub fn new(context: &Table, specification: &Table) -> Skid {
        let mut skid = Skid {
            i: context.counts[0],
            u: context.counts[2],
            v: context.counts[3],
            specification_states: specification.counts[2],
            joint: BTreeMap::new(),
            signals: BTreeMap::new(),
        };
        for (key, &next) in &context.next {
            // The record has v before u; everywhere else u comes first.
            let (a, i, v, u, o) = (ContextState(key[0]), key[1], key[2], key[3], key[4]);
            skid.signals.entry((a, i)).or_default().insert((u, v));
            for c in 0..skid.specification_states {
                let pair = (a, SpecificationState(c));
                let joint = skid.joint.entry((pair, u, v)).or_default();
                match specification.next.get(&vec![c, i, o]) {
                    Some(&c) => {
                        let reached = (ContextState(next), SpecificationState(c));
                        joint.reached.insert(reached);
                    }
                    None => joint.leaves = true,
                }
            }
        }
        skid
    }

    /// What the context's rows with these u and v do from a pair; nothing if there are none.
    pub fn joint(&self, pair: Pair, u: u32, v: u32) -> Option<&Joint> {
        self.joint.get(&(pair, u, v))
    }

    /// Has the context a row from a on i whose (u, v) is as asked?
    pub fn continues(&self, a: ContextState, i: u32, asked: impl Fn(u32, u32) -> bool) -> bool {
        match self.signals.get(&(a, i)) {
            Some(signals) => signals.iter().any(|&(u, v)| asked(u, v)),
            None => false,
        }
    }

    /// A set as a number of 64 bits.
    pub fn bits(&self, set: &Pairs) -> u64 {
        let place = |&(a, c): &Pair| a.0 * self.specification_states + c.0;
        set.iter().map(|pair| 1 << place(pair)).sum()
    }
}
