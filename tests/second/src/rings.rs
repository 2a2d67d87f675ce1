//! Skids made of rings, with exactly as many sets and rounds as wanted.
//!
//! A tail of context states leads to several rings, one for each i. So all sets lie on one path:
//! those of the tail have one pair, the later ones a pair on each ring, and these come round
//! after as many steps as the least common multiple of the lengths.

use crate::bytes::{context, specification};

/// A skid's context record and specification record.
pub type Records = (Vec<u8>, Vec<u8>);

/// Rings behind a tail; `from` is the tail's first state.
#[derive(Clone, Copy)]
pub struct Rings<'a> {
    from: u8,
    tail: u8,
    lengths: &'a [u8],
}

/// A step of the context on rings. `last` is the ring of which the state is the last place.
struct Step {
    state: u8,
    i: u8,
    next: u8,
    last: Option<u8>,
}

impl<'a> Rings<'a> {
    pub fn new(from: u8, tail: u8, lengths: &'a [u8]) -> Rings<'a> {
        Rings {
            from,
            tail,
            lengths,
        }
    }

    /// The states of tail and rings.
    pub fn states(&self) -> u8 {
        self.tail + self.lengths.iter().sum::<u8>()
    }

    /// One ring for each i.
    fn i(&self) -> u8 {
        self.lengths.len() as u8
    }

    /// The first state of a ring.
    fn first(&self, ring: usize) -> u8 {
        self.from + self.tail + self.lengths[..ring].iter().sum::<u8>()
    }

    /// After how many steps the rings come round together.
    pub fn round(&self) -> u32 {
        let mut steps = 1;
        while self
            .lengths
            .iter()
            .any(|&length| steps % u32::from(length) != 0)
        {
            steps += 1;
        }
        steps
    }

    fn steps(&self) -> Vec<Step> {
        let mut steps = Vec::new();
        for i in 0..self.i() {
            for place in 0..self.tail {
                let state = self.from + place;
                let next = match place + 1 < self.tail {
                    true => state + 1,
                    false => self.first(i.into()),
                };
                let last = None;
                steps.push(Step {
                    state,
                    i,
                    next,
                    last,
                });
            }
            for (ring, &length) in self.lengths.iter().enumerate() {
                for place in 0..length {
                    let state = self.first(ring) + place;
                    let next = self.first(ring) + (place + 1) % length;
                    let last = (place + 1 == length).then_some(ring as u8);
                    steps.push(Step {
                        state,
                        i,
                        next,
                        last,
                    });
                }
            }
        }
        steps
    }

    /// Every (u, v) goes on. The specification goes round beside, through so many states.
    pub fn going_round(&self, beside: u8, [u, v]: [u8; 2]) -> Records {
        let mut rows = Vec::new();
        for step in self.steps() {
            for v in 0..v {
                rows.extend((0..u).map(|u| [step.state, step.i, v, u, 0, step.next]));
            }
        }
        rows.sort_unstable();
        let states = self.from + self.states();
        let mut allowed = Vec::new();
        for c in 0..beside {
            allowed.extend((0..self.i()).map(|i| [c, i, 0, (c + 1) % beside]));
        }
        (
            context([self.i(), 1, u, v, states], &rows),
            specification([self.i(), 1, beside], &allowed),
        )
    }

    /// There is a v for each ring, and ring k refuses v = k at its last place. So only the set
    /// with all rings at their last places has no step at all. It falls in the first round, and
    /// each further round deletes the one set that leads to what fell before.
    ///
    /// There is one v more. From the start it leads to `safe`, rings that never fall, or, if
    /// these have no states, nowhere good. Elsewhere it is absent, or leads to the empty set
    /// (`empty`): then it is only the pairs of the fallen sets that have no continuation.
    pub fn falling(&self, safe: Rings, empty: bool) -> Records {
        let more = self.i();
        let mut rows = Vec::new();
        for step in self.steps() {
            let (state, i) = (step.state, step.i);
            for v in 0..more {
                let o = u8::from(step.last == Some(v));
                rows.push([state, i, v, 0, o, step.next]);
            }
            if state == 0 && !safe.lengths.is_empty() {
                rows.push([state, i, more, 0, 0, safe.first(i.into())]);
            } else if !empty {
                rows.push([state, i, more, 0, 1, step.next]);
            }
        }
        for step in safe.steps() {
            rows.extend((0..=more).map(|v| [step.state, step.i, v, 0, 0, step.next]));
        }
        rows.sort_unstable();
        let states = safe.from + safe.states();
        // Only o=0 is allowed.
        let allowed: Vec<_> = (0..self.i()).map(|i| [0, i, 0, 0]).collect();
        (
            context([self.i(), 2, 1, more + 1, states], &rows),
            specification([self.i(), 2, 1], &allowed),
        )
    }
}
