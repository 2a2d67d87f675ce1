//! Skids and controllers by chance: legal records of all shapes.

use crate::bytes::{self, Step};
use crate::chance::Chance;

/// The counts of a skid.
#[derive(Clone, Copy)]
pub struct Shape {
    pub i: u8,
    pub o: u8,
    pub u: u8,
    pub v: u8,
    pub context: u8,
    pub specification: u8,
    /// From the lower half of the context's states, v=0 stays there with o=0, which is always
    /// allowed: so there is an answer however much is deleted. Some of the upper states lack an
    /// i, so that something is.
    pub safe: bool,
}

/// Pairs of states whose product is exactly 64, or over it.
const FULL: &[(u8, u8)] = &[(64, 1), (1, 64), (32, 2), (2, 32), (16, 4), (4, 16), (8, 8)];
const OVER: &[(u8, u8)] = &[
    (5, 13),
    (13, 5),
    (9, 8),
    (33, 2),
    (2, 33),
    (64, 2),
    (64, 64),
];

/// From 1 to `most`, mostly small, the limit itself often.
fn count(chance: &mut Chance, most: usize) -> u8 {
    let bound = match chance.below(8) {
        0 => return most as u8,
        1 => return 1,
        2 => most,
        _ => most.min(3),
    };
    1 + chance.below(bound) as u8
}

fn states(chance: &mut Chance) -> (u8, u8) {
    if chance.one_in(40) {
        return chance.pick(OVER);
    }
    match chance.below(10) {
        0 => chance.pick(FULL),
        1 => {
            let context = 1 + chance.below(64);
            let specification = 1 + chance.below(64 / context);
            (context as u8, specification as u8)
        }
        2 => {
            let specification = 1 + chance.below(64);
            let context = 1 + chance.below(64 / specification);
            (context as u8, specification as u8)
        }
        3 | 4 => (1 + chance.below(16) as u8, 1 + chance.below(4) as u8),
        _ => (1 + chance.below(6) as u8, 1 + chance.below(4) as u8),
    }
}

pub fn shape(chance: &mut Chance) -> Shape {
    let (context, specification) = states(chance);
    let safe = chance.one_in(3);
    Shape {
        i: count(chance, 8),
        o: count(chance, 8),
        u: count(chance, 4),
        v: count(chance, 4).max(1 + u8::from(safe)),
        context,
        specification,
        safe,
    }
}

/// How a table's rows go on: anywhere, to the state itself or the one after it, or mostly to
/// the state itself.
#[derive(Clone, Copy)]
enum Manner {
    Anywhere,
    Onwards,
    Looping,
}

fn manner(chance: &mut Chance) -> Manner {
    chance.pick(&[Manner::Anywhere, Manner::Onwards, Manner::Looping])
}

fn next(chance: &mut Chance, manner: Manner, state: u8, states: u8) -> u8 {
    let anywhere = chance.below(states as usize) as u8;
    match manner {
        Manner::Anywhere => anywhere,
        Manner::Onwards => (state + chance.below(2) as u8) % states,
        Manner::Looping if chance.one_in(4) => anywhere,
        Manner::Looping => state,
    }
}

/// The (u, o) of the context's rows for a state, an i and a v.
fn outputs(chance: &mut Chance, shape: Shape, style: usize, at: [u8; 3]) -> Vec<(u8, u8)> {
    let [state, i, v] = at;
    let any = |chance: &mut Chance, codes: u8| chance.below(codes as usize) as u8;
    match style {
        // u tells the i, o follows the v: a skid as a plumber builds it.
        0 => vec![((state + i) % shape.u, v % shape.o)],
        // u tells the i, o does not follow.
        1 => vec![(i % shape.u, any(chance, shape.o))],
        // Any row.
        2 => vec![(any(chance, shape.u), any(chance, shape.o))],
        // Any few rows: the same i and v with several u.
        3 => (0..shape.u).map(|u| (u, any(chance, shape.o))).collect(),
        // All rows there are.
        _ => {
            let all = (0..shape.u).flat_map(|u| (0..shape.o).map(move |o| (u, o)));
            all.collect()
        }
    }
}

/// A context: some style of rows, with holes.
pub fn context(chance: &mut Chance, shape: Shape) -> Vec<u8> {
    let (style, manner) = (chance.pick(&[0, 0, 1, 1, 2, 2, 3, 4]), manner(chance));
    let hole = chance.pick(&[2, 4, 10, 40, 400, usize::MAX]);
    let lower = shape.context / 2 + 1;
    let mut rows = Vec::new();
    for state in 0..shape.context {
        for i in 0..shape.i {
            if shape.safe && state >= lower && chance.one_in(6) {
                continue;
            }
            for v in 0..shape.v {
                if shape.safe && v == 0 && state < lower {
                    let next = next(chance, manner, state, lower);
                    rows.push([state, i, v, (state + i) % shape.u, 0, next]);
                    continue;
                }
                for (u, o) in outputs(chance, shape, style, [state, i, v]) {
                    if !chance.one_in(hole) {
                        let next = next(chance, manner, state, shape.context);
                        rows.push([state, i, v, u, o, next]);
                    }
                }
            }
        }
    }
    chance.thin(&mut rows, 4096);
    rows.sort_unstable();
    let counts = [shape.i, shape.o, shape.u, shape.v, shape.context];
    bytes::context(counts, &rows)
}

/// A specification: every o, one o for each i, or some of them.
pub fn specification(chance: &mut Chance, shape: Shape) -> Vec<u8> {
    let (manner, one) = (manner(chance), chance.one_in(6));
    let hole = chance.pick(&[2, 4, 10, 40, 400, usize::MAX]);
    let mut rows = Vec::new();
    for state in 0..shape.specification {
        for i in 0..shape.i {
            for o in 0..shape.o {
                let wanted = !one || o == (state + i) % shape.o;
                if shape.safe && o == 0 || wanted && !chance.one_in(hole) {
                    let next = next(chance, manner, state, shape.specification);
                    rows.push([state, i, o, next]);
                }
            }
        }
    }
    chance.thin(&mut rows, 1024);
    rows.sort_unstable();
    bytes::specification([shape.i, shape.o, shape.specification], &rows)
}

/// The rows of a next table.
pub fn steps_of(u: u8, v: u8, states: u16, next: &[u16]) -> Vec<Step> {
    let mut rows = Vec::new();
    let mut next = next.iter();
    for state in 0..states {
        for u in 0..u {
            for v in 0..v {
                match next.next() {
                    Some(65535) | None => {}
                    Some(&next) => rows.push((state, u, v, next)),
                }
            }
        }
    }
    rows
}

/// A part of an answer: for each state and u one of its rows, or each row with some luck.
pub fn part(chance: &mut Chance, rows: &[Step]) -> Vec<Step> {
    let mut taken: Vec<Step> = Vec::new();
    let single = !chance.one_in(3);
    let hole = chance.pick(&[3, 20, 100]);
    for &row in rows {
        let again = taken
            .last()
            .map_or(false, |last| (last.0, last.1) == (row.0, row.1));
        if !single {
            if !chance.one_in(hole) {
                taken.push(row);
            }
        } else if !again {
            taken.push(row);
        } else if chance.one_in(2) {
            taken.pop();
            taken.push(row);
        }
    }
    taken
}

/// A controller by chance, of these counts.
pub fn controller(chance: &mut Chance, u: u8, v: u8) -> Vec<u8> {
    let most = match chance.one_in(24) {
        true => 512,
        false => chance.pick(&[1, 2, 4, 4, 8, 8, 32, 64]),
    };
    let states = 1 + chance.below(most) as u16;
    let hole = chance.pick(&[2, 2, 3, 6, 50]);
    let complete = !chance.one_in(5);
    let mut rows: Vec<Step> = Vec::new();
    for state in 0..states {
        for u in 0..u {
            let chosen = chance.below(v as usize) as u8;
            for v in 0..v {
                if (complete && v == chosen) || !chance.one_in(hole) {
                    rows.push((state, u, v, chance.below(states as usize) as u16));
                }
            }
        }
    }
    bytes::controller(u, v, states, &rows)
}
