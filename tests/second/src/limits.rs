//! Tables with as many rows as there may be, and one more.

use crate::bytes::{self, free, Step};
use crate::chance::Chance;
use crate::compare::{Compare, Lengths};
use crate::inputs::{self, Shape};
use crate::reply::Reply;
use crate::writing::Counts;

const LENT: Lengths = Lengths {
    sets: 512,
    next: 8192,
};

/// Shapes whose contexts have 4,096 rows if every key is taken.
const FULL_CONTEXTS: &[[u8; 6]] = &[
    [8, 8, 4, 4, 4, 16],
    [8, 4, 4, 4, 8, 8],
    [8, 2, 4, 4, 16, 4],
    [8, 1, 4, 4, 32, 2],
    [8, 1, 2, 4, 64, 1],
    [8, 1, 4, 2, 64, 1],
    [4, 1, 4, 4, 64, 1],
    [8, 8, 1, 1, 64, 1],
    [1, 4, 4, 4, 64, 1],
];

/// Shapes whose specifications have 1,024 rows if every key is taken.
const FULL_SPECIFICATIONS: &[[u8; 6]] = &[
    [8, 8, 2, 2, 4, 16],
    [8, 2, 4, 4, 1, 64],
    [2, 8, 4, 4, 1, 64],
    [4, 4, 4, 1, 1, 64],
    [8, 4, 2, 4, 2, 32],
    [4, 8, 3, 3, 2, 32],
];

fn shape([i, o, u, v, context, specification]: [u8; 6]) -> Shape {
    Shape {
        i,
        o,
        u,
        v,
        context,
        specification,
        safe: false,
    }
}

/// A row for every key.
fn full_context(chance: &mut Chance, shape: Shape) -> Vec<[u8; 6]> {
    let (mut rows, narrow) = (Vec::new(), chance.one_in(2));
    for state in 0..shape.context {
        for i in 0..shape.i {
            for v in 0..shape.v {
                for u in 0..shape.u {
                    for o in 0..shape.o {
                        // A narrow table moves on by (u, v) alone, so that its sets stay small.
                        let next = match narrow {
                            true => (state + u + v) % shape.context,
                            false => chance.below(shape.context as usize) as u8,
                        };
                        rows.push([state, i, v, u, o, next]);
                    }
                }
            }
        }
    }
    rows
}

fn full_specification(chance: &mut Chance, shape: Shape) -> Vec<[u8; 4]> {
    let (mut rows, narrow) = (Vec::new(), chance.one_in(2));
    for state in 0..shape.specification {
        for i in 0..shape.i {
            for o in 0..shape.o {
                let next = match narrow {
                    true => (state + 1) % shape.specification,
                    false => chance.below(shape.specification as usize) as u8,
                };
                rows.push([state, i, o, next]);
            }
        }
    }
    rows
}

fn context_bytes(shape: Shape, rows: &[[u8; 6]]) -> Vec<u8> {
    let counts = [shape.i, shape.o, shape.u, shape.v, shape.context];
    bytes::context(counts, rows)
}

fn specification_bytes(shape: Shape, rows: &[[u8; 4]]) -> Vec<u8> {
    bytes::specification([shape.i, shape.o, shape.specification], rows)
}

/// Solve and check a skid of large tables.
fn compare_skid(compare: &mut Compare, chance: &mut Chance, skid: (&[u8], &[u8])) {
    compare.read_context(skid.0);
    compare.read_specification(skid.1);
    compare.solve(0, skid.0, skid.1, LENT);
    compare.solve(1, skid.0, skid.1, LENT);
    for _ in 0..2 {
        let controller = inputs::controller(chance, skid.0[6], skid.0[7]);
        compare.check(skid.0, skid.1, &controller, LENT.sets);
    }
}

/// Every row of a controller with 512 states, U=V=4: 8,192 rows.
fn full_controller(step: impl Fn(u16, u8, u8) -> u16) -> Vec<Step> {
    let mut rows = Vec::new();
    for state in 0..512 {
        for u in 0..4 {
            for v in 0..4 {
                rows.push((state, u, v, step(state, u, v) % 512));
            }
        }
    }
    rows
}

/// Read, write and check the largest controllers.
fn controllers(compare: &mut Compare, chance: &mut Chance) {
    let tables = [
        full_controller(|state, _, _| state + 1),
        full_controller(|state, u, v| state * 4 + u16::from(u) + u16::from(v)),
        full_controller(|state, u, v| state ^ u16::from(u * 4 + v) << (state % 9)),
        full_controller(|state, _, _| 511 - state),
    ];
    for rows in tables {
        let record = bytes::controller(4, 4, 512, &rows);
        let (reply, next) = compare.read_controller(&record, 8192 + 7);
        compare.expect("8,192 rows", reply.reply, Reply::success(512));
        write_around(compare, &next[..8192], record.len());
        check_largest(compare, chance, &record);
        let more = [&rows[..], &[(511, 3, 3, 0)]].concat();
        let (reply, _) = compare.read_controller(&bytes::controller(4, 4, 512, &more), 8192);
        compare.expect("8,193 rows", reply.reply, Reply::of_record(4, 3));
    }
}

/// Write the largest table into a byte too few, just enough and more, and at a later start.
fn write_around(compare: &mut Compare, next: &[u16], length: usize) {
    let (u, v, states) = (4, 4, 512);
    for size in [length - 1, length, length + 9] {
        for start in [0, 5] {
            compare.write(Counts { u, v, states }, next, start + size, start);
        }
    }
}

/// Check a controller with U=V=4 on skids whose product of states is up to 64.
fn check_largest(compare: &mut Compare, chance: &mut Chance, record: &[u8]) {
    for (context, specification) in [(64, 1), (1, 64), (8, 8), (2, 2)] {
        let shape = shape([2, 2, 4, 4, context, specification]);
        let context = inputs::context(chance, shape);
        let specification = inputs::specification(chance, shape);
        compare.check(&context, &specification, record, 512);
        let (reply, _) = compare.check(&ring(shape.context), &free(2, 2), record, 512);
        compare.expect("a ring", reply, Reply::success(512));
    }
}

/// A context that goes round whatever happens: every complete controller fits it.
fn ring(states: u8) -> Vec<u8> {
    let mut rows = Vec::new();
    for state in 0..states {
        for i in 0..2 {
            for v in 0..4 {
                rows.extend((0..4).map(|u| [state, i, v, u, i, (state + 1) % states]));
            }
        }
    }
    bytes::context([2, 2, 4, 4, states], &rows)
}

/// Full contexts and full specifications, each beside a full table and one with holes.
fn full_tables(compare: &mut Compare, chance: &mut Chance) {
    for &counts in FULL_CONTEXTS.iter().chain(FULL_SPECIFICATIONS) {
        let shape = shape(counts);
        let rows = full_context(chance, shape);
        let allowed = full_specification(chance, shape);
        assert!(rows.len() == 4096 || allowed.len() == 1024);
        let context = context_bytes(shape, &rows);
        let specification = specification_bytes(shape, &allowed);
        compare_skid(compare, chance, (&context, &specification));
        let holes = inputs::specification(chance, shape);
        compare_skid(compare, chance, (&context, &holes));
        let holes = inputs::context(chance, shape);
        compare_skid(compare, chance, (&holes, &specification));
    }
}

/// As many rows as there may be, one more, and two more.
fn one_more(compare: &mut Compare, chance: &mut Chance) {
    let widest = shape([8, 8, 4, 4, 64, 64]);
    let rows = full_context(chance, widest);
    let allowed = full_specification(chance, widest);
    for more in 0..3 {
        let reply = |record| match more {
            0 => Reply::success(64),
            _ => Reply::of_record(4, record),
        };
        let record = context_bytes(widest, &rows[..4096 + more]);
        let product = compare.read_context(&record);
        compare.expect("4,096 rows and more", product, reply(1));
        let record = specification_bytes(widest, &allowed[..1024 + more]);
        let product = compare.read_specification(&record);
        compare.expect("1,024 rows and more", product, reply(2));
    }
}

/// The states of a controller stand in two bytes: each of them matters.
fn states(compare: &mut Compare) {
    for states in [0, 1, 255, 256, 511, 512, 513, 514, 767, 768, 65535] {
        let reply = match states {
            1..=512 => Reply::success(states.into()),
            _ => Reply::of_record(4, 3),
        };
        let record = bytes::controller(1, 1, states, &[(0, 0, 0, 0)]);
        let (product, _) = compare.read_controller(&record, 8192);
        compare.expect("states of a controller", product.reply, reply);
    }
}

/// Compare all tables at their limits.
pub fn limits(compare: &mut Compare, chance: &mut Chance) {
    full_tables(compare, chance);
    one_more(compare, chance);
    states(compare);
    controllers(compare, chance);
}
