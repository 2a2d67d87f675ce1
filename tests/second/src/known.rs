//! K1 to K12, with the replies and tables of document 01, "Skids to test on".
//!
//! What is expected was typed in from there, by hand where document 01 gives only the states.

use crate::bytes::{context, controller, free, specification, Step};
use crate::compare::{Compare, Lengths};
use crate::reply::Reply;

/// A little more than must be lent.
const LENT: Lengths = Lengths {
    sets: 512 + 3,
    next: 8192 + 5,
};

/// What a mode gives: an answer with its rounds, the sets of its states and its rows
/// (state, u, v, next); or 12 with its rounds.
enum Expected {
    Answer(u32, &'static [u64], &'static [[u16; 4]]),
    NoAnswer(u32),
}

use Expected::{Answer, NoAnswer};

struct Known {
    name: &'static str,
    context: Vec<u8>,
    specification: Vec<u8>,
    plain: Expected,
    unblocked: Expected,
}

impl Known {
    fn compare(&self, compare: &mut Compare) {
        compare.read_context(&self.context);
        compare.read_specification(&self.specification);
        // U and V stand behind length, kind, I and O.
        let steps = (self.context[6] as u16, self.context[7] as u16);
        for (mode, expected) in [(0, &self.plain), (1, &self.unblocked)] {
            let solved = compare.solve(mode, &self.context, &self.specification, LENT);
            let (reply, sets, next) = expected.laid(steps);
            let name = format!("{} mode {mode}", self.name);
            compare.expect(&name, solved.reply, reply);
            compare.expect_numbers(&name, &solved.sets[..512], &sets);
            compare.expect_numbers(&name, &solved.next[..8192], &next);
        }
    }
}

impl Expected {
    /// The reply and both parts, from U, V and what was typed in.
    fn laid(&self, (u, v): (u16, u16)) -> (Reply, Vec<u64>, Vec<u16>) {
        match *self {
            NoAnswer(rounds) => {
                let mut reply = Reply::refused(12);
                reply.rounds = rounds;
                (reply, vec![0; 512], vec![0; 8192])
            }
            Answer(rounds, sets, rows) => {
                let mut reply = Reply::success(sets.len() as u32);
                reply.rounds = rounds;
                let mut next = vec![65535; sets.len() * (u * v) as usize];
                for row in rows {
                    next[(row[0] * u * v + row[1] * v + row[2]) as usize] = row[3];
                }
                next.resize(8192, 0);
                let mut sets = sets.to_vec();
                sets.resize(512, 0);
                (reply, sets, next)
            }
        }
    }
}

const K1_CONTEXT: [u8; 33] = [
    0x1F, 0x00, 0x43, 0x58, 0x02, 0x02, 0x02, 0x02, 0x01, // counts 2, 2, 2, 2 and one state
    0, 0, 0, 0, 0, 0, //
    0, 0, 1, 0, 1, 0, //
    0, 1, 0, 1, 0, 0, //
    0, 1, 1, 1, 1, 0,
];

const K1_SPECIFICATION: [u8; 15] = [
    0x0D, 0x00, 0x53, 0x50, 0x02, 0x02, 0x01, // counts 2, 2 and one state
    0, 0, 0, 0, //
    0, 1, 1, 0,
];

/// K1's context and specification.
pub fn k1_records() -> (Vec<u8>, Vec<u8>) {
    (K1_CONTEXT.to_vec(), K1_SPECIFICATION.to_vec())
}

fn k1() -> Known {
    let answer = || Answer(0, &[1], &[[0, 0, 0, 0], [0, 1, 1, 0]]);
    Known {
        name: "K1",
        context: K1_CONTEXT.to_vec(),
        specification: K1_SPECIFICATION.to_vec(),
        plain: answer(),
        unblocked: answer(),
    }
}

/// K2's rows from state 0: on any i, v=0 stays, v=1 goes to 1.
const K2_START: [[u8; 6]; 4] = [
    [0, 0, 0, 0, 0, 0],
    [0, 0, 1, 0, 0, 1],
    [0, 1, 0, 0, 0, 0],
    [0, 1, 1, 0, 0, 1],
];

fn k2() -> Known {
    let rows = [&K2_START[..], &[[1, 0, 0, 0, 0, 1], [1, 0, 1, 0, 0, 1]]].concat();
    Known {
        name: "K2",
        context: context([2, 1, 1, 2, 2], &rows),
        specification: free(2, 1),
        plain: Answer(
            0,
            &[1, 2],
            &[[0, 0, 0, 0], [0, 0, 1, 1], [1, 0, 0, 1], [1, 0, 1, 1]],
        ),
        unblocked: Answer(1, &[1], &[[0, 0, 0, 0]]),
    }
}

/// K3's specification: O=2, only o=0.
fn k3_specification() -> Vec<u8> {
    specification([1, 2, 1], &[[0, 0, 0, 0]])
}

fn k3() -> Known {
    Known {
        name: "K3",
        context: context([1, 2, 1, 1, 1], &[[0, 0, 0, 0, 1, 0]]),
        specification: k3_specification(),
        plain: Answer(0, &[1], &[]),
        unblocked: NoAnswer(1),
    }
}

fn k4() -> Known {
    let rows = &[[0, 0, 0, 0], [0, 1, 0, 1], [1, 0, 0, 1], [1, 1, 0, 1]];
    Known {
        name: "K4",
        context: context([1, 1, 2, 1, 1], &[[0, 0, 0, 0, 0, 0]]),
        specification: free(1, 1),
        plain: Answer(0, &[1, 0], rows),
        unblocked: Answer(0, &[1, 0], rows),
    }
}

fn k5() -> Known {
    let onwards = [
        [1, 0, 0, 0, 0, 2],
        [1, 0, 1, 0, 0, 2],
        [1, 1, 0, 0, 0, 2],
        [1, 1, 1, 0, 0, 2],
    ];
    let end = [[2, 0, 0, 0, 0, 2], [2, 0, 1, 0, 0, 2]];
    let rows = [&K2_START[..], &onwards, &end].concat();
    let steps = &[
        [0, 0, 0, 0],
        [0, 0, 1, 1],
        [1, 0, 0, 2],
        [1, 0, 1, 2],
        [2, 0, 0, 2],
        [2, 0, 1, 2],
    ];
    Known {
        name: "K5",
        context: context([2, 1, 1, 2, 3], &rows),
        specification: free(2, 1),
        plain: Answer(0, &[1, 2, 4], steps),
        unblocked: Answer(2, &[1], &[[0, 0, 0, 0]]),
    }
}

/// K6's context: loops for (i, v) = (0, 0) and (1, 1).
fn k6_context() -> Vec<u8> {
    context([2, 1, 1, 2, 1], &[[0, 0, 0, 0, 0, 0], [0, 1, 1, 0, 0, 0]])
}

fn k6() -> Known {
    let both = || Answer(0, &[1], &[[0, 0, 0, 0], [0, 0, 1, 0]]);
    Known {
        name: "K6",
        context: k6_context(),
        specification: free(2, 1),
        plain: both(),
        unblocked: both(),
    }
}

fn k7() -> Known {
    Known {
        name: "K7",
        context: context([2, 2, 1, 1, 1], &[[0, 0, 0, 0, 0, 0], [0, 1, 0, 0, 1, 0]]),
        specification: specification([2, 2, 1], &[[0, 0, 0, 0], [0, 1, 0, 0]]),
        plain: Answer(0, &[1], &[]),
        unblocked: NoAnswer(1),
    }
}

fn k8() -> Known {
    Known {
        name: "K8",
        context: context([1, 2, 1, 1, 2], &[[0, 0, 0, 0, 1, 1]]),
        specification: k3_specification(),
        plain: Answer(0, &[1], &[]),
        unblocked: NoAnswer(1),
    }
}

fn k9() -> Known {
    Known {
        name: "K9",
        context: context([2, 1, 1, 1, 1], &[[0, 0, 0, 0, 0, 0]]),
        specification: specification([2, 1, 1], &[[0, 0, 0, 0]]),
        plain: Answer(0, &[1], &[[0, 0, 0, 0]]),
        unblocked: NoAnswer(1),
    }
}

fn k10() -> Known {
    Known {
        name: "K10",
        context: context([1, 1, 1, 1, 1], &[]),
        specification: free(1, 1),
        plain: Answer(0, &[1, 0], &[[0, 0, 0, 1], [1, 0, 0, 1]]),
        unblocked: NoAnswer(1),
    }
}

/// K11 with this many states: I=U=2; state 0 loops on i=0 with each u, and goes to 1 on i=1,
/// u=1; state k goes to k+1 on i=0 with each u; the last has no rows.
pub fn k11_records(states: u8) -> (Vec<u8>, Vec<u8>) {
    let mut rows = vec![[0, 0, 0, 0, 0, 0], [0, 0, 0, 1, 0, 0], [0, 1, 0, 1, 0, 1]];
    for k in 1..states - 1 {
        rows.push([k, 0, 0, 0, 0, k + 1]);
        rows.push([k, 0, 0, 1, 0, k + 1]);
    }
    (context([2, 1, 2, 1, states], &rows), free(2, 1))
}

/// K12, and what K6 says of a controller.
fn controllers(compare: &mut Compare) {
    let on_k1: [(&[Step], Reply, u64); 3] = [
        (&[(0, 0, 0, 0)], Reply::refused(14), 0),
        (&[(0, 0, 1, 0), (0, 1, 1, 0)], Reply::refused(15), 1),
        (&[(0, 0, 0, 0), (0, 1, 1, 0)], Reply::success(1), 1),
    ];
    let (context, specification) = k1_records();
    for (rows, reply, set) in on_k1 {
        let controller = controller(2, 2, 1, rows);
        let (product, sets) = compare.check(&context, &specification, &controller, LENT.sets);
        compare.expect("K12", product, reply);
        compare.expect_numbers("K12", &sets[..512], &[&[set], &[0; 511][..]].concat());
    }
    let controller = controller(1, 2, 1, &[(0, 0, 0, 0)]);
    let (product, sets) = compare.check(&k6_context(), &free(2, 1), &controller, LENT.sets);
    compare.expect("K6", product, Reply::refused(16));
    compare.expect_numbers("K6", &sets[..512], &[&[1], &[0; 511][..]].concat());
}

/// K12's last sentence: states 8 and 8 pass, 5 and 13 give 9.
fn products(compare: &mut Compare) {
    let answer = controller(2, 2, 1, &[(0, 0, 0, 0), (0, 1, 1, 0)]);
    for (states, reply) in [((8, 8), Reply::success(1)), ((5, 13), Reply::refused(9))] {
        let (mut context, mut specification) = k1_records();
        context[8] = states.0;
        specification[6] = states.1;
        for mode in [0, 1] {
            let solved = compare.solve(mode, &context, &specification, LENT);
            compare.expect("K12 states", solved.reply, reply);
        }
        let (product, _) = compare.check(&context, &specification, &answer, LENT.sets);
        compare.expect("K12 states", product, reply);
    }
}

/// Compare K1 to K12.
pub fn known(compare: &mut Compare) {
    for skid in [k1(), k2(), k3(), k4(), k5(), k6(), k7(), k8(), k9(), k10()] {
        skid.compare(compare);
    }
    for (states, reply) in [(10, Reply::success(512)), (11, Reply::refused(11))] {
        let (context, specification) = k11_records(states);
        let solved = compare.solve(0, &context, &specification, LENT);
        compare.expect("K11", solved.reply, reply);
        compare.solve(1, &context, &specification, LENT);
    }
    controllers(compare);
    products(compare);
}
