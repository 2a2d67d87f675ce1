//! Skids of a shape made by hand, whose replies are known beforehand: exactly so many sets,
//! hundreds of rounds, all pairs at once.

use crate::bytes::{context, controller, free, specification};
use crate::compare::{Compare, Lengths};
use crate::inputs::steps_of;
use crate::known::k11_records;
use crate::reply::Reply;
use crate::rings::{Records, Rings};

const LENT: Lengths = Lengths {
    sets: 520,
    next: 8200,
};

/// What a plain answer of so many states is replied.
fn plain(states: u32) -> Reply {
    match states {
        0..=512 => Reply::success(states),
        _ => Reply::refused(11),
    }
}

/// Solve in both modes; the replies are as foreseen. The answers are checked: what is
/// unblocked fits.
fn solve(compare: &mut Compare, name: &str, skid: &Records, foreseen: [Reply; 2]) {
    let (u, v) = (skid.0[6], skid.0[7]);
    for (mode, foreseen) in (0..).zip(foreseen) {
        let solved = compare.solve(mode, &skid.0, &skid.1, LENT);
        compare.expect(name, solved.reply, foreseen);
        let states = solved.reply.states as u16;
        if states > 0 {
            let rows = steps_of(u, v, states, &solved.next);
            let record = controller(u, v, states, &rows);
            let (reply, _) = compare.check(&skid.0, &skid.1, &record, LENT.sets);
            if mode == 1 {
                compare.expect(name, reply, Reply::success(states.into()));
            }
        }
    }
}

/// Rings with exactly 511, 512, 513 and 514 sets.
fn exact(compare: &mut Compare) {
    let shapes: [&[u8]; 7] = [
        &[7, 8, 9],
        &[5, 9, 11],
        &[5, 6, 17],
        &[2, 3, 5, 17],
        &[16, 31],
        &[23, 22],
        &[8, 9, 7, 1, 1, 1, 1, 1],
    ];
    for lengths in shapes {
        let round = Rings::new(0, 0, lengths).round();
        for sets in 511..=514 {
            let rings = Rings::new(0, (sets - round) as u8, lengths);
            if rings.states() <= 64 {
                let skid = rings.going_round(1, [1, 1]);
                solve(compare, "rings", &skid, [plain(sets); 2]);
            }
        }
    }
}

/// Rings with a specification that goes round beside: the pairs of a path differ in both
/// halves. Every (u, v) does the same.
fn beside(compare: &mut Compare) {
    let shapes: [(u8, &[u8], u8, u32); 3] = [
        (1, &[3, 5, 7], 4, 1 + 420),
        (5, &[2, 5, 9], 3, 5 + 90),
        (3, &[3, 4, 5], 4, 3 + 60),
    ];
    for (tail, lengths, beside, sets) in shapes {
        let skid = Rings::new(0, tail, lengths).going_round(beside, [4, 4]);
        solve(compare, "rings", &skid, [plain(sets); 2]);
    }
}

/// Rings that fall set by set, through up to 512 rounds. Nothing is left, or other rings stay,
/// as long as they come round in so many steps.
fn falling(compare: &mut Compare) {
    let shapes: [(u8, &[u8], &[u8], u32); 9] = [
        (8, &[7, 8, 9], &[], 0),
        (7, &[7, 8, 9], &[], 0),
        (7, &[7, 8, 9], &[1, 1, 1], 1),
        (1, &[7, 8, 9], &[2, 1, 3], 6),
        (16, &[5, 9, 11], &[], 0),
        (2, &[5, 7, 8], &[4, 5, 11], 220),
        (3, &[4, 5, 7], &[7, 5, 9], 315),
        (3, &[4, 5], &[3, 5], 15),
        (1, &[2, 3], &[1, 1], 1),
    ];
    for (tail, lengths, safe, staying) in shapes {
        let rings = Rings::new(0, tail, lengths);
        let path = u32::from(tail) + rings.round();
        let safe = Rings::new(rings.states(), 0, safe);
        let mut reply = match staying {
            0 => Reply::refused(12),
            // The start stays too, and that saves the last round.
            _ => Reply::success(1 + staying),
        };
        reply.rounds = path - staying.min(1);
        for empty in [false, true] {
            let sets = path + staying + u32::from(empty);
            let foreseen = match sets {
                0..=512 => [plain(sets), reply],
                _ => [plain(sets); 2],
            };
            let skid = rings.falling(safe, empty);
            solve(compare, "falling rings", &skid, foreseen);
        }
    }
}

/// All pairs in one set: i moves the context on, o the specification. Bit 63 is used.
fn spread(compare: &mut Compare) {
    let shapes = [(64, 1), (1, 64), (32, 2), (2, 32), (16, 4), (4, 16), (8, 8)];
    for (a, c) in shapes {
        let (mut rows, mut allowed) = (Vec::new(), Vec::new());
        for i in 0..2 {
            for o in 0..2 {
                rows.extend((0..a).map(|state| [state, i, 0, 0, o, (state + i) % a]));
                allowed.extend((0..c).map(|state| [state, i, o, (state + o) % c]));
            }
        }
        rows.sort_unstable();
        allowed.sort_unstable();
        let skid = (
            context([2, 2, 1, 1, a], &rows),
            specification([2, 2, c], &allowed),
        );
        let states = a.max(c);
        solve(compare, "spread", &skid, [plain(states.into()); 2]);
        let solved = compare.solve(1, &skid.0, &skid.1, LENT);
        compare.expect("all pairs", solved.sets[states as usize - 1], u64::MAX);
    }
}

/// K11 with fewer and more states; and the smallest context, with all other counts the largest.
fn others(compare: &mut Compare) {
    for states in 2..=13 {
        let (context, specification) = k11_records(states);
        let solved = compare.solve(0, &context, &specification, LENT);
        compare.expect("like K11", solved.reply, plain(1 << (states - 1)));
        compare.solve(1, &context, &specification, LENT);
    }
    let skid = (context([8, 8, 4, 4, 64], &[]), free(8, 8));
    let mut blocked = Reply::refused(12);
    blocked.rounds = 1;
    solve(compare, "no rows", &skid, [Reply::success(2), blocked]);
}

/// Compare all families.
pub fn families(compare: &mut Compare) {
    exact(compare);
    beside(compare);
    falling(compare);
    spread(compare);
    others(compare);
}
