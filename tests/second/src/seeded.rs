//! The seeded inputs: skids with their controllers, damaged records, and tables to write.

use crate::bytes;
use crate::chance::Chance;
use crate::compare::{Compare, Lengths, Solved};
use crate::damage::{self, damaged};
use crate::inputs::{self, Shape};
use crate::reply::Reply;
use crate::writing::Counts;

/// Lengths about the limits, mostly enough.
fn lengths(chance: &mut Chance) -> Lengths {
    if !chance.one_in(12) {
        return Lengths {
            sets: 512 + chance.below(9),
            next: 8192 + chance.below(9),
        };
    }
    Lengths {
        sets: chance.pick(&[0, 1, 64, 511, 512, 513]),
        next: chance.pick(&[0, 1, 4096, 8191, 8192, 8193]),
    }
}

/// The mode: plain, unblocked, or now and then an unknown one.
fn mode(chance: &mut Chance, known: u32) -> u32 {
    match chance.one_in(60) {
        true => chance.pick(&[2, 3, 255, 256, 257, 65536, 1 << 31, u32::MAX - 1, u32::MAX]),
        false => known,
    }
}

/// Now and then a count that does not match the other records.
fn other(chance: &mut Chance, count: u8) -> u8 {
    match chance.one_in(60) {
        true => 1 + count % 4,
        false => count,
    }
}

/// A controller for a skid: from what solving gave, or by chance.
fn controller(chance: &mut Chance, shape: Shape, solved: &Solved) -> Vec<u8> {
    let (u, v) = (other(chance, shape.u), other(chance, shape.v));
    let states = solved.reply.states as u16;
    if states == 0 || (u, v) != (shape.u, shape.v) || chance.one_in(3) {
        return inputs::controller(chance, u, v);
    }
    let mut rows = inputs::steps_of(u, v, states, &solved.next);
    if !chance.one_in(3) {
        rows = inputs::part(chance, &rows);
    }
    if chance.one_in(4) && !rows.is_empty() {
        let place = chance.below(rows.len());
        rows[place].3 = chance.below(states as usize) as u16;
    }
    bytes::controller(u, v, states, &rows)
}

/// A skid: read, solved in both modes; what was solved is written and checked.
pub fn skid(compare: &mut Compare, chance: &mut Chance) {
    let shape = inputs::shape(chance);
    let context = inputs::context(chance, shape);
    let (i, o) = (other(chance, shape.i), other(chance, shape.o));
    let specification = inputs::specification(chance, Shape { i, o, ..shape });
    compare.read_context(&context);
    compare.read_specification(&specification);
    for known in [0, 1] {
        let (mode, lengths) = (mode(chance, known), lengths(chance));
        let solved = compare.solve(mode, &context, &specification, lengths);
        // A wrong success with too few numbers has been shown; there is nothing to go on with.
        if solved.reply.number == 0 && lengths.next >= 8192 {
            let record = write_answer(compare, chance, shape, &solved);
            let (reply, _) = compare.check(&context, &specification, &record, 512);
            if mode == 1 {
                compare.expect("the unblocked answer fits", reply.number, 0);
            }
        }
        let controller = controller(chance, shape, &solved);
        let lent = self::lengths(chance);
        compare.read_controller(&controller, lent.next);
        compare.check(&context, &specification, &controller, lent.sets);
    }
}

/// An answer goes into a record and out of it, and stays the same. Returns the record.
fn write_answer(
    compare: &mut Compare,
    chance: &mut Chance,
    shape: Shape,
    solved: &Solved,
) -> Vec<u8> {
    let (u, v, states) = (shape.u.into(), shape.v.into(), solved.reply.states);
    let counts = Counts { u, v, states };
    let rows = inputs::steps_of(shape.u, shape.v, states as u16, &solved.next).len();
    let (start, size) = (chance.below(5), 8 + 6 * rows);
    let lent = start + size + chance.below(5);
    let (reply, out) = compare.write(counts, &solved.next, lent, start);
    compare.expect("an answer is written", reply, Reply::success(states));
    let record = out[start..start + size].to_vec();
    let (_, next) = compare.read_controller(&record, 8192);
    compare.expect_numbers("an answer is read again", &next, &solved.next[..8192]);
    record
}

/// Some or all of three records damaged, up to three times each.
pub fn damaged_records(compare: &mut Compare, chance: &mut Chance) {
    let shape = inputs::shape(chance);
    let mut records = [
        inputs::context(chance, shape),
        inputs::specification(chance, shape),
        inputs::controller(chance, shape.u, shape.v),
    ];
    let layouts = [damage::CONTEXT, damage::SPECIFICATION, damage::CONTROLLER];
    let which = 1 + chance.below(7);
    for (place, layout) in layouts.into_iter().enumerate() {
        if which & (1 << place) != 0 {
            for _ in 0..chance.pick(&[1, 1, 1, 2, 3]) {
                records[place] = damaged(chance, layout, std::mem::take(&mut records[place]));
            }
        }
    }
    if chance.one_in(100) {
        records.rotate_left(1);
    }
    let [context, specification, controller] = records;
    let lent = lengths(chance);
    compare.read_context(&context);
    compare.read_specification(&specification);
    compare.read_controller(&controller, lent.next);
    let mode = chance.pick(&[0, 1]);
    let mode = self::mode(chance, mode);
    compare.solve(mode, &context, &specification, lent);
    compare.check(&context, &specification, &controller, lent.sets);
}

/// A count about its limits, or one far off whose low bytes look right.
fn count(chance: &mut Chance, most: u32) -> u32 {
    if !chance.one_in(20) {
        return 1 + chance.below(most as usize) as u32;
    }
    chance.pick(&[0, most, most + 1, 256 + 1, 65536 + 1, 1 << 31, u32::MAX])
}

/// A next table, mostly a legal one.
fn next_table(chance: &mut Chance, places: usize, states: u32) -> Vec<u16> {
    let absent = chance.pick(&[1, 2, 3, 10, 1000]);
    let bad = chance.pick(&[usize::MAX, usize::MAX, usize::MAX, 3, 1000]);
    let states = states.clamp(1, 512) as u16;
    let mut step = |_| {
        if chance.one_in(bad) {
            return chance.pick(&[states, states + 1, 513, 65534]);
        }
        match chance.one_in(absent) {
            true => 65535,
            false => chance.below(states as usize) as u16,
        }
    };
    (0..places).map(&mut step).collect()
}

/// A table to write: any counts, too few or too many places, any start place.
pub fn write(compare: &mut Compare, chance: &mut Chance) {
    let (u, v) = (count(chance, 4), count(chance, 4));
    let most = chance.pick(&[2, 8, 8, 64, 512]);
    let states = count(chance, most);
    let legal = u <= 4 && v <= 4 && states <= 512;
    let places = if legal { (u * v * states) as usize } else { 64 };
    let mut next = next_table(chance, places, states);
    match chance.below(12) {
        0 => next.truncate(places.saturating_sub(1)),
        1 => next.clear(),
        // What stands behind the places is not looked at.
        2 => next.extend([65534, 0, 65535, 513]),
        _ => {}
    }
    let rows = next
        .iter()
        .take(places)
        .filter(|&&next| next != 65535)
        .count();
    let bytes = 8 + 6 * rows;
    let start = chance.below(20);
    let size = match chance.below(8) {
        0 => start + bytes - 1,
        1 => chance.below(start + bytes),
        2 | 3 => start + bytes,
        _ => start + bytes + chance.below(40),
    };
    let start = match chance.below(8) {
        0 => chance.pick(&[size, size + 1, size + bytes, 1 << 32, 1 << 63]),
        1 => usize::MAX - chance.below(2 * bytes + 2),
        _ => start,
    };
    compare.write(Counts { u, v, states }, &next, size, start);
}
