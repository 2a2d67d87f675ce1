//! Damaged records: each kind of byte changed, cut, added, repeated.

use crate::bytes::sealed;
use crate::chance::Chance;

/// Where things stand in a record: bytes before the rows, bytes of a row, most rows.
#[derive(Clone, Copy)]
pub struct Layout {
    pub head: usize,
    pub row: usize,
    pub most_rows: usize,
}

pub const CONTEXT: Layout = Layout {
    head: 9,
    row: 6,
    most_rows: 4096,
};

pub const SPECIFICATION: Layout = Layout {
    head: 7,
    row: 4,
    most_rows: 1024,
};

pub const CONTROLLER: Layout = Layout {
    head: 8,
    row: 6,
    most_rows: 8192,
};

/// Numbers about the limits of counts and codes.
const EDGES: &[u8] = &[0, 1, 2, 3, 4, 5, 7, 8, 9, 63, 64, 65, 127, 128, 255];

/// Give a record its right length again.
fn resealed(record: Vec<u8>) -> Vec<u8> {
    sealed(record.get(2..).unwrap_or_default().to_vec())
}

/// Change one byte among these places, if the record is so long.
fn changed(chance: &mut Chance, mut record: Vec<u8>, from: usize, to: usize) -> Vec<u8> {
    let to = to.min(record.len());
    if from < to {
        let place = from + chance.below(to - from);
        record[place] = match chance.below(3) {
            0 => chance.pick(EDGES),
            1 => record[place].wrapping_add(chance.pick(&[1, 255])),
            _ => chance.byte(),
        };
    }
    record
}

/// Exchange two rows, repeat one with its next state or with another, or add rows of zeros.
fn with_rows_moved(chance: &mut Chance, layout: Layout, mut record: Vec<u8>) -> Vec<u8> {
    let rows = record.len().saturating_sub(layout.head) / layout.row;
    if rows == 0 {
        record.extend(vec![0; layout.row * (1 + chance.below(2))]);
        return resealed(record);
    }
    let (row, other) = (chance.below(rows), chance.below(rows));
    let from = layout.head + row * layout.row;
    if chance.one_in(2) {
        for byte in 0..layout.row {
            record.swap(from + byte, layout.head + other * layout.row + byte);
        }
        return record;
    }
    let mut again = record[from..from + layout.row].to_vec();
    if chance.one_in(2) {
        again[layout.row - 1] = chance.pick(&[0, 1]);
    }
    record.splice(from..from, again);
    resealed(record)
}

/// More rows than there may be, or more bytes than a length can tell.
fn oversized(chance: &mut Chance, layout: Layout, mut record: Vec<u8>) -> Vec<u8> {
    let bytes = match chance.below(3) {
        0 => layout.head + layout.row * layout.most_rows,
        1 => layout.head + layout.row * (layout.most_rows + 1 + chance.below(3)),
        _ => 65530 + chance.below(20),
    };
    record.resize(bytes.max(record.len()), 0);
    resealed(record)
}

/// Cut somewhere, in the counts, or in the last row; with the old or the right length.
fn cut(chance: &mut Chance, layout: Layout, mut record: Vec<u8>) -> Vec<u8> {
    let length = record.len();
    let left = match chance.below(4) {
        0 => chance.below(length + 1),
        1 => chance.below(layout.head + 2),
        _ => length.saturating_sub(1 + chance.below(layout.row)),
    };
    record.truncate(left);
    match chance.one_in(4) {
        true => record,
        false => resealed(record),
    }
}

/// A byte too many, or up to a row more with the right length.
fn lengthened(chance: &mut Chance, layout: Layout, mut record: Vec<u8>) -> Vec<u8> {
    if chance.one_in(2) {
        record.push(chance.byte());
        return record;
    }
    let more = 1 + chance.below(layout.row);
    record.extend((0..more).map(|_| chance.byte()));
    resealed(record)
}

/// Damage a record once.
pub fn damaged(chance: &mut Chance, layout: Layout, record: Vec<u8>) -> Vec<u8> {
    let length = record.len();
    match chance.below(24) {
        0..=4 => cut(chance, layout, record),
        5 | 6 => lengthened(chance, layout, record),
        // The length, the kind, the counts, the rows, the first rows, anything.
        7 => changed(chance, record, 0, 2),
        8 | 9 => changed(chance, record, 2, 4),
        10..=12 => changed(chance, record, 4, layout.head),
        13..=16 => changed(chance, record, layout.head, length),
        17 => changed(chance, record, layout.head, layout.head + 3 * layout.row),
        18 => changed(chance, record, 0, length),
        19 if chance.one_in(4) => oversized(chance, layout, record),
        _ => with_rows_moved(chance, layout, record),
    }
}
