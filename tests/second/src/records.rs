//! Reading a record: document 01, "Signals and tables" and refusals 1 to 7.
//!
//! One reader serves the three kinds; a `Form` says what is particular to each.

use crate::reply::{ControllerReply, Reply};
use std::collections::BTreeMap;

/// A count at a record's head: its bytes, and the most it may be. The least is always 1.
struct Count {
    bytes: usize,
    most: u32,
}

/// A field of a row: its bytes, and the place of the count that it must be below.
struct Field {
    bytes: usize,
    below: usize,
}

/// What a kind of record looks like. The last field of a row is its next state; the others are
/// its key.
pub struct Form {
    record: u32,
    kind: [u8; 2],
    counts: &'static [Count],
    fields: &'static [Field],
    most_rows: usize,
}

const fn count(bytes: usize, most: u32) -> Count {
    Count { bytes, most }
}

const fn field(bytes: usize, below: usize) -> Field {
    Field { bytes, below }
}

/// Counts I, O, U, V, states; rows (state, i, v, u, o, next).
pub const CONTEXT: Form = Form {
    record: 1,
    kind: [0x43, 0x58],
    counts: &[
        count(1, 8),
        count(1, 8),
        count(1, 4),
        count(1, 4),
        count(1, 64),
    ],
    fields: &[
        field(1, 4),
        field(1, 0),
        field(1, 3),
        field(1, 2),
        field(1, 1),
        field(1, 4),
    ],
    most_rows: 4096,
};

/// Counts I, O, states; rows (state, i, o, next).
pub const SPECIFICATION: Form = Form {
    record: 2,
    kind: [0x53, 0x50],
    counts: &[count(1, 8), count(1, 8), count(1, 64)],
    fields: &[field(1, 2), field(1, 0), field(1, 1), field(1, 2)],
    most_rows: 1024,
};

/// Counts U, V, states; rows (state, u, v, next), both states in two bytes.
pub const CONTROLLER: Form = Form {
    record: 3,
    kind: [0x43, 0x54],
    counts: &[count(1, 4), count(1, 4), count(2, 512)],
    fields: &[field(2, 2), field(1, 0), field(1, 1), field(2, 2)],
    most_rows: 8192,
};

/// A legal table: its counts, and the next state of each key, both in the form's order.
pub struct Table {
    pub counts: Vec<u32>,
    pub next: BTreeMap<Vec<u32>, u32>,
}

/// Multi-byte numbers are little-endian.
fn number(bytes: &[u8]) -> u32 {
    bytes
        .iter()
        .rev()
        .fold(0, |high, &low| high * 256 + u32::from(low))
}

/// Cut bytes into numbers of these widths.
fn numbers(mut bytes: &[u8], widths: impl Iterator<Item = usize>) -> Vec<u32> {
    let mut found = Vec::new();
    for width in widths {
        let (first, rest) = bytes.split_at(width);
        found.push(number(first));
        bytes = rest;
    }
    found
}

/// Read a record of this form: the table, or refusal 1 to 7.
pub fn read(form: &Form, bytes: &[u8]) -> Result<Table, Reply> {
    let refused = |number| Err(Reply::of_record(number, form.record));
    if bytes.len() < 4 || number(&bytes[..2]) as usize != bytes.len() - 2 {
        return refused(1);
    }
    if bytes[2..4] != form.kind {
        return refused(2);
    }
    let body = &bytes[4..];
    let head_bytes: usize = form.counts.iter().map(|count| count.bytes).sum();
    let row_bytes: usize = form.fields.iter().map(|field| field.bytes).sum();
    if body.len() < head_bytes || (body.len() - head_bytes) % row_bytes != 0 {
        return refused(3);
    }
    let (head, rows) = body.split_at(head_bytes);
    let counts = numbers(head, form.counts.iter().map(|count| count.bytes));
    let within = |(&given, count): (&u32, &Count)| 1 <= given && given <= count.most;
    if !counts.iter().zip(form.counts).all(within) || rows.len() / row_bytes > form.most_rows {
        return refused(4);
    }
    let next = read_rows(form, &counts, rows.chunks(row_bytes))?;
    Ok(Table { counts, next })
}

/// Read the rows, or refuse the first faulty one.
fn read_rows<'a>(
    form: &Form,
    counts: &[u32],
    rows: impl Iterator<Item = &'a [u8]>,
) -> Result<BTreeMap<Vec<u32>, u32>, Reply> {
    let mut found: BTreeMap<Vec<u32>, u32> = BTreeMap::new();
    for (place, bytes) in rows.enumerate() {
        let mut row = numbers(bytes, form.fields.iter().map(|field| field.bytes));
        let below = |(&given, field): (&u32, &Field)| given < counts[field.below];
        if !row.iter().zip(form.fields).all(below) {
            return Err(Reply::of_row(5, form.record, place));
        }
        let next = row.pop().unwrap_or_default();
        // All keys so far rose, so the largest one is that of the row before.
        if let Some(before) = found.keys().next_back() {
            if row == *before {
                return Err(Reply::of_row(6, form.record, place));
            }
            if row < *before {
                return Err(Reply::of_row(7, form.record, place));
            }
        }
        found.insert(row, next);
    }
    Ok(found)
}

/// The reply to reading a context or a specification by itself.
pub fn read_alone(form: &Form, bytes: &[u8]) -> Reply {
    match read(form, bytes) {
        Ok(table) => Reply::success(table.counts[table.counts.len() - 1]),
        Err(refusal) => refusal,
    }
}

/// Read a controller into lent numbers: the record, then 10.
pub fn read_controller(bytes: &[u8], lent: &mut [u16]) -> ControllerReply {
    let refused = |reply| ControllerReply { reply, u: 0, v: 0 };
    let table = match read(&CONTROLLER, bytes) {
        Ok(table) => table,
        Err(refusal) => return refused(refusal),
    };
    if lent.len() < 8192 {
        return refused(Reply::refused(10));
    }
    let (u, v, states) = (table.counts[0], table.counts[1], table.counts[2]);
    let mut next = Vec::new();
    for state in 0..states {
        for u in 0..u {
            for v in 0..v {
                let step = table.next.get(&vec![state, u, v]);
                next.push(step.map_or(65535, |&next| next as u16));
            }
        }
    }
    next.resize(8192, 0);
    lent[..8192].copy_from_slice(&next);
    let reply = Reply::success(states);
    ControllerReply { reply, u, v }
}
