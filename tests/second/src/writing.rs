//! Writing the controller record: document 01, refusals 4, 10 and 5 in this order.

use crate::reply::Reply;

/// The counts U, V and states of the table to write.
#[derive(Clone, Copy, Debug)]
pub struct Counts {
    pub u: u32,
    pub v: u32,
    pub states: u32,
}

/// Write the record from `out[start]` on.
pub fn write(counts: Counts, next: &[u16], out: &mut [u8], start: usize) -> Reply {
    let Counts { u, v, states } = counts;
    if !(1..=4).contains(&u) || !(1..=4).contains(&v) || !(1..=512).contains(&states) {
        return Reply::of_record(4, 3);
    }
    let places = (states * u * v) as usize;
    if next.len() < places {
        return Reply::refused(10);
    }
    let table = &next[..places];
    // The size is known before a bad number is looked for: 10 comes before 5.
    let record = record(counts, table);
    // Subtracting asks the same as adding would, and nothing can wrap.
    if start > out.len() || out.len() - start < record.len() {
        return Reply::refused(10);
    }
    let bad = |&step: &u16| step != 65535 && u32::from(step) >= states;
    if let Some(place) = table.iter().position(bad) {
        return Reply::of_row(5, 3, place);
    }
    out[start..start + record.len()].copy_from_slice(&record);
    Reply::success(states)
}

/// The bytes of the record, a row for each place that is not 65535.
fn record(counts: Counts, table: &[u16]) -> Vec<u8> {
    let mut body = vec![0x43, 0x54, counts.u as u8, counts.v as u8];
    body.extend((counts.states as u16).to_le_bytes());
    let per_state = (counts.u * counts.v) as usize;
    for (place, &next) in table.iter().enumerate() {
        if next == 65535 {
            continue;
        }
        let (state, step) = (place / per_state, place % per_state);
        let (u, v) = (step / counts.v as usize, step % counts.v as usize);
        body.extend((state as u16).to_le_bytes());
        body.extend([u as u8, v as u8]);
        body.extend(next.to_le_bytes());
    }
    let mut record = (body.len() as u16).to_le_bytes().to_vec();
    record.append(&mut body);
    record
}
