//! The bytes of records, from counts and rows. Nothing is asked: what is wrong stays wrong.

/// Put the length before a record. Where it does not fit its two bytes, it is cut.
pub fn sealed(body: Vec<u8>) -> Vec<u8> {
    let mut record = (body.len() as u16).to_le_bytes().to_vec();
    record.extend(body);
    record
}

/// Counts I, O, U, V, states; rows (state, i, v, u, o, next).
pub fn context(counts: [u8; 5], rows: &[[u8; 6]]) -> Vec<u8> {
    let mut body = vec![0x43, 0x58];
    body.extend(counts);
    body.extend(rows.iter().flatten());
    sealed(body)
}

/// Counts I, O, states; rows (state, i, o, next).
pub fn specification(counts: [u8; 3], rows: &[[u8; 4]]) -> Vec<u8> {
    let mut body = vec![0x53, 0x50];
    body.extend(counts);
    body.extend(rows.iter().flatten());
    sealed(body)
}

/// A row (state, u, v, next).
pub type Step = (u16, u8, u8, u16);

/// Counts U, V, states; rows (state, u, v, next).
pub fn controller(u: u8, v: u8, states: u16, rows: &[Step]) -> Vec<u8> {
    let mut body = vec![0x43, 0x54, u, v];
    body.extend(states.to_le_bytes());
    for &(state, u, v, next) in rows {
        body.extend(state.to_le_bytes());
        body.extend([u, v]);
        body.extend(next.to_le_bytes());
    }
    sealed(body)
}

/// The free specification: one state, every i and o.
pub fn free(i: u8, o: u8) -> Vec<u8> {
    let mut rows = Vec::new();
    for i in 0..i {
        for o in 0..o {
            rows.push([0, i, o, 0]);
        }
    }
    specification([i, o, 1], &rows)
}
