//! K1's records with every byte changed to every value, cut everywhere, and lengthened.

use crate::bytes::{controller, sealed};
use crate::compare::{Compare, Lengths};
use crate::known::k1_records;

const LENT: Lengths = Lengths {
    sets: 512,
    next: 8192,
};

/// Give three records to every entry that reads them.
fn give(compare: &mut Compare, records: &[Vec<u8>; 3], changed: usize) {
    let [context, specification, controller] = records;
    match changed {
        0 => compare.read_context(context),
        1 => compare.read_specification(specification),
        _ => compare.read_controller(controller, LENT.next).0.reply,
    };
    if changed < 2 {
        compare.solve(0, context, specification, LENT);
        compare.solve(1, context, specification, LENT);
    }
    compare.check(context, specification, controller, LENT.sets);
}

/// Compare all of them.
pub fn mutated(compare: &mut Compare) {
    let (context, specification) = k1_records();
    let answer = controller(
        2,
        2,
        2,
        &[(0, 0, 0, 1), (0, 1, 1, 0), (1, 0, 0, 0), (1, 1, 1, 1)],
    );
    let records = [context, specification, answer];
    for changed in 0..3 {
        let record = &records[changed];
        for place in 0..record.len() {
            for value in 0..=255 {
                let mut records = records.clone();
                records[changed][place] = value;
                give(compare, &records, changed);
            }
        }
        for length in 0..record.len() + 9 {
            let mut cut = record.clone();
            cut.resize(length, 0);
            let mut records = records.clone();
            records[changed] = cut.clone();
            give(compare, &records, changed);
            // The same with the right length.
            records[changed] = sealed(cut.get(2..).unwrap_or_default().to_vec());
            give(compare, &records, changed);
        }
    }
}
