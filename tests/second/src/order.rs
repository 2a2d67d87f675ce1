//! The order of refusals: every combination of faults, and which of them decides.

use crate::bytes::{context, controller, free, sealed, specification};
use crate::compare::{Compare, Lengths};
use crate::known::k11_records;
use crate::reply::Reply;

/// Put refusal 1, 2, 3 or 4 into a legal record, or 5, 6 or 7 into this row or the one after
/// it; 0 changes nothing. `head` and `row` are the bytes before the rows and of a row.
fn with_fault(mut record: Vec<u8>, [head, row]: [usize; 2], number: u32, place: usize) -> Vec<u8> {
    let (first, second) = (head + place * row, head + (place + 1) * row);
    match number {
        1 => record.push(0),
        2 => record[3] = 0,
        3 => {
            record.pop();
            record = sealed(record[2..].to_vec());
        }
        // The first count is I or U.
        4 => record[4] = 0,
        5 => record[first] = 255,
        6 => record.copy_within(first..second, second),
        7 => record[first..second + row].rotate_left(row),
        _ => {}
    }
    record
}

/// The entries that read a record, and where its rows stand.
struct Kind {
    record: u32,
    layout: [usize; 2],
    read: fn(&mut Compare, &[u8]) -> Reply,
    legal: Vec<u8>,
}

/// A legal record of each kind with six rows: rows 0 and 1, 2 and 3, 4 and 5 can each hold a
/// fault.
fn kinds() -> [Kind; 3] {
    let states = 0..6;
    let rows: Vec<_> = states.clone().map(|state| [state, 0, 0, 0, 0, 0]).collect();
    let allowed: Vec<_> = states.clone().map(|state| [state, 0, 0, 0]).collect();
    let steps: Vec<_> = states.map(|state| (state.into(), 0, 0, 0)).collect();
    [
        Kind {
            record: 1,
            layout: [9, 6],
            read: Compare::read_context,
            legal: context([1, 1, 1, 1, 6], &rows),
        },
        Kind {
            record: 2,
            layout: [7, 4],
            read: Compare::read_specification,
            legal: specification([1, 1, 6], &allowed),
        },
        Kind {
            record: 3,
            layout: [8, 6],
            read: |compare, bytes| compare.read_controller(bytes, 8192).0.reply,
            legal: controller(1, 1, 6, &steps),
        },
    ]
}

/// Every combination of 1 to 7 in one record. The least of 1 to 4 decides; without these, the
/// first faulty row, wherever 5, 6 and 7 stand.
fn within_a_record(compare: &mut Compare) {
    let places = [
        [0, 2, 4],
        [0, 4, 2],
        [2, 0, 4],
        [2, 4, 0],
        [4, 0, 2],
        [4, 2, 0],
    ];
    for kind in kinds() {
        for places in places {
            for faults in 0..128 {
                let mut record = kind.legal.clone();
                let mut reply = Reply::success(6);
                // The last fault goes in first: 1 changes what the length says of 3.
                for number in (1..=7)
                    .rev()
                    .filter(|number| faults >> (number - 1) & 1 == 1)
                {
                    let place = if number < 5 {
                        0
                    } else {
                        places[number as usize - 5]
                    };
                    record = with_fault(record, kind.layout, number, place);
                    // 6 and 7 are found in the second of their rows.
                    let row = if number == 5 { place } else { place + 1 };
                    if number < 5 {
                        reply = Reply::of_record(number, kind.record);
                    } else if reply.number == 0 || row < reply.row as usize {
                        reply = Reply::of_row(number, kind.record, row);
                    }
                }
                let product = (kind.read)(compare, &record);
                compare.expect("order within a record", product, reply);
            }
        }
    }
}

/// Within a row 5 comes before 6 and 7.
fn within_a_row(compare: &mut Compare) {
    for kind in kinds() {
        for number in [6, 7] {
            let mut record = with_fault(kind.legal.clone(), kind.layout, number, 0);
            // The next state of row 1.
            let next = kind.layout[0] + 2 * kind.layout[1] - 1;
            record[next] = 255;
            let product = (kind.read)(compare, &record);
            compare.expect(
                "order within a row",
                product,
                Reply::of_row(5, kind.record, 1),
            );
        }
    }
}

/// The first of these replies that is asked for.
fn first(faults: &[(bool, Reply)]) -> Reply {
    let found = faults.iter().find(|&&(present, _)| present);
    found.map_or(Reply::default(), |&(_, reply)| reply)
}

/// The bits of a number, the lowest first.
fn bits<const N: usize>(number: usize) -> [bool; N] {
    let mut bits = [false; N];
    for (place, bit) in bits.iter_mut().enumerate() {
        *bit = number >> place & 1 == 1;
    }
    bits
}

/// K11 with 11 or 10 states, and these faults in the records.
fn k11_with(many: bool, over: bool, other: bool, broken: [bool; 2]) -> (Vec<u8>, Vec<u8>) {
    let (mut context, _) = k11_records(if many { 11 } else { 10 });
    let mut specification = free(2, 1 + u8::from(other));
    if over {
        specification[6] = 64;
    }
    if broken[0] {
        context = with_fault(context, [9, 6], 7, 0);
    }
    if broken[1] {
        specification = with_fault(specification, [7, 4], 7, 0);
    }
    (context, specification)
}

/// Solving: 13; the records; 8; 9; 10; 11; 12.
fn solving(compare: &mut Compare) {
    let mut none = Reply::refused(12);
    none.rounds = 2;
    for number in 0..1 << 9 {
        let [unknown, first_broken, second_broken, other, over, sets, next, many, plain] =
            bits(number);
        let broken = [first_broken, second_broken];
        let (context, specification) = k11_with(many, over, other, broken);
        let reply = first(&[
            (unknown, Reply::refused(13)),
            (first_broken, Reply::of_row(7, 1, 1)),
            (second_broken, Reply::of_row(7, 2, 1)),
            (other, Reply::of_record(8, 2)),
            (over, Reply::refused(9)),
            (sets || next, Reply::refused(10)),
            (many, Reply::refused(11)),
            (!plain, none),
            (true, Reply::success(512)),
        ]);
        let lent = Lengths {
            sets: 512 - usize::from(sets),
            next: 8192 - usize::from(next),
        };
        let mode = u32::from(!plain) + if unknown { 2 } else { 0 };
        let solved = compare.solve(mode, &context, &specification, lent);
        compare.expect("order of solving", solved.reply, reply);
    }
}

/// A context for which a controller may be incomplete, leave or block, each by itself: it sends
/// u=0 only; v=0 is right for i=0, v=1 leaves, v=2 is what i=1 waits for.
fn waiting(over: bool) -> Vec<u8> {
    let rows = [[0, 0, 0, 0, 0, 0], [0, 0, 1, 0, 1, 0], [0, 1, 2, 0, 0, 0]];
    context([2, 2, 2, 3, 32 + u8::from(over)], &rows)
}

/// A controller for it. Its second state lacks rows, and that is no fault: nothing reaches it.
fn replying(other: bool, [lacks, leaves, blocks]: [bool; 3]) -> Vec<u8> {
    let mut rows = vec![(0, 0, 0, 0)];
    rows.extend(leaves.then_some((0, 0, 1, 0)));
    rows.extend((!blocks).then_some((0, 0, 2, 0)));
    rows.extend((!lacks).then_some((0, 1, 0, 0)));
    rows.push((1, 0, 0, 0));
    controller(2 + u8::from(other), 3, 2, &rows)
}

/// The check: the records; 8 for the specification, 8 for the controller; 9; 10; 14; 15; 16.
fn checking(compare: &mut Compare) {
    for number in 0..1 << 10 {
        let [c1, c2, c3, other_o, other_u, over, short, lacks, leaves, blocks] = bits(number);
        let number = |broken, number| if broken { number } else { 0 };
        let context = with_fault(waiting(over), [9, 6], number(c1, 7), 0);
        let counts = [2, 2 + u8::from(other_o), 2];
        let allowed = specification(counts, &[[0, 0, 0, 0], [0, 1, 0, 0]]);
        let allowed = with_fault(allowed, [7, 4], number(c2, 6), 0);
        let controller = replying(other_u, [lacks, leaves, blocks]);
        let controller = with_fault(controller, [8, 6], number(c3, 5), 0);
        let reply = first(&[
            (c1, Reply::of_row(7, 1, 1)),
            (c2, Reply::of_row(6, 2, 1)),
            (c3, Reply::of_row(5, 3, 0)),
            (other_o, Reply::of_record(8, 2)),
            (other_u, Reply::of_record(8, 3)),
            (over, Reply::refused(9)),
            (short, Reply::refused(10)),
            (lacks, Reply::refused(14)),
            (leaves, Reply::refused(15)),
            (blocks, Reply::refused(16)),
            (true, Reply::success(2)),
        ]);
        let length = 512 - usize::from(short);
        let (product, _) = compare.check(&context, &allowed, &controller, length);
        compare.expect("order of the check", product, reply);
    }
}

/// Compare all combinations.
pub fn order(compare: &mut Compare) {
    within_a_record(compare);
    within_a_row(compare);
    solving(compare);
    checking(compare);
}
