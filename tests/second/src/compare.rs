//! One call of the product beside one of the second solver: replies and whole buffers.

use crate::lent::{Lent, Pattern};
use crate::records::{read_alone, read_controller, CONTEXT, SPECIFICATION};
use crate::reply::{ControllerReply, Reply};
use crate::tally::{Entry, Tally};
use crate::writing::{write, Counts};
use crate::{checking, ffi, solving};
use std::fmt::{Debug, Write};

/// What the product made of a call of solving.
pub struct Solved {
    pub reply: Reply,
    pub sets: Vec<u64>,
    pub next: Vec<u16>,
}

/// How many numbers are lent to solving.
#[derive(Clone, Copy, Debug)]
pub struct Lengths {
    pub sets: usize,
    pub next: usize,
}

/// A call and both replies: everything that a difference is shown with.
#[derive(Default)]
struct Call {
    asked: String,
    records: Vec<(&'static str, Vec<u8>)>,
    /// The next table to write.
    table: Vec<u16>,
    replies: String,
}

impl Call {
    fn told(&self) -> String {
        let mut text = self.asked.clone();
        for (name, bytes) in &self.records {
            text += &format!("\n{name}, {} bytes:", bytes.len());
            for byte in bytes {
                // Writing to a string never fails.
                let _ = write!(text, " {byte:02X}");
            }
        }
        if !self.table.is_empty() {
            text += &format!("\n{} numbers: {:?}", self.table.len(), self.table);
        }
        text + "\n" + &self.replies
    }
}

/// Compares, and keeps the latest call to tell of it.
#[derive(Default)]
pub struct Compare {
    pub tally: Tally,
    call: Call,
}

impl Compare {
    /// Begin with a call: compare its replies.
    fn replies<R: PartialEq + Debug>(&mut self, call: Call, product: R, second: R) {
        self.call = call;
        self.call.replies = format!("product {product:?}\nsecond solver {second:?}");
        let call = &self.call;
        self.tally.count(product == second, || call.told());
    }

    /// Compare a buffer of the latest call.
    fn buffers<T: Pattern>(&mut self, name: &str, [product, second]: &[Lent<T>; 2]) {
        let call = &self.call;
        self.tally.count(product.equals(second), || {
            let at = match product.difference(second) {
                Some((place, product, second)) => {
                    format!("place {place}: product {product:?}, second solver {second:?}")
                }
                None => String::from("their lengths"),
            };
            format!("{}\n{name} differ first at {at}", call.told())
        });
    }

    /// Compare what the latest call gave with what was typed in from document 01.
    pub fn expect<R: PartialEq + Debug>(&mut self, name: &str, product: R, typed: R) {
        let call = &self.call;
        self.tally.count(product == typed, || {
            let told = call.told();
            format!("{name}\n{told}\nproduct {product:?}\ntyped in {typed:?}")
        });
    }

    /// The same for many numbers: only the first that differs is shown.
    pub fn expect_numbers<T: PartialEq + Debug>(&mut self, name: &str, product: &[T], typed: &[T]) {
        let both = product.iter().zip(typed);
        let place = both.take_while(|(product, typed)| product == typed).count();
        let name = format!("{name}, place {place}");
        self.expect(&name, product.get(place), typed.get(place));
    }

    pub fn read_context(&mut self, bytes: &[u8]) -> Reply {
        let product = ffi::read_context(bytes);
        self.tally.saw(Entry::ReadContext, product);
        let call = Call {
            asked: String::from("read"),
            records: vec![("context", bytes.to_vec())],
            ..Call::default()
        };
        self.replies(call, product, read_alone(&CONTEXT, bytes));
        product
    }

    pub fn read_specification(&mut self, bytes: &[u8]) -> Reply {
        let product = ffi::read_specification(bytes);
        self.tally.saw(Entry::ReadSpecification, product);
        let call = Call {
            asked: String::from("read"),
            records: vec![("specification", bytes.to_vec())],
            ..Call::default()
        };
        self.replies(call, product, read_alone(&SPECIFICATION, bytes));
        product
    }

    /// Read a controller into this many lent numbers.
    pub fn read_controller(&mut self, bytes: &[u8], count: usize) -> (ControllerReply, Vec<u16>) {
        let mut lent = [Lent::new(count), Lent::new(count)];
        let product = ffi::read_controller(bytes, lent[0].lend());
        let second = read_controller(bytes, lent[1].lend());
        self.tally.saw(Entry::ReadController, product.reply);
        let call = Call {
            asked: format!("read, lent {count} numbers of 16 bits"),
            records: vec![("controller", bytes.to_vec())],
            ..Call::default()
        };
        self.replies(call, product, second);
        self.buffers("next states", &lent);
        (product, lent[0].part().to_vec())
    }

    /// Write a controller into this many lent bytes.
    pub fn write(
        &mut self,
        counts: Counts,
        next: &[u16],
        size: usize,
        start: usize,
    ) -> (Reply, Vec<u8>) {
        let mut lent = [Lent::new(size), Lent::new(size)];
        let product = ffi::write(counts, next, lent[0].lend(), start);
        let second = write(counts, next, lent[1].lend(), start);
        self.tally.saw(Entry::Write, product);
        let call = Call {
            asked: format!("write {counts:?}, lent {size} bytes, start {start}"),
            table: next.to_vec(),
            ..Call::default()
        };
        self.replies(call, product, second);
        self.buffers("bytes", &lent);
        (product, lent[0].part().to_vec())
    }

    /// Check with this many lent numbers.
    pub fn check(
        &mut self,
        context: &[u8],
        specification: &[u8],
        controller: &[u8],
        length: usize,
    ) -> (Reply, Vec<u64>) {
        let mut lent = [Lent::new(length), Lent::new(length)];
        let product = ffi::check(context, specification, controller, lent[0].lend());
        let second = checking::check(context, specification, controller, lent[1].lend());
        self.tally.saw(Entry::Check, product);
        let call = Call {
            asked: format!("check, lent {length} numbers of 64 bits"),
            records: vec![
                ("context", context.to_vec()),
                ("specification", specification.to_vec()),
                ("controller", controller.to_vec()),
            ],
            ..Call::default()
        };
        self.replies(call, product, second);
        self.buffers("sets", &lent);
        (product, lent[0].part().to_vec())
    }

    /// Solve with so many lent numbers.
    pub fn solve(
        &mut self,
        mode: u32,
        context: &[u8],
        specification: &[u8],
        lengths: Lengths,
    ) -> Solved {
        let mut sets = [Lent::new(lengths.sets), Lent::new(lengths.sets)];
        let mut next = [Lent::new(lengths.next), Lent::new(lengths.next)];
        let (lent_sets, lent_next) = (sets[0].lend(), next[0].lend());
        let product = ffi::solve(mode, context, specification, lent_sets, lent_next);
        let (lent_sets, lent_next) = (sets[1].lend(), next[1].lend());
        let second = solving::solve(mode, context, specification, lent_sets, lent_next);
        self.tally.saw(solving_entry(mode), product);
        let call = Call {
            asked: format!("solve, mode {mode}, lent {lengths:?}"),
            records: vec![
                ("context", context.to_vec()),
                ("specification", specification.to_vec()),
            ],
            ..Call::default()
        };
        self.replies(call, product, second);
        self.buffers("sets", &sets);
        self.buffers("next states", &next);
        Solved {
            reply: product,
            sets: sets[0].part().to_vec(),
            next: next[0].part().to_vec(),
        }
    }
}

fn solving_entry(mode: u32) -> Entry {
    match mode {
        0 => Entry::SolvePlain,
        1 => Entry::SolveUnblocked,
        _ => Entry::SolveUnknown,
    }
}
