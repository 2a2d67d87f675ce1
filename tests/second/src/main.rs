//! A second solver, written from document 01 alone, beside the product's entries for C.
//!
//! The second solver (records, writing, skid, plain, unblocked, solving, checking) works with
//! maps and sets. It shares nothing with the product and asks nothing of it. Every input is
//! given to both, and replies and whole buffers are compared.
//!
//! An argument is the seed; without one it is the usual one. The last line is
//! 'N passed, M failed', where N counts equal replies and buffers.

mod bytes;
mod chance;
mod checking;
mod compare;
mod damage;
mod families;
mod ffi;
mod inputs;
mod known;
mod lent;
mod limits;
mod mutated;
mod order;
mod plain;
mod records;
mod reply;
mod rings;
mod seeded;
mod skid;
mod solving;
mod tally;
mod unblocked;
mod writing;

use chance::Chance;
use compare::Compare;
use std::time::Instant;

/// The usual seed.
const SEED: u64 = 20_261_115;

/// The inputs of each seeded part.
const INPUTS: u64 = 10_000;

/// Run a part and tell how many comparisons it made.
fn part(compare: &mut Compare, name: &str, run: impl FnOnce(&mut Compare)) {
    let (before, from) = (compare.tally.passed + compare.tally.failed, Instant::now());
    run(compare);
    let compared = compare.tally.passed + compare.tally.failed - before;
    let seconds = from.elapsed().as_secs_f64();
    println!("{name}: {compared} comparisons, {seconds:.1} s");
}

/// Run a part on seeded inputs.
fn seeded(compare: &mut Compare, name: &str, seed: u64, run: fn(&mut Compare, &mut Chance)) {
    part(compare, &format!("{INPUTS} seeded {name}"), |compare| {
        for input in 0..INPUTS {
            run(compare, &mut Chance::new(seed ^ input << 32));
        }
    });
}

/// The seed that was given, or the usual one.
fn seed() -> u64 {
    match std::env::args().nth(1).map(|seed| seed.parse()) {
        None => SEED,
        Some(Ok(seed)) => seed,
        Some(Err(_)) => {
            println!("the seed is a number below 2^64\n0 passed, 1 failed");
            std::process::exit(1);
        }
    }
}

fn main() {
    let seed = seed();
    println!("seed {seed}");
    let mut compare = Compare::default();
    part(&mut compare, "K1 to K12", known::known);
    part(&mut compare, "families", families::families);
    part(&mut compare, "limits", |compare| {
        limits::limits(compare, &mut Chance::new(seed));
    });
    part(&mut compare, "order of refusals", order::order);
    part(&mut compare, "K1 with every byte changed", mutated::mutated);
    seeded(&mut compare, "skids", seed, seeded::skid);
    let seed = seed.wrapping_add(1);
    seeded(
        &mut compare,
        "damaged records",
        seed,
        seeded::damaged_records,
    );
    let seed = seed.wrapping_add(1);
    seeded(&mut compare, "tables to write", seed, seeded::write);
    compare.tally.tell();
    compare.tally.missing();
    let (passed, failed) = (compare.tally.passed, compare.tally.failed);
    println!("{passed} passed, {failed} failed");
    if failed > 0 {
        std::process::exit(1);
    }
}
