//! Solving: the order of its refusals, and what stands in the lent numbers at the end.

use crate::plain::{plain, Answer};
use crate::records::{read, CONTEXT, SPECIFICATION};
use crate::reply::Reply;
use crate::skid::{in_product, same_outside, Skid};
use crate::unblocked::{delete, remaining};

/// Solve: 13; the records; 8; 9; 10; 11; 12.
pub fn solve(
    mode: u32,
    context: &[u8],
    specification: &[u8],
    sets: &mut [u64],
    next: &mut [u16],
) -> Reply {
    let skid = match skid_of(mode, context, specification) {
        Ok(skid) => skid,
        Err(refusal) => return refusal,
    };
    if sets.len() < 512 || next.len() < 8192 {
        return Reply::refused(10);
    }
    let (reply, answer) = answer(mode, &skid);
    // On 11 and 12 both parts are zero, as the answer without states is laid out.
    sets[..512].copy_from_slice(&laid_sets(&skid, &answer));
    next[..8192].copy_from_slice(&laid_steps(&skid, &answer));
    reply
}

/// Everything that is refused before the lent numbers are looked at.
fn skid_of(mode: u32, context: &[u8], specification: &[u8]) -> Result<Skid, Reply> {
    if mode > 1 {
        return Err(Reply::refused(13));
    }
    let context = read(&CONTEXT, context)?;
    let specification = read(&SPECIFICATION, specification)?;
    same_outside(&context, &specification)?;
    in_product(&context, &specification)?;
    Ok(Skid::new(&context, &specification))
}

/// The reply and the answer; an answer without states where there is none.
fn answer(mode: u32, skid: &Skid) -> (Reply, Answer) {
    let plain = match plain(skid) {
        Some(plain) => plain,
        None => return (Reply::refused(11), Answer::default()),
    };
    if mode == 0 {
        return (Reply::success(plain.sets.len() as u32), plain);
    }
    let deletion = delete(skid, &plain);
    let (mut reply, answer) = match remaining(&plain, &deletion.kept) {
        Some(answer) => (Reply::success(answer.sets.len() as u32), answer),
        None => (Reply::refused(12), Answer::default()),
    };
    reply.rounds = deletion.rounds;
    (reply, answer)
}

/// Each state's set, then zeros.
fn laid_sets(skid: &Skid, answer: &Answer) -> Vec<u64> {
    let mut laid: Vec<u64> = answer.sets.iter().map(|set| skid.bits(set)).collect();
    laid.resize(512, 0);
    laid
}

/// Each state's next states, 65535 where a step is absent, then zeros.
fn laid_steps(skid: &Skid, answer: &Answer) -> Vec<u16> {
    let mut laid = Vec::new();
    for state in 0..answer.sets.len() {
        for u in 0..skid.u {
            for v in 0..skid.v {
                let next = answer.steps.get(&(state, u, v));
                laid.push(next.map_or(65535, |&next| next as u16));
            }
        }
    }
    laid.resize(8192, 0);
    laid
}
