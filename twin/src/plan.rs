//! The bench's resend plan (document 01), and two plans that join (document 02,
//! item 12).

use crate::wire::{refuse, Refusal, NO_ROOM};

pub const BAD_PLAN: u32 = 40;
pub const LONGEST_LIST: usize = 65_536;

/// How many numbers a pair has.
pub const A_PAIR: usize = 2;
/// No plan has more numbers: each number of its list gives one pair at most.
pub const LONGEST_PLAN: usize = A_PAIR * LONGEST_LIST;

/// Plans the answer to a Resend Request over a list that says for the numbers
/// 1, 2, .. whether each is business (1) or session (0). A business number n
/// is the pair (n, 0), a longest run of session numbers is (first, New). Gives
/// the number of pairs written.
pub fn plan(list: &[u8], start: u32, end: u32, out: &mut [[u32; 2]]) -> Result<usize, Refusal> {
    let pairs = pairs(list, start, end)?;
    if pairs.len() > out.len() {
        return Err(refuse(NO_ROOM, pairs.len()));
    }
    out[..pairs.len()].copy_from_slice(&pairs);
    Ok(pairs.len())
}

/// The whole plan, or 40.
fn pairs(list: &[u8], start: u32, end: u32) -> Result<Vec<[u32; 2]>, Refusal> {
    let bad_list = list.len() > LONGEST_LIST || list.iter().any(|&byte| byte > 1);
    if bad_list || start == 0 || start as usize > list.len() || (end != 0 && end < start) {
        return Err(refuse(BAD_PLAN, 0));
    }
    let count = list.len() as u32;
    let last = if end == 0 || end > count { count } else { end };
    let mut pairs: Vec<[u32; 2]> = Vec::new();
    let mut run_from = None;
    for n in start..=last {
        if list[n as usize - 1] == 0 {
            run_from = run_from.or(Some(n));
            continue;
        }
        if let Some(first) = run_from.take() {
            pairs.push([first, n]);
        }
        pairs.push([n, 0]);
    }
    if let Some(first) = run_from {
        pairs.push([first, last + 1]);
    }
    Ok(pairs)
}

/// Lays two plans, given as numbers, one behind the other: those for s to m and
/// for m + 1 to e make the plan for s to e. Two gap fills that touch where the
/// plans meet become one; every other pair stays as it is given. Gives the number
/// of pairs written. Half a pair at the end of either is 40, then too little room
/// is 11 with the pairs needed; a refusal leaves `out` as it was.
pub fn join(one: &[u32], other: &[u32], out: &mut [u32]) -> Result<usize, Refusal> {
    let pairs = joined(pairs_of(one)?, pairs_of(other)?);
    let numbers = pairs.concat();
    if numbers.len() > out.len() {
        return Err(refuse(NO_ROOM, pairs.len()));
    }
    out[..numbers.len()].copy_from_slice(&numbers);
    Ok(pairs.len())
}

/// The pairs of a plan's numbers, or 40. The numbers themselves are not judged.
fn pairs_of(numbers: &[u32]) -> Result<Vec<[u32; A_PAIR]>, Refusal> {
    if numbers.len() % A_PAIR != 0 {
        return Err(refuse(BAD_PLAN, 0));
    }
    let pairs = numbers.chunks_exact(A_PAIR);
    Ok(pairs.map(|pair| [pair[0], pair[1]]).collect())
}

/// The pairs of both, in their order. Where the last of the one and the first of
/// the other touch, one gap fill stands in their place.
fn joined(mut one: Vec<[u32; A_PAIR]>, mut other: Vec<[u32; A_PAIR]>) -> Vec<[u32; A_PAIR]> {
    if let (Some(&last), Some(next)) = (one.last(), other.first_mut()) {
        if let Some(both) = touching(last, *next) {
            one.pop();
            *next = both;
        }
    }
    one.extend(other);
    one
}

/// The gap fill that stands for two that touch: the second begins at the New of
/// the first. A business number's New of 0 is above no number, so its pair touches
/// none.
fn touching([first, new]: [u32; A_PAIR], [next, last_new]: [u32; A_PAIR]) -> Option<[u32; A_PAIR]> {
    let touch = new == next && first < new && next < last_new;
    touch.then_some([first, last_new])
}
