//! Words after a header with just the faults that are asked for.

use super::{Random, MOST};
use crate::reference::plan::{head, Public};

/// The numbers of the faults that a word of each method can have, first those that are told first.
fn numbers(method: u64) -> &'static [u64] {
    match method {
        1 | 4 | 5 => &[10, 13, 14, 11],
        3 => &[10, 13, 14, 11, 15],
        _ => &[10, 11],
    }
}

/// Every combination of a method's faults, the empty one first.
pub fn combinations(method: u64) -> Vec<Vec<u64>> {
    let mut all = vec![vec![]];
    for &number in numbers(method).iter().rev() {
        let with = all.iter().map(|rest| [&[number], &rest[..]].concat());
        all.extend(with.collect::<Vec<_>>());
    }
    all
}

/// The least head that an edge may have: in method 3 that of the edge before it,
/// or the last vertex where that one leads to none.
pub fn floor(public: &Public, request: &[u64], at: usize) -> u64 {
    match public.method {
        3 if at > 1 => head(request[at - 1]).min(public.n.saturating_sub(1)),
        _ => 0,
    }
}

/// Whether a word can have all these faults: a head below the floor is there.
pub fn possible(faults: &[u64], floor: u64) -> bool {
    let has = |number: u64| faults.contains(&number);
    !has(15) || floor > 0 && !has(14)
}

/// A word of a header of 1 to 32 vertices with these faults and no other.
pub fn word(random: &mut Random, public: &Public, floor: u64, faults: &[u64]) -> u64 {
    let has = |number: u64| faults.contains(&number);
    let price = u64::from(price(random, public.method, has(11)) as u32);
    if public.method == 2 {
        return spare(random, 32, has(10)) << 32 | price;
    }
    let from = vertex(random, 0, public.n, has(13));
    let to = match has(15) {
        true => random.below(floor),
        false => vertex(random, floor, public.n, has(14)),
    };
    from << 56 | to << 48 | spare(random, 16, has(10)) << 32 | price
}

/// A destination that is there, or a bad one: the first that is not, one that
/// is there in some of its bits alone, an end of the signed numbers, or any.
pub fn destination(random: &mut Random, n: u64, bad: bool) -> u64 {
    match (bad, random.below(5)) {
        (false, _) => random.below(n),
        (true, 0) => n,
        (true, 1) => random.below(n) | 1 << (8 + random.below(56)),
        (true, 2) => 1 << 63,
        (true, 3) => u64::MAX,
        (true, _) => random.word().max(n),
    }
}

/// Often the last vertex that is there, or the first that is not.
fn vertex(random: &mut Random, least: u64, n: u64, bad: bool) -> u64 {
    match (bad, random.one_in(3)) {
        (true, true) => n,
        (true, false) => n + random.below(256 - n),
        (false, true) => n - 1,
        (false, false) => least + random.below(n - least),
    }
}

/// Often one bit alone.
fn spare(random: &mut Random, width: u64, bad: bool) -> u64 {
    match (bad, random.one_in(2)) {
        (true, true) => 1 << random.below(width),
        (true, false) => 1 + random.below((1 << width) - 1),
        (false, _) => 0,
    }
}

/// Often at the end of its range, or just past it.
fn price(random: &mut Random, method: u64, bad: bool) -> i64 {
    let least = if method == 2 { -1 } else { -MOST };
    let (low, high) = (i64::from(i32::MIN), i64::from(i32::MAX));
    match (bad, random.below(4)) {
        (true, 0) => least - 1,
        (true, 1) => MOST + 1,
        (true, 2) => random.between(low, least - 1),
        (true, _) => random.between(MOST + 1, high),
        (false, 0) => least,
        (false, 1) => MOST,
        (false, _) => random.between(least, MOST),
    }
}
