//! Rounds, from the rules: how deep the words of a plan lie. What the cells
//! hold has no part in it.

use super::plan::split;

/// By op.
const ROUNDS: [u64; 8] = [1, 0, 0, 6, 6, 1, 1, 1];

/// The greatest depth of any word, of a plan on that many cells; 0 if there is none.
pub fn rounds(words: &[u64], cells: usize) -> u64 {
    let mut depths = vec![0; cells];
    let mut greatest = 0;
    for &word in words {
        let (op, d, a, b) = split(word);
        let of = |address: u64| depths[address as usize];
        let read = match op {
            0 => 0,
            1 | 7 => of(a),
            6 => of(a).max(of(b)).max(of(d)),
            _ => of(a).max(of(b)),
        };
        let depth = read + ROUNDS[op as usize];
        if op != 7 {
            depths[d as usize] = depth;
        }
        greatest = greatest.max(depth);
    }
    greatest
}
