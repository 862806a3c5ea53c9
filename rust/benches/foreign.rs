//! A foreign plan run in plain Rust: every word is tested as document 01 says
//! before the first is carried out. The tests look masks up by operation, which
//! is faster here than to tell the operations apart. Depths are worked out as
//! the words are carried out: a second loop, or masks, would take longer.

use crate::reference::log_length;
use crate::reference::plan::split;

/// A plan has no more words than this,
const PLACES: usize = 1 << 24;
/// and names no more cells than this.
const CELLS: usize = 1 << 20;

const OP_OVER_7: u64 = 1 << 63;
const D: u64 = B << 40;
const A: u64 = B << 20;
const B: u64 = (1 << 20) - 1;

/// The fields of each operation that are addresses.
const ADDRESSES: [u64; 8] = {
    let all = D | A | B;
    [D, D | A, all, all, all, all, all, A]
};

/// The bits of each operation's words that must be zero.
const ZEROS: [u64; 8] = {
    let mut zeros = [OP_OVER_7; 8];
    zeros[1] |= B;
    zeros[7] |= D | B;
    zeros
};

/// Runs a plan and tells its rounds; `None` if the plan is refused.
pub fn run_plan(plan: &[u64], cells: &mut [i64], log: &mut [u64]) -> Option<u64> {
    let Some((&header, words)) = plan.split_first() else {
        return Some(0);
    };
    let count = cells.len() as u64;
    if plan.len() > PLACES || !words.iter().all(|&word| sound(word, count)) {
        return None;
    }
    if log.len() < log_length(plan) {
        return None;
    }
    log[0] = header;
    Some(carry_out(words, cells, &mut log[1..]))
}

/// Carries sound words out, logs them and tells the rounds.
fn carry_out(words: &[u64], cells: &mut [i64], log: &mut [u64]) -> u64 {
    let mut depths = Depths::new(cells.len());
    let mut logged = 0;
    for &word in words {
        let (op, d, a, b) = split(word);
        let (to, left, right) = (d as usize, a as usize, b as usize);
        log[logged] = word;
        logged += 1;
        match op {
            0 => {
                // Shifting up and back down spreads bit 39, the sign.
                cells[to] = ((a << 20 | b) << 24) as i64 >> 24;
                depths.write(to, 1);
            }
            1 => {
                cells[to] = cells[left];
                depths.write(to, depths.of[left]);
            }
            2 => {
                cells[to] = cells[left].wrapping_add(cells[right]);
                depths.write(to, depths.greater(left, right));
            }
            3 => {
                cells[to] = i64::from(cells[left] < cells[right]);
                depths.write(to, depths.greater(left, right) + 6);
            }
            4 => {
                cells[to] = i64::from(cells[left] == cells[right]);
                depths.write(to, depths.greater(left, right) + 6);
            }
            5 => {
                cells[to] = i64::from(cells[left] != 0 && cells[right] != 0);
                depths.write(to, depths.greater(left, right) + 1);
            }
            6 => {
                if cells[left] != 0 {
                    cells[to] = cells[right];
                }
                let read = depths.greater(left, right).max(depths.of[to]);
                depths.write(to, read + 1);
            }
            _ => {
                log[logged] = cells[left] as u64;
                logged += 1;
                depths.note(depths.of[left] + 1);
            }
        }
    }
    u64::from(depths.rounds)
}

/// The depth of each cell, and the greatest of any word so far. A plan's words
/// are too few for a depth of more than 32 bits.
struct Depths {
    of: Vec<u32>,
    rounds: u32,
}

impl Depths {
    fn new(cells: usize) -> Depths {
        Depths {
            of: vec![0; cells.min(CELLS)],
            rounds: 0,
        }
    }

    #[inline(always)]
    fn greater(&self, left: usize, right: usize) -> u32 {
        self.of[left].max(self.of[right])
    }

    #[inline(always)]
    fn note(&mut self, depth: u32) {
        self.rounds = self.rounds.max(depth);
    }

    #[inline(always)]
    fn write(&mut self, to: usize, depth: u32) {
        self.of[to] = depth;
        self.note(depth);
    }
}

/// Whether a word can be carried out on that many cells.
#[inline(always)]
fn sound(word: u64, cells: u64) -> bool {
    let operation = (word >> 60 & 7) as usize;
    // A field that is no address counts as 0, which is there if any cell is.
    let (_, d, a, b) = split(word & ADDRESSES[operation]);
    (word & ZEROS[operation] == 0) & (d < cells) & (a < cells) & (b < cells)
}
