//! A run as an expert writes it in plain Rust: nested loops over slices, with
//! the scratch cells in locals until the end.
//!
//! The words of the log follow from the header alone, so those of an edge, or of
//! a turn in method 2, are written together and not as each is carried out.
//! Later passes and turns log the words of the first, and so does method 4 each
//! time that it adds a column and a row up. They copy them while the log is short,
//! and make them anew when it is long: whichever is faster.

mod edges;
mod pairs;
mod route;
mod sorted;
mod table;

use crate::reference::plan::{lay, Public, FAR};

/// A longer log does not stay in a core's cache, and then to make a word anew is
/// faster than to copy it. Method 2's logs are all shorter.
const CACHED_WORDS: usize = 1 << 17;

/// Runs a sound request and tells its rounds.
pub fn run(request: &[u64], cells: &mut [i64], log: &mut [u64]) -> u64 {
    let public = Public::read(request[0]);
    lay(&public, &request[1..], cells);
    log[0] = request[0];
    match public.method {
        1 => edges::run(&public, cells, &mut log[1..]),
        3 => sorted::run(&public, cells, &mut log[1..]),
        4 => pairs::run(&public, cells, &mut log[1..]),
        5 => route::run(&public, cells, &mut log[1..]),
        _ => table::run(&public, cells, &mut log[1..]),
    }
    rounds(&public)
}

/// The rounds of every run with this public part, by the rules.
pub fn rounds(public: &Public) -> u64 {
    let (n, m) = (public.n, public.m);
    match (public.method, m) {
        (1, 0) => 2,
        (1, _) => m * (n * n + 9 * n - 9) + n + 16,
        (3, 0) => 8 * n + 1,
        (3, _) => 9 * n * m + n * n + 8 * n + 7,
        (4, 0) => 7 * n + 9,
        (4, _) => 7 * n + 7 * m + 16,
        (5, 0) => (n * n + 5 * n - 5).max(2),
        (5, _) => m * (n - 1) * (n + 9) + (m * n + n + 16).max(m + n * n + 5 * n + 1),
        _ => 9 * n * n + 13 * n + 1,
    }
}

/// Logs a row of words for each vertex: those of vertex 0, and after each row
/// every word steps on to the next vertex.
#[inline(always)]
fn log_rows<const N: usize>(block: &mut [u64], mut first: [u64; N], steps: [u64; N]) {
    for row in block.chunks_exact_mut(N) {
        row.copy_from_slice(&first);
        for (word, step) in first.iter_mut().zip(steps) {
            *word += step;
        }
    }
}

/// Logs what the opening sets of each vertex: its name, its distance, and more.
fn log_vertices<const N: usize>(block: &mut [u64], first: [u64; N], source: u64) {
    let mut steps = [word::TO; N];
    steps[0] += word::RIGHT;
    log_rows(block, first, steps);
    // The distance of the source is 0.
    block[N * source as usize + 1] -= FAR as u64;
}

/// Puts the source at 0, all others out of reach, and none has a parent yet.
fn start(public: &Public, names: &mut [i64], distances: &mut [i64], parents: &mut [i64]) {
    for (name, vertex) in names.iter_mut().zip(0..) {
        *name = vertex;
    }
    distances.fill(FAR);
    distances[public.source as usize] = 0;
    parents.fill(-1);
}

/// The words of a plan by the names of their operations.
mod word {
    use crate::reference::plan::pack;

    /// Added to a word, these raise the address it writes to, its first operand
    /// and its second; `RIGHT` raises the value of a `set` as well.
    pub const TO: u64 = 1 << 40;
    pub const LEFT: u64 = 1 << 20;
    pub const RIGHT: u64 = 1;

    pub fn set(to: u64, value: i64) -> u64 {
        to * TO + value as u64 % TO
    }
    pub fn copy(to: u64, from: u64) -> u64 {
        pack(1, to, from, 0)
    }
    pub fn add(to: u64, left: u64, right: u64) -> u64 {
        pack(2, to, left, right)
    }
    pub fn less(to: u64, left: u64, right: u64) -> u64 {
        pack(3, to, left, right)
    }
    pub fn equal(to: u64, left: u64, right: u64) -> u64 {
        pack(4, to, left, right)
    }
    pub fn both(to: u64, left: u64, right: u64) -> u64 {
        pack(5, to, left, right)
    }
    pub fn move_if(to: u64, condition: u64, from: u64) -> u64 {
        pack(6, to, condition, from)
    }
    pub fn open(cell: u64) -> u64 {
        pack(7, 0, cell, 0)
    }
}
