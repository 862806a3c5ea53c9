//! Method 4: Floyd-Warshall over a list of edges.

use super::word::{add, both, copy, equal, less, move_if, open, set, LEFT, RIGHT, TO};
use super::{log_rows, CACHED_WORDS};
use crate::reference::plan::{Public, FAR};

/// How often FAR is doubled to stand for a pair that no walk joins yet.
const DOUBLINGS: usize = 20;
const HIGH: i64 = FAR << DOUBLINGS;

pub fn run(public: &Public, cells: &mut [i64], log: &mut [u64]) {
    let (n, m) = (public.n as usize, public.m as usize);
    let plan = Plan::new(public);
    let mut lists = Lists::split(public, cells);
    let copying = log.len() < CACHED_WORDS;
    let (opening, log) = log.split_at_mut(2 * n + n * n + DOUBLINGS + 4);
    let (steps, end) = log.split_at_mut(log.len() - (2 * n * n + 2 * n + 3));
    plan.log_opening(opening);
    let mut at = 0;
    for edge in 0..m {
        plan.log_edge(edge as u64, &mut steps[at..at + 6 * n]);
        plan.log_adding(at + 6 * n, 6 * n, steps, copying);
        at += 6 * n + 3 * n * n;
        lists.pick_edge(edge);
        lists.add_up();
    }
    // Without an edge, the words of the first stage are the first.
    let first = if m > 0 { 6 * n } else { 2 * n };
    for stage in 0..n {
        plan.log_stage(stage as u64, &mut steps[at..at + 2 * n]);
        plan.log_adding(at + 2 * n, first, steps, copying);
        at += 2 * n + 3 * n * n;
        lists.pick_stage(stage);
        lists.add_up();
    }
    let verdict = lists.finish();
    plan.log_end(end, verdict);
}

/// The number of vertices, and the addresses: the first of each list and then
/// the scratch cells.
struct Plan {
    n: usize,
    heads: u64,
    weights: u64,
    distances: u64,
    column: u64,
    row: u64,
    names: u64,
    far: u64,
    high: u64,
    zero: u64,
    total: u64,
    flag: u64,
    verdict: u64,
}

impl Plan {
    fn new(public: &Public) -> Plan {
        let (n, m) = (public.n, public.m);
        let column = 3 * m + n * n;
        let scratch = column + 3 * n;
        Plan {
            n: n as usize,
            heads: m,
            weights: 2 * m,
            distances: 3 * m,
            column,
            row: column + n,
            names: column + 2 * n,
            far: scratch,
            high: scratch + 1,
            zero: scratch + 2,
            total: scratch + 3,
            flag: scratch + 4,
            verdict: scratch + 5,
        }
    }

    /// From the distance of a vertex to itself to that of the next vertex.
    fn diagonal(&self) -> u64 {
        self.n as u64 + 1
    }

    fn log_opening(&self, block: &mut [u64]) {
        let (names, block) = block.split_at_mut(self.n);
        let (constants, block) = block.split_at_mut(DOUBLINGS + 4);
        let (pairs, own) = block.split_at_mut(self.n * self.n);
        log_rows(names, [set(self.names, 0)], [TO + RIGHT]);
        constants.fill(add(self.high, self.high, self.high));
        constants[..2].copy_from_slice(&[set(self.far, FAR), set(self.high, FAR)]);
        constants[DOUBLINGS + 2..].copy_from_slice(&[set(self.zero, 0), set(self.verdict, 0)]);
        log_rows(pairs, [copy(self.distances, self.high)], [TO]);
        let first = copy(self.distances, self.zero);
        log_rows(own, [first], [TO * self.diagonal()]);
    }

    /// Makes the edge a column, 0 at its tail, and a row, its weight at its head.
    #[inline(always)]
    fn log_edge(&self, edge: u64, block: &mut [u64]) {
        let first = [
            copy(self.column, self.high),
            equal(self.flag, edge, self.names),
            move_if(self.column, self.flag, self.zero),
            copy(self.row, self.high),
            equal(self.flag, self.heads + edge, self.names),
            move_if(self.row, self.flag, self.weights + edge),
        ];
        log_rows(block, first, [TO, RIGHT, TO, TO, RIGHT, TO]);
    }

    /// Copies a vertex's column and its row.
    #[inline(always)]
    fn log_stage(&self, vertex: u64, block: &mut [u64]) {
        let n = self.n as u64;
        let first = [
            copy(self.column, self.distances + vertex),
            copy(self.row, self.distances + vertex * n),
        ];
        log_rows(block, first, [TO + n * LEFT, TO + LEFT]);
    }

    /// Logs how column and row are added up: always in the same words, which
    /// stand at `first` from the first time on.
    #[inline(always)]
    fn log_adding(&self, at: usize, first: usize, steps: &mut [u64], copying: bool) {
        let size = 3 * self.n * self.n;
        if copying && at > first {
            steps.copy_within(first..first + size, at);
        } else {
            self.log_rows_added(&mut steps[at..at + size]);
        }
    }

    #[inline(always)]
    fn log_rows_added(&self, block: &mut [u64]) {
        let n = self.n as u64;
        for (i, words) in (0..).zip(block.chunks_exact_mut(3 * self.n)) {
            let distance = self.distances + i * n;
            let first = [
                add(self.total, self.column + i, self.row),
                less(self.flag, self.total, distance),
                move_if(distance, self.flag, self.total),
            ];
            log_rows(words, first, [RIGHT, RIGHT, TO]);
        }
    }

    /// Looks for negative cycles, marks the pairs that no walk joins, and
    /// publishes the verdict.
    fn log_end(&self, block: &mut [u64], verdict: u64) {
        let (cycles, block) = block.split_at_mut(2 * self.n);
        let (any, block) = block.split_at_mut(1);
        let (marks, end) = block.split_at_mut(2 * self.n * self.n);
        let first = [
            less(self.flag, self.distances, self.zero),
            add(self.verdict, self.verdict, self.flag),
        ];
        log_rows(cycles, first, [LEFT * self.diagonal(), 0]);
        any[0] = both(self.verdict, self.verdict, self.verdict);
        let first = [
            less(self.flag, self.far, self.distances),
            move_if(self.distances, self.flag, self.far),
        ];
        log_rows(marks, first, [RIGHT, TO]);
        end.copy_from_slice(&[open(self.verdict), verdict]);
    }
}

/// The cells, each list by itself; `distances` has a row for each vertex.
struct Lists<'a> {
    tails: &'a [i64],
    heads: &'a [i64],
    weights: &'a [i64],
    distances: &'a mut [i64],
    column: &'a mut [i64],
    row: &'a mut [i64],
    names: &'a [i64],
    scratch: &'a mut [i64],
}

impl Lists<'_> {
    fn split<'a>(public: &Public, cells: &'a mut [i64]) -> Lists<'a> {
        let (n, m) = (public.n as usize, public.m as usize);
        let (tails, cells) = cells.split_at_mut(m);
        let (heads, cells) = cells.split_at_mut(m);
        let (weights, cells) = cells.split_at_mut(m);
        let (distances, cells) = cells.split_at_mut(n * n);
        let (column, cells) = cells.split_at_mut(n);
        let (row, cells) = cells.split_at_mut(n);
        let (names, scratch) = cells.split_at_mut(n);
        for (name, vertex) in names.iter_mut().zip(0..) {
            *name = vertex;
        }
        distances.fill(HIGH);
        for own in distances.iter_mut().step_by(n + 1) {
            *own = 0;
        }
        Lists {
            tails,
            heads,
            weights,
            distances,
            column,
            row,
            names,
            scratch,
        }
    }

    #[inline(always)]
    fn pick_edge(&mut self, edge: usize) {
        let (tail, head, weight) = (self.tails[edge], self.heads[edge], self.weights[edge]);
        let vertices = self.column.iter_mut().zip(&mut *self.row);
        for ((column, row), &name) in vertices.zip(self.names) {
            *column = if name == tail { 0 } else { HIGH };
            *row = if name == head { weight } else { HIGH };
        }
    }

    #[inline(always)]
    fn pick_stage(&mut self, vertex: usize) {
        let n = self.row.len();
        self.row.copy_from_slice(&self.distances[vertex * n..][..n]);
        let column = self.distances[vertex..].iter().step_by(n);
        for (to, &distance) in self.column.iter_mut().zip(column) {
            *to = distance;
        }
    }

    #[inline(always)]
    fn add_up(&mut self) {
        let rows = self.distances.chunks_exact_mut(self.row.len());
        for (distances, &before) in rows.zip(&*self.column) {
            for (distance, &behind) in distances.iter_mut().zip(&*self.row) {
                *distance = before.wrapping_add(behind).min(*distance);
            }
        }
    }

    /// Marks the pairs that no walk joins, fills the scratch, and tells whether
    /// there is a negative cycle.
    fn finish(&mut self) -> u64 {
        let n = self.row.len();
        let mut own = self.distances.iter().step_by(n + 1);
        let verdict = own.any(|&distance| distance < 0);
        let total = self.column[n - 1].wrapping_add(self.row[n - 1]);
        let mut apart = false;
        for distance in &mut *self.distances {
            apart = FAR < *distance;
            *distance = FAR.min(*distance);
        }
        let left = [FAR, HIGH, 0, total, i64::from(apart), i64::from(verdict)];
        self.scratch.copy_from_slice(&left);
        u64::from(verdict)
    }
}
