//! Method 2: Dijkstra over a table of weights.

use super::word::{add, both, copy, equal, less, move_if, set, LEFT, RIGHT, TO};
use super::{log_rows, log_vertices, start};
use crate::reference::plan::{Public, FAR};

pub fn run(public: &Public, cells: &mut [i64], log: &mut [u64]) {
    let n = public.n as usize;
    let plan = Plan::new(public);
    let mut lists = Lists::split(public, cells);
    let (opening, turns) = log.split_at_mut(4 * n + 2);
    plan.log_opening(public.source, opening);
    let size = n * n + 11 * n + 2;
    for turn in 0..n {
        // Every turn logs the words of the first.
        if turn > 0 {
            turns.copy_within(..size, turn * size);
        } else {
            plan.log_turn(&mut turns[..size]);
        }
        let (nearest, chosen) = lists.choose();
        lists.fetch(chosen);
        let (total, better) = lists.relax(nearest, chosen);
        let left = [FAR, nearest, total, chosen, 0, i64::from(better)];
        lists.scratch.copy_from_slice(&left);
    }
}

/// The number of vertices, and the addresses: the first of each list but
/// the table, which begins at 0, and then the scratch cells.
struct Plan {
    n: usize,
    distances: u64,
    parents: u64,
    names: u64,
    open: u64,
    row: u64,
    far: u64,
    nearest: u64,
    total: u64,
    chosen: u64,
    zero: u64,
    flag: u64,
}

impl Plan {
    fn new(public: &Public) -> Plan {
        let n = public.n;
        let scratch = n * n + 5 * n;
        Plan {
            n: n as usize,
            distances: n * n,
            parents: n * n + n,
            names: n * n + 2 * n,
            open: n * n + 3 * n,
            row: n * n + 4 * n,
            far: scratch,
            nearest: scratch + 1,
            total: scratch + 2,
            chosen: scratch + 3,
            zero: scratch + 4,
            flag: scratch + 5,
        }
    }

    fn log_opening(&self, source: u64, block: &mut [u64]) {
        let (vertices, constants) = block.split_at_mut(4 * self.n);
        let first = [
            set(self.names, 0),
            set(self.distances, FAR),
            set(self.parents, -1),
            set(self.open, 1),
        ];
        log_vertices(vertices, first, source);
        constants.copy_from_slice(&[set(self.far, FAR), set(self.zero, 0)]);
    }

    fn log_turn(&self, block: &mut [u64]) {
        let (choosing, block) = block.split_at_mut(4 * self.n + 2);
        let (fetching, relaxing) = block.split_at_mut(self.n * (self.n + 3));
        self.log_choosing(choosing);
        self.log_fetching(fetching);
        self.log_relaxing(relaxing);
    }

    /// Finds the nearest vertex still open.
    fn log_choosing(&self, block: &mut [u64]) {
        block[0] = copy(self.nearest, self.far);
        block[1] = set(self.chosen, -1);
        let first = [
            less(self.flag, self.distances, self.nearest),
            both(self.flag, self.flag, self.open),
            move_if(self.nearest, self.flag, self.distances),
            move_if(self.chosen, self.flag, self.names),
        ];
        log_rows(&mut block[2..], first, [LEFT, RIGHT, RIGHT, RIGHT]);
    }

    /// Closes the chosen vertex and copies its row, out of all the rows.
    fn log_fetching(&self, block: &mut [u64]) {
        let (clearing, rows) = block.split_at_mut(self.n);
        log_rows(clearing, [copy(self.row, self.far)], [TO]);
        for (v, words) in (0..).zip(rows.chunks_exact_mut(self.n + 2)) {
            words[0] = equal(self.flag, self.chosen, self.names + v);
            words[1] = move_if(self.open + v, self.flag, self.zero);
            let first = move_if(self.row, self.flag, v * self.n as u64);
            log_rows(&mut words[2..], [first], [TO + RIGHT]);
        }
    }

    fn log_relaxing(&self, block: &mut [u64]) {
        let first = [
            add(self.total, self.nearest, self.row),
            less(self.flag, self.total, self.distances),
            move_if(self.distances, self.flag, self.total),
            move_if(self.parents, self.flag, self.chosen),
        ];
        log_rows(block, first, [RIGHT, RIGHT, TO, TO]);
    }
}

/// The cells, each list by itself.
struct Lists<'a> {
    weights: &'a [i64],
    distances: &'a mut [i64],
    parents: &'a mut [i64],
    names: &'a [i64],
    open: &'a mut [i64],
    row: &'a mut [i64],
    scratch: &'a mut [i64],
}

impl Lists<'_> {
    fn split<'a>(public: &Public, cells: &'a mut [i64]) -> Lists<'a> {
        let n = public.n as usize;
        let (weights, cells) = cells.split_at_mut(n * n);
        let (distances, cells) = cells.split_at_mut(n);
        let (parents, cells) = cells.split_at_mut(n);
        let (names, cells) = cells.split_at_mut(n);
        let (open, cells) = cells.split_at_mut(n);
        let (row, scratch) = cells.split_at_mut(n);
        start(public, names, distances, parents);
        open.fill(1);
        Lists {
            weights,
            distances,
            parents,
            names,
            open,
            row,
            scratch,
        }
    }

    /// The distance and the name of the nearest vertex still open.
    #[inline(always)]
    fn choose(&self) -> (i64, i64) {
        let (mut nearest, mut chosen) = (FAR, -1);
        let vertices = self.distances.iter().zip(&*self.open);
        for ((&distance, &open), &name) in vertices.zip(self.names) {
            if distance < nearest && open != 0 {
                (nearest, chosen) = (distance, name);
            }
        }
        (nearest, chosen)
    }

    #[inline(always)]
    fn fetch(&mut self, chosen: i64) {
        self.row.fill(FAR);
        let rows = self.weights.chunks_exact(self.row.len());
        for ((&name, open), row) in self.names.iter().zip(&mut *self.open).zip(rows) {
            if name == chosen {
                *open = 0;
                self.row.copy_from_slice(row);
            }
        }
    }

    /// Tells the last vertex's total, and whether it was better.
    #[inline(always)]
    fn relax(&mut self, nearest: i64, chosen: i64) -> (i64, bool) {
        let (mut total, mut better) = (0, false);
        let vertices = self.distances.iter_mut().zip(&mut *self.parents);
        for ((distance, parent), &weight) in vertices.zip(&*self.row) {
            total = nearest.wrapping_add(weight);
            better = total < *distance;
            if better {
                (*distance, *parent) = (total, chosen);
            }
        }
        (total, better)
    }
}
