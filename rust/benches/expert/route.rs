//! Method 5: method 1, and then the route back from a destination.

use super::edges::search;
use super::log_rows;
use super::word::{copy, equal, move_if, open, set, LEFT, RIGHT, TO};
use crate::reference::plan::Public;

pub fn run(public: &Public, cells: &mut [i64], log: &mut [u64]) {
    let (n, m) = (public.n as usize, public.m as usize);
    let plan = Plan::new(public);
    let searching = 3 * n + 2 + m * (8 * n * n + 3 * n - 1);
    let (words, log) = log.split_at_mut(searching);
    let (searched, cells) = cells.split_at_mut(3 * m + 3 * n + 8);
    let verdict = search(public, searched, words);
    let mut lists = Lists::split(public, searched, cells);
    let (names, log) = log.split_at_mut(n);
    let (tails, log) = log.split_at_mut(m * (2 * n + 1));
    let (route, end) = log.split_at_mut(1 + (n - 1) * (3 * n + 1));
    log_rows(names, [copy(plan.before, plan.names)], [TO + LEFT]);
    lists.before.copy_from_slice(lists.names);
    for (edge, words) in tails.chunks_exact_mut(2 * n + 1).enumerate() {
        plan.log_tail(edge as u64, words);
        lists.match_parents(edge);
    }
    route[0] = copy(plan.here, plan.destination);
    lists.scratch[HERE] = lists.destination;
    for (step, words) in route[1..].chunks_exact_mut(3 * n + 1).enumerate() {
        plan.log_step(step as u64, words);
        lists.step_back(step);
    }
    end.copy_from_slice(&[open(plan.verdict), verdict]);
}

/// The scratch cells that change after the search: the vertex that the steps
/// have come to and the one before the last step, an edge, and a comparison.
const HERE: usize = 1;
const LEAVING: usize = 2;
const EDGE: usize = 3;
const SAME: usize = 5;

/// The addresses: the first of each list and then the scratch cells.
struct Plan {
    parents: u64,
    names: u64,
    destination: u64,
    before: u64,
    route: u64,
    here: u64,
    leaving: u64,
    edge: u64,
    same: u64,
    verdict: u64,
}

impl Plan {
    fn new(public: &Public) -> Plan {
        let (n, m) = (public.n, public.m);
        let scratch = 3 * m + 3 * n;
        Plan {
            parents: 3 * m + n,
            names: 3 * m + 2 * n,
            destination: scratch + 8,
            before: scratch + 9,
            route: scratch + 9 + n,
            here: scratch + HERE as u64,
            leaving: scratch + LEAVING as u64,
            edge: scratch + EDGE as u64,
            same: scratch + SAME as u64,
            verdict: scratch + 7,
        }
    }

    /// Notes the edge's tail for the vertices whose parent it is.
    #[inline(always)]
    fn log_tail(&self, edge: u64, block: &mut [u64]) {
        block[0] = set(self.edge, edge as i64);
        let first = [
            equal(self.same, self.parents, self.edge),
            move_if(self.before, self.same, edge),
        ];
        log_rows(&mut block[1..], first, [LEFT, TO]);
    }

    /// Finds the parent of the vertex come to, and goes on to its tail.
    #[inline(always)]
    fn log_step(&self, step: u64, block: &mut [u64]) {
        block[0] = copy(self.leaving, self.here);
        let first = [
            equal(self.same, self.leaving, self.names),
            move_if(self.route + step, self.same, self.parents),
            move_if(self.here, self.same, self.before),
        ];
        log_rows(&mut block[1..], first, [RIGHT, RIGHT, RIGHT]);
    }
}

/// The cells that are read or written after the search.
struct Lists<'a> {
    tails: &'a [i64],
    parents: &'a [i64],
    names: &'a [i64],
    scratch: &'a mut [i64],
    destination: i64,
    before: &'a mut [i64],
    route: &'a mut [i64],
}

impl Lists<'_> {
    fn split<'a>(public: &Public, searched: &'a mut [i64], cells: &'a mut [i64]) -> Lists<'a> {
        let (n, m) = (public.n as usize, public.m as usize);
        let (listed, scratch) = searched.split_at_mut(3 * m + 3 * n);
        let (destination, cells) = cells.split_at_mut(1);
        let (before, route) = cells.split_at_mut(n);
        Lists {
            tails: &listed[..m],
            parents: &listed[3 * m + n..][..n],
            names: &listed[3 * m + 2 * n..],
            scratch,
            destination: destination[0],
            before,
            route,
        }
    }

    #[inline(always)]
    fn match_parents(&mut self, edge: usize) {
        let (number, tail) = (edge as i64, self.tails[edge]);
        let mut same = false;
        for (before, &parent) in self.before.iter_mut().zip(self.parents) {
            same = parent == number;
            if same {
                *before = tail;
            }
        }
        self.scratch[EDGE] = number;
        self.scratch[SAME] = i64::from(same);
    }

    #[inline(always)]
    fn step_back(&mut self, step: usize) {
        let leaving = self.scratch[HERE];
        let (mut here, mut shown) = (leaving, self.route[step]);
        let mut same = false;
        let vertices = self.names.iter().zip(self.parents).zip(&*self.before);
        for ((&name, &parent), &before) in vertices {
            same = name == leaving;
            if same {
                (here, shown) = (before, parent);
            }
        }
        self.route[step] = shown;
        self.scratch[HERE] = here;
        self.scratch[LEAVING] = leaving;
        self.scratch[SAME] = i64::from(same);
    }
}
