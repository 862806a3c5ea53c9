//! Method 1: Bellman-Ford over a list of edges.

use super::word::{add, both, copy, equal, less, move_if, open, set, RIGHT, TO};
use super::{log_rows, log_vertices, start, CACHED_WORDS};
use crate::reference::plan::{Public, FAR};

pub fn run(public: &Public, cells: &mut [i64], log: &mut [u64]) {
    let (words, end) = log.split_at_mut(log.len() - 2);
    let verdict = search(public, cells, words);
    end.copy_from_slice(&[open(Plan::new(public).verdict), verdict]);
}

/// All but the publishing of the verdict, which is told.
pub fn search(public: &Public, cells: &mut [i64], log: &mut [u64]) -> u64 {
    let (n, m) = (public.n as usize, public.m as usize);
    let plan = Plan::new(public);
    let mut lists = Lists::split(public, cells);
    let mut scratch = Scratch::default();
    let copying = log.len() < CACHED_WORDS;
    let (opening, log) = log.split_at_mut(3 * n + 2);
    let (passes, check) = log.split_at_mut((n - 1) * m * (8 * n + 4));
    plan.log_opening(public.source, opening);
    for pass in 0..n - 1 {
        for edge in 0..m {
            plan.log_edge(pass, edge, passes, copying);
            scratch.price(edge, &lists);
            scratch.relax(edge, &mut lists);
        }
    }
    for (edge, words) in check.chunks_exact_mut(7 * n + 3).enumerate() {
        plan.log_check(edge as u64, words);
        scratch.price(edge, &lists);
        scratch.check(edge, &lists);
    }
    scratch.leave(lists.scratch);
    scratch.verdict as u64
}

/// The numbers of vertices and edges, and the addresses: the first of each
/// list and then the scratch cells.
struct Plan {
    n: usize,
    m: usize,
    heads: u64,
    weights: u64,
    distances: u64,
    parents: u64,
    names: u64,
    far: u64,
    tail_distance: u64,
    total: u64,
    edge: u64,
    reached: u64,
    same: u64,
    better: u64,
    verdict: u64,
}

impl Plan {
    fn new(public: &Public) -> Plan {
        let (n, m) = (public.n, public.m);
        let scratch = 3 * m + 3 * n;
        Plan {
            n: n as usize,
            m: m as usize,
            heads: m,
            weights: 2 * m,
            distances: 3 * m,
            parents: 3 * m + n,
            names: 3 * m + 2 * n,
            far: scratch,
            tail_distance: scratch + 1,
            total: scratch + 2,
            edge: scratch + 3,
            reached: scratch + 4,
            same: scratch + 5,
            better: scratch + 6,
            verdict: scratch + 7,
        }
    }

    fn log_opening(&self, source: u64, block: &mut [u64]) {
        let (vertices, constants) = block.split_at_mut(3 * self.n);
        let first = [
            set(self.names, 0),
            set(self.distances, FAR),
            set(self.parents, -1),
        ];
        log_vertices(vertices, first, source);
        constants.copy_from_slice(&[set(self.far, FAR), set(self.verdict, 0)]);
    }

    /// Logs an edge's part of a pass: in later passes, the words of the first.
    #[inline(always)]
    fn log_edge(&self, pass: usize, edge: usize, passes: &mut [u64], copying: bool) {
        let size = 8 * self.n + 4;
        let at = (pass * self.m + edge) * size;
        if copying && pass > 0 {
            passes.copy_within(edge * size..(edge + 1) * size, at);
        } else {
            self.log_relaxing(edge as u64, &mut passes[at..at + size]);
        }
    }

    #[inline(always)]
    fn log_relaxing(&self, edge: u64, block: &mut [u64]) {
        let (price, block) = block.split_at_mut(2 * self.n + 3);
        self.log_price(edge, price);
        block[0] = set(self.edge, edge as i64);
        let [same, nearer, reached, better] = self.comparison(edge);
        let distance = move_if(self.distances, self.better, self.total);
        let parent = move_if(self.parents, self.better, self.edge);
        let first = [same, nearer, reached, better, distance, parent];
        log_rows(&mut block[1..], first, [RIGHT, RIGHT, 0, 0, TO, TO]);
    }

    /// The last pass only notes whether an edge could still better a vertex.
    #[inline(always)]
    fn log_check(&self, edge: u64, block: &mut [u64]) {
        let (price, block) = block.split_at_mut(2 * self.n + 3);
        self.log_price(edge, price);
        let [same, nearer, reached, better] = self.comparison(edge);
        let verdict = move_if(self.verdict, self.better, self.better);
        let first = [same, nearer, reached, better, verdict];
        log_rows(block, first, [RIGHT, RIGHT, 0, 0, 0]);
    }

    /// Finds the distance of the edge's tail and adds the weight.
    #[inline(always)]
    fn log_price(&self, edge: u64, block: &mut [u64]) {
        let (search, sum) = block.split_at_mut(2 * self.n + 1);
        search[0] = copy(self.tail_distance, self.far);
        let first = [
            equal(self.same, edge, self.names),
            move_if(self.tail_distance, self.same, self.distances),
        ];
        log_rows(&mut search[1..], first, [RIGHT, RIGHT]);
        sum[0] = add(self.total, self.tail_distance, self.weights + edge);
        sum[1] = less(self.reached, self.tail_distance, self.far);
    }

    /// Whether the edge leads to vertex 0 and betters its distance.
    fn comparison(&self, edge: u64) -> [u64; 4] {
        [
            equal(self.same, self.heads + edge, self.names),
            less(self.better, self.total, self.distances),
            both(self.better, self.better, self.reached),
            both(self.better, self.better, self.same),
        ]
    }
}

/// The cells, each list by itself.
struct Lists<'a> {
    tails: &'a [i64],
    heads: &'a [i64],
    weights: &'a [i64],
    distances: &'a mut [i64],
    parents: &'a mut [i64],
    names: &'a [i64],
    scratch: &'a mut [i64],
}

impl Lists<'_> {
    fn split<'a>(public: &Public, cells: &'a mut [i64]) -> Lists<'a> {
        let (n, m) = (public.n as usize, public.m as usize);
        let (tails, cells) = cells.split_at_mut(m);
        let (heads, cells) = cells.split_at_mut(m);
        let (weights, cells) = cells.split_at_mut(m);
        let (distances, cells) = cells.split_at_mut(n);
        let (parents, cells) = cells.split_at_mut(n);
        let (names, scratch) = cells.split_at_mut(n);
        start(public, names, distances, parents);
        Lists {
            tails,
            heads,
            weights,
            distances,
            parents,
            names,
            scratch,
        }
    }
}

/// The scratch cells that change.
#[derive(Default)]
struct Scratch {
    tail_distance: i64,
    total: i64,
    edge: i64,
    reached: i64,
    same: i64,
    better: i64,
    verdict: i64,
}

impl Scratch {
    #[inline(always)]
    fn price(&mut self, edge: usize, lists: &Lists) {
        self.tail_distance = FAR;
        for (&name, &distance) in lists.names.iter().zip(&*lists.distances) {
            if name == lists.tails[edge] {
                self.tail_distance = distance;
            }
        }
        self.total = self.tail_distance.wrapping_add(lists.weights[edge]);
        self.reached = i64::from(self.tail_distance < FAR);
    }

    #[inline(always)]
    fn relax(&mut self, edge: usize, lists: &mut Lists) {
        self.edge = edge as i64;
        let vertices = lists.distances.iter_mut().zip(&mut *lists.parents);
        for ((distance, parent), &name) in vertices.zip(lists.names) {
            self.compare(lists.heads[edge], name, *distance);
            if self.better != 0 {
                (*distance, *parent) = (self.total, self.edge);
            }
        }
    }

    #[inline(always)]
    fn check(&mut self, edge: usize, lists: &Lists) {
        for (&name, &distance) in lists.names.iter().zip(&*lists.distances) {
            self.compare(lists.heads[edge], name, distance);
            self.verdict |= self.better;
        }
    }

    #[inline(always)]
    fn compare(&mut self, head: i64, name: i64, distance: i64) {
        self.same = i64::from(name == head);
        self.better = i64::from(self.total < distance) & self.reached & self.same;
    }

    fn leave(&self, cells: &mut [i64]) {
        cells.copy_from_slice(&[
            FAR,
            self.tail_distance,
            self.total,
            self.edge,
            self.reached,
            self.same,
            self.better,
            self.verdict,
        ]);
    }
}
