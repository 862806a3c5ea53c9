//! Method 3: Bellman-Ford over a list of edges sorted by head.

use super::word::{add, both, copy, equal, less, move_if, open, set, LEFT, RIGHT, TO};
use super::{log_rows, log_vertices, start, CACHED_WORDS};
use crate::reference::plan::{Public, FAR};

pub fn run(public: &Public, cells: &mut [i64], log: &mut [u64]) {
    let (n, m) = (public.n as usize, public.m as usize);
    let plan = Plan::new(public);
    let mut lists = Lists::split(public, cells);
    let mut scratch = Scratch::default();
    let copying = log.len() < CACHED_WORDS;
    let (opening, log) = log.split_at_mut(4 * n + 3);
    let (ends, log) = log.split_at_mut(m * (2 * n + 1));
    let pass_size = m * (3 * n + 9) + 3 * n;
    let (passes, log) = log.split_at_mut((n - 1) * pass_size);
    let (check, log) = log.split_at_mut(m * (2 * n + 7));
    let (verdict, end) = log.split_at_mut(2 * n);
    plan.log_opening(public.source, opening);
    for (edge, words) in ends.chunks_exact_mut(2 * n + 1).enumerate() {
        plan.log_ends(edge as u64, words);
        lists.match_ends(edge);
    }
    for pass in 0..n - 1 {
        // Later passes log the words of the first.
        let at = pass * pass_size;
        if copying && pass > 0 {
            passes.copy_within(..pass_size, at);
        } else {
            plan.log_pass(&mut passes[at..at + pass_size]);
        }
        for edge in 0..m {
            scratch.offer(edge, &lists);
            scratch.hand_on(edge, &mut lists);
        }
        scratch.take(&mut lists);
    }
    plan.log_check(check, verdict);
    for edge in 0..m {
        scratch.offer(edge, &lists);
        scratch.hand_on_least(edge, &mut lists);
    }
    scratch.check(&lists);
    end.copy_from_slice(&[open(plan.verdict), scratch.verdict as u64]);
    scratch.leave(lists.scratch);
}

/// The number of vertices, and the addresses: the first of each list and then
/// the scratch cells.
struct Plan {
    n: usize,
    before: u64,
    heads: u64,
    weights: u64,
    distances: u64,
    parents: u64,
    names: u64,
    offers: u64,
    givers: u64,
    firsts: u64,
    from: u64,
    to: u64,
    far: u64,
    tail_distance: u64,
    total: u64,
    edge: u64,
    reached: u64,
    better: u64,
    least: u64,
    giver: u64,
    verdict: u64,
}

impl Plan {
    fn new(public: &Public) -> Plan {
        let (n, m) = (public.n, public.m);
        let distances = 3 * m + 1;
        let scratch = distances + 5 * n;
        let from = scratch + 9 + m;
        Plan {
            n: n as usize,
            before: m,
            heads: m + 1,
            weights: 2 * m + 1,
            distances,
            parents: distances + n,
            names: distances + 2 * n,
            offers: distances + 3 * n,
            givers: distances + 4 * n,
            firsts: scratch + 9,
            from,
            to: from + n * m,
            far: scratch,
            tail_distance: scratch + 1,
            total: scratch + 2,
            edge: scratch + 3,
            reached: scratch + 4,
            better: scratch + 5,
            least: scratch + 6,
            giver: scratch + 7,
            verdict: scratch + 8,
        }
    }

    fn log_opening(&self, source: u64, block: &mut [u64]) {
        let (vertices, constants) = block.split_at_mut(4 * self.n);
        let first = [
            set(self.names, 0),
            set(self.distances, FAR),
            set(self.parents, -1),
            set(self.offers, FAR),
        ];
        log_vertices(vertices, first, source);
        constants.copy_from_slice(&[
            set(self.far, FAR),
            set(self.verdict, 0),
            set(self.before, -1),
        ]);
    }

    /// Whether the edge is the first to its head, and which its ends are.
    fn log_ends(&self, edge: u64, block: &mut [u64]) {
        let (head, row) = (self.heads + edge, edge * self.n as u64);
        block[0] = less(self.firsts + edge, head - 1, head);
        let first = [
            equal(self.from + row, edge, self.names),
            equal(self.to + row, head, self.names),
        ];
        log_rows(&mut block[1..], first, [TO + RIGHT, TO + RIGHT]);
    }

    fn log_pass(&self, block: &mut [u64]) {
        let (vertices, size) = (3 * self.n, 3 * self.n + 9);
        let (edges, taking) = block.split_at_mut(block.len() - vertices);
        for (edge, words) in (0..).zip(edges.chunks_exact_mut(size)) {
            self.log_edge(edge, words);
        }
        let first = [
            less(self.better, self.offers, self.distances),
            move_if(self.distances, self.better, self.offers),
            move_if(self.parents, self.better, self.givers),
        ];
        log_rows(taking, first, [LEFT + RIGHT, TO + RIGHT, TO + RIGHT]);
    }

    #[inline(always)]
    fn log_edge(&self, edge: u64, block: &mut [u64]) {
        let (offer, block) = block.split_at_mut(self.n + 7);
        let (giver, handing) = block.split_at_mut(2);
        self.log_offer(edge, offer);
        giver[0] = set(self.edge, edge as i64);
        giver[1] = move_if(self.giver, self.better, self.edge);
        let head = self.to + edge * self.n as u64;
        let first = [
            move_if(self.offers, head, self.least),
            move_if(self.givers, head, self.giver),
        ];
        log_rows(handing, first, [TO + LEFT, TO + LEFT]);
    }

    /// The last pass only notes whether a vertex could still gain.
    fn log_check(&self, edges: &mut [u64], vertices: &mut [u64]) {
        for (edge, words) in (0..).zip(edges.chunks_exact_mut(2 * self.n + 7)) {
            let (offer, handing) = words.split_at_mut(self.n + 7);
            self.log_offer(edge, offer);
            let head = self.to + edge * self.n as u64;
            let first = move_if(self.offers, head, self.least);
            log_rows(handing, [first], [TO + LEFT]);
        }
        let first = [
            less(self.better, self.offers, self.distances),
            move_if(self.verdict, self.better, self.better),
        ];
        log_rows(vertices, first, [LEFT + RIGHT, 0]);
    }

    /// Finds the distance of the edge's tail, adds the weight, and takes the
    /// total if it is the least so far.
    #[inline(always)]
    fn log_offer(&self, edge: u64, block: &mut [u64]) {
        let (search, sum) = block.split_at_mut(self.n + 1);
        search[0] = copy(self.tail_distance, self.far);
        let tail = self.from + edge * self.n as u64;
        let first = move_if(self.tail_distance, tail, self.distances);
        log_rows(&mut search[1..], [first], [LEFT + RIGHT]);
        sum.copy_from_slice(&[
            add(self.total, self.tail_distance, self.weights + edge),
            less(self.reached, self.tail_distance, self.far),
            move_if(self.least, self.firsts + edge, self.far),
            less(self.better, self.total, self.least),
            both(self.better, self.better, self.reached),
            move_if(self.least, self.better, self.total),
        ]);
    }
}

/// The cells, each list by itself; `from` and `to` have a row for each edge.
struct Lists<'a> {
    tails: &'a [i64],
    /// The heads, after the cell before the first.
    heads: &'a [i64],
    weights: &'a [i64],
    distances: &'a mut [i64],
    parents: &'a mut [i64],
    names: &'a [i64],
    offers: &'a mut [i64],
    givers: &'a mut [i64],
    scratch: &'a mut [i64],
    firsts: &'a mut [i64],
    from: &'a mut [i64],
    to: &'a mut [i64],
}

impl Lists<'_> {
    fn split<'a>(public: &Public, cells: &'a mut [i64]) -> Lists<'a> {
        let (n, m) = (public.n as usize, public.m as usize);
        let (tails, cells) = cells.split_at_mut(m);
        let (heads, cells) = cells.split_at_mut(m + 1);
        let (weights, cells) = cells.split_at_mut(m);
        let (distances, cells) = cells.split_at_mut(n);
        let (parents, cells) = cells.split_at_mut(n);
        let (names, cells) = cells.split_at_mut(n);
        let (offers, cells) = cells.split_at_mut(n);
        let (givers, cells) = cells.split_at_mut(n);
        let (scratch, cells) = cells.split_at_mut(9);
        let (firsts, cells) = cells.split_at_mut(m);
        let (from, to) = cells.split_at_mut(n * m);
        start(public, names, distances, parents);
        offers.fill(FAR);
        heads[0] = -1;
        Lists {
            tails,
            heads,
            weights,
            distances,
            parents,
            names,
            offers,
            givers,
            scratch,
            firsts,
            from,
            to,
        }
    }

    fn match_ends(&mut self, edge: usize) {
        let (tail, head) = (self.tails[edge], self.heads[edge + 1]);
        self.firsts[edge] = i64::from(self.heads[edge] < head);
        let n = self.names.len();
        let from = &mut self.from[edge * n..][..n];
        let to = &mut self.to[edge * n..][..n];
        for ((from, to), &name) in from.iter_mut().zip(to).zip(self.names) {
            *from = i64::from(tail == name);
            *to = i64::from(head == name);
        }
    }
}

/// The scratch cells that change.
#[derive(Default)]
struct Scratch {
    tail_distance: i64,
    total: i64,
    edge: i64,
    reached: i64,
    better: i64,
    least: i64,
    giver: i64,
    verdict: i64,
}

impl Scratch {
    #[inline(always)]
    fn offer(&mut self, edge: usize, lists: &Lists) {
        let n = lists.names.len();
        self.tail_distance = FAR;
        let from = &lists.from[edge * n..][..n];
        for (&here, &distance) in from.iter().zip(&*lists.distances) {
            if here != 0 {
                self.tail_distance = distance;
            }
        }
        self.total = self.tail_distance.wrapping_add(lists.weights[edge]);
        self.reached = i64::from(self.tail_distance < FAR);
        if lists.firsts[edge] != 0 {
            self.least = FAR;
        }
        self.better = i64::from(self.total < self.least) & self.reached;
        if self.better != 0 {
            self.least = self.total;
        }
    }

    #[inline(always)]
    fn hand_on(&mut self, edge: usize, lists: &mut Lists) {
        self.edge = edge as i64;
        if self.better != 0 {
            self.giver = self.edge;
        }
        let n = lists.names.len();
        let to = &lists.to[edge * n..][..n];
        let vertices = lists.offers.iter_mut().zip(&mut *lists.givers);
        for (&here, (offer, giver)) in to.iter().zip(vertices) {
            if here != 0 {
                (*offer, *giver) = (self.least, self.giver);
            }
        }
    }

    #[inline(always)]
    fn hand_on_least(&self, edge: usize, lists: &mut Lists) {
        let n = lists.names.len();
        let to = &lists.to[edge * n..][..n];
        for (&here, offer) in to.iter().zip(&mut *lists.offers) {
            if here != 0 {
                *offer = self.least;
            }
        }
    }

    fn take(&mut self, lists: &mut Lists) {
        let vertices = lists.distances.iter_mut().zip(&mut *lists.parents);
        let offers = lists.offers.iter().zip(&*lists.givers);
        for ((distance, parent), (&offer, &giver)) in vertices.zip(offers) {
            self.better = i64::from(offer < *distance);
            if self.better != 0 {
                (*distance, *parent) = (offer, giver);
            }
        }
    }

    fn check(&mut self, lists: &Lists) {
        for (&offer, &distance) in lists.offers.iter().zip(&*lists.distances) {
            self.better = i64::from(offer < distance);
            self.verdict |= self.better;
        }
    }

    fn leave(&self, cells: &mut [i64]) {
        cells.copy_from_slice(&[
            FAR,
            self.tail_distance,
            self.total,
            self.edge,
            self.reached,
            self.better,
            self.least,
            self.giver,
            self.verdict,
        ]);
    }
}
