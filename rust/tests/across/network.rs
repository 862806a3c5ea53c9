//! Networks by their least weights, and requests of every method that have them.

use crate::generator::{edge_word, Random, MOST};
use crate::reference::graph::{Edge, Graph};
use crate::reference::plan::{pack, FAR};

/// The most edges that a request has.
const EDGES: usize = 128;

/// The least weight of an edge for each ordered pair of different vertices.
#[derive(Debug, PartialEq)]
pub struct Network {
    pub vertices: usize,
    /// By rows; none where there is no edge, and none from a vertex to itself.
    pub least: Vec<Option<i64>>,
}

impl Network {
    /// The network of a request.
    pub fn read(request: &[u64]) -> Network {
        let graph = Graph::read(request);
        let mut least: Vec<Option<i64>> = vec![None; graph.vertices * graph.vertices];
        for Edge { tail, head, weight } in graph.edges.into_iter().flatten() {
            if tail != head {
                let entry = &mut least[tail * graph.vertices + head];
                *entry = Some(entry.map_or(weight, |old| old.min(weight)));
            }
        }
        Network {
            vertices: graph.vertices,
            least,
        }
    }

    /// Often no edge leads from this side of a wall to the vertices beyond it.
    pub fn draw(random: &mut Random, vertices: usize) -> Network {
        let style = random.below(8);
        let wall = style == 5 || random.one_in(2);
        let heights: Vec<i64> = (0..vertices).map(|_| height(random)).collect();
        let beyond: Vec<bool> = (0..vertices).map(|_| wall && random.one_in(2)).collect();
        let mut least = vec![None; vertices * vertices];
        for (tail, head) in ends(random, vertices) {
            if tail != head && (beyond[tail] || !beyond[head]) {
                let climb = heights[head] - heights[tail];
                let weight = weight(random, style, climb, beyond[head]);
                least[tail * vertices + head] = Some(weight);
            }
        }
        Network { vertices, least }
    }

    /// The distances from a vertex by the least weights alone, `None` if it reaches
    /// a negative cycle.
    pub fn distances_from(&self, source: usize) -> Option<Vec<i64>> {
        let mut totals = vec![None; self.vertices];
        totals[source] = Some(0);
        for _ in 1..self.vertices {
            totals = self.one_step_more(&totals);
        }
        let idle = self.one_step_more(&totals) == totals;
        let marked = totals.iter().map(|total| total.unwrap_or(FAR));
        idle.then(|| marked.collect())
    }

    /// Least totals of walks, from those of walks that are a step shorter.
    fn one_step_more(&self, totals: &[Option<i64>]) -> Vec<Option<i64>> {
        let n = self.vertices;
        let least = |head: usize| {
            let offers =
                (0..n).filter_map(|tail| Some(totals[tail]? + self.least[tail * n + head]?));
            offers.chain(totals[head]).min()
        };
        (0..n).map(least).collect()
    }

    /// A request that has these least weights; of method 2 only where none is
    /// negative. Method 4 has no use for a source.
    pub fn request(&self, random: &mut Random, method: u64, source: usize) -> Option<Vec<u64>> {
        match method {
            2 => self.table(random, source),
            _ => Some(self.listed(random, method, source)),
        }
    }

    fn table(&self, random: &mut Random, source: usize) -> Option<Vec<u64>> {
        if self.least.iter().flatten().any(|&weight| weight < 0) {
            return None;
        }
        let entries = self.least.iter().enumerate().map(|(at, weight)| {
            // Each row has its own vertex a place later than the row before it.
            match at % (self.vertices + 1) {
                0 => own_weight(random, -1),
                _ => weight.unwrap_or(-1),
            }
        });
        let words = entries.map(|weight| u64::from(weight as u32));
        let header = pack(2, self.vertices as u64, 0, source as u64);
        Some([header].into_iter().chain(words).collect())
    }

    fn listed(&self, random: &mut Random, method: u64, source: usize) -> Vec<u64> {
        let mut edges = self.edges();
        let room = EDGES - edges.len();
        // With all vertices that there may be, all edges.
        let more = match self.vertices {
            32 => room,
            n => random.index(1 + room.min(2 * n)),
        };
        let floors = self.own_floors(method, source);
        let others: Vec<Edge> = (0..more)
            .map(|_| harmless(random, &edges, &floors))
            .collect();
        edges.extend(others);
        random.shuffle(&mut edges);
        if method == 3 {
            edges.sort_by_key(|edge| edge.head);
        }
        let source = if method == 4 { 0 } else { source };
        let [n, m] = [self.vertices, edges.len()].map(|count| count as u64);
        let words = edges.iter().map(word);
        let destination = (method == 5).then(|| random.below(n));
        let header = pack(method, n, m, source as u64);
        [header]
            .into_iter()
            .chain(words)
            .chain(destination)
            .collect()
    }

    /// One edge for each pair that has any.
    fn edges(&self) -> Vec<Edge> {
        let places = self.least.iter().enumerate();
        let edges = places.filter_map(|(at, weight)| {
            weight.map(|weight| Edge {
                tail: at / self.vertices,
                head: at % self.vertices,
                weight,
            })
        });
        edges.collect()
    }

    /// How low an edge from each vertex to itself may be and make no negative cycle
    /// that counts: one that the source does not reach counts in method 4 alone.
    fn own_floors(&self, method: u64, source: usize) -> Vec<i64> {
        let floor = |distance: &i64| match (method, *distance) {
            (1 | 3 | 5, FAR) => -MOST,
            _ => 0,
        };
        match self.distances_from(source) {
            Some(distances) => distances.iter().map(floor).collect(),
            None => vec![0; self.vertices],
        }
    }
}

/// Ends of edges, some of them there and back, and now and then with a trail through
/// all vertices among them.
fn ends(random: &mut Random, n: usize) -> Vec<(usize, usize)> {
    let mut ends = Vec::new();
    for _ in 0..random.index(3 * n + 1) {
        let (tail, head) = (random.index(n), random.index(n));
        ends.push((tail, head));
        ends.extend(random.one_in(3).then_some((head, tail)));
    }
    ends.truncate(EDGES - n);
    if random.one_in(4) {
        ends.extend((1..n).map(|head| (head - 1, head)));
    }
    ends
}

fn height(random: &mut Random) -> i64 {
    match random.below(4) {
        0 => 0,
        1 => MOST,
        _ => random.between(0, MOST),
    }
}

fn weight(random: &mut Random, style: u64, climb: i64, beyond: bool) -> i64 {
    match style {
        0 => random.between(0, 2),
        1 => random.between(0, MOST),
        2 => MOST - random.between(0, 1),
        // Climbs cancel on a cycle: negative edges and zero cycles, no negative one.
        3 => climb,
        4 => (climb + random.between(0, 2)).min(MOST),
        // Negative cycles beyond the wall alone.
        5 if beyond => random.between(-1, 0) * MOST,
        5 => random.between(0, 3),
        6 => random.between(-1, 5),
        _ => random.between(-MOST, MOST),
    }
}

/// An edge beside one of these that is no cheaper, or one from a vertex to itself.
fn harmless(random: &mut Random, edges: &[Edge], floors: &[i64]) -> Edge {
    if edges.is_empty() || random.one_in(3) {
        let vertex = random.index(floors.len());
        return Edge {
            tail: vertex,
            head: vertex,
            weight: own_weight(random, floors[vertex]),
        };
    }
    let beside = edges[random.index(edges.len())];
    let weight = match random.below(4) {
        0 => beside.weight,
        1 => random.between(beside.weight, MOST),
        _ => MOST.min(beside.weight + 1),
    };
    Edge { weight, ..beside }
}

fn own_weight(random: &mut Random, floor: i64) -> i64 {
    match random.below(4) {
        0 => floor,
        1 => 0,
        2 => MOST,
        _ => random.between(floor, MOST),
    }
}

fn word(edge: &Edge) -> u64 {
    edge_word(edge.tail as u64, edge.head as u64, edge.weight)
}
