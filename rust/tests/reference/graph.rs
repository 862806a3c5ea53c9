//! Shortest walks without plans or cells, to judge the results themselves.

use super::plan::{head, Public};

/// An edge: its tail, its head and its weight.
#[derive(Clone, Copy, PartialEq)]
pub struct Edge {
    pub tail: usize,
    pub head: usize,
    pub weight: i64,
}

/// The graph of a valid request; in method 2 an edge for each table entry.
pub struct Graph {
    pub vertices: usize,
    pub source: usize,
    pub edges: Vec<Option<Edge>>,
    /// Of a request of method 5.
    pub destination: Option<usize>,
}

/// What passes over all vertices at once leave.
pub struct Passes {
    pub distances: Vec<Option<i64>>,
    pub parents: Vec<Option<usize>>,
    /// Whether a vertex would gain in one pass more.
    pub gains: bool,
}

impl Graph {
    pub fn read(request: &[u64]) -> Graph {
        let public = Public::read(request[0]);
        let n = public.n as usize;
        let (words, destination) = public.parts(&request[1..]);
        let words = words.iter().enumerate();
        let edges = words.map(|(at, &word)| match public.method {
            2 => table_edge(at, word, n),
            _ => Some(listed_edge(word)),
        });
        Graph {
            vertices: n,
            source: public.source as usize,
            edges: edges.collect(),
            destination: destination.map(|vertex| vertex as usize),
        }
    }

    fn present(&self) -> impl Iterator<Item = &Edge> {
        self.edges.iter().flatten()
    }

    /// Bellman-Ford: distances, or `None` if a negative cycle is reachable.
    pub fn bellman_ford(&self) -> Option<Vec<Option<i64>>> {
        self.distances_from(self.source)
    }

    /// Bellman-Ford from each vertex by itself, or `None` if there is a negative
    /// cycle anywhere.
    pub fn table(&self) -> Option<Vec<Vec<Option<i64>>>> {
        let rows = (0..self.vertices).map(|vertex| self.distances_from(vertex));
        rows.collect()
    }

    /// Distances from any vertex, or `None` if it reaches a negative cycle. An
    /// edge adds once a pass at the most, so no total is near the ends of 64 bits.
    pub fn distances_from(&self, source: usize) -> Option<Vec<Option<i64>>> {
        let mut distances = vec![None; self.vertices];
        distances[source] = Some(0);
        // A walk without cycles has fewer edges than vertices: the last pass must be idle.
        for _ in 0..self.vertices {
            if !self.relax(&mut distances) {
                return Some(distances);
            }
        }
        None
    }

    /// Whether a walk leads from a vertex, for each vertex, to it.
    pub fn reached_from(&self, vertex: usize) -> Vec<bool> {
        let mut reached = vec![false; self.vertices];
        reached[vertex] = true;
        // Each pass goes a step at least, and no walk needs as many as there are vertices.
        for _ in 1..self.vertices {
            for edge in self.present() {
                reached[edge.head] |= reached[edge.tail];
            }
        }
        reached
    }

    fn relax(&self, distances: &mut [Option<i64>]) -> bool {
        let mut changed = false;
        for edge in self.present() {
            let Some(reached) = distances[edge.tail] else {
                continue;
            };
            let total = reached + edge.weight;
            if distances[edge.head].is_none_or(|old| total < old) {
                distances[edge.head] = Some(total);
                changed = true;
            }
        }
        changed
    }

    /// Passes over all vertices at once, as many as there are vertices but one;
    /// each vertex is offered totals from the distances of the pass before.
    pub fn passes(&self) -> Passes {
        let mut distances = vec![None; self.vertices];
        let mut parents = vec![None; self.vertices];
        distances[self.source] = Some(0);
        for _ in 1..self.vertices {
            let before = distances.clone();
            for vertex in 0..self.vertices {
                if let Some((total, edge)) = self.gain(&before, vertex) {
                    distances[vertex] = Some(total);
                    parents[vertex] = Some(edge);
                }
            }
        }
        let gains = (0..self.vertices).any(|v| self.gain(&distances, v).is_some());
        Passes {
            distances,
            parents,
            gains,
        }
    }

    /// The least total offered to a vertex and the lowest edge that offers it,
    /// if the vertex gains by it.
    fn gain(&self, before: &[Option<i64>], vertex: usize) -> Option<(i64, usize)> {
        let edges = self.edges.iter().enumerate();
        let offers = edges.filter_map(|(number, edge)| {
            let edge = edge.filter(|edge| edge.head == vertex)?;
            before[edge.tail].map(|reached| (reached + edge.weight, number))
        });
        let old = before[vertex];
        let least = offers.min();
        least.filter(|&(total, _)| old.is_none_or(|old| total < old))
    }

    /// The parents followed from a vertex, a step less than there are vertices.
    /// Where there is no parent the steps end, and the rest is -1.
    pub fn followed(&self, parents: &[i64], from: usize) -> Vec<i64> {
        let mut at = Some(from);
        let steps = (1..self.vertices).map(|_| {
            let parent = at.map_or(-1, |vertex| parents[vertex]);
            let number = usize::try_from(parent).ok();
            at = number.and_then(|number| self.edges[number].map(|edge| edge.tail));
            parent
        });
        steps.collect()
    }

    /// Where a walk of these edges, the last one first, begins that leads to a
    /// vertex, and its total; `None` if they are no such walk.
    pub fn walk(&self, edges: &[i64], to: usize) -> Option<(usize, i64)> {
        edges.iter().try_fold((to, 0), |(at, total), &number| {
            let listed = self.edges.get(usize::try_from(number).ok()?);
            let edge = listed?.filter(|edge| edge.head == at)?;
            Some((edge.tail, total + edge.weight))
        })
    }

    /// Dijkstra, for weights that are not negative.
    pub fn dijkstra(&self) -> Vec<Option<i64>> {
        let mut distances = vec![None; self.vertices];
        let mut open = vec![true; self.vertices];
        distances[self.source] = Some(0);
        while let Some((near, vertex)) = nearest(&distances, &open) {
            open[vertex] = false;
            for edge in self.present().filter(|edge| edge.tail == vertex) {
                let total = near + edge.weight;
                if distances[edge.head].is_none_or(|old| total < old) {
                    distances[edge.head] = Some(total);
                }
            }
        }
        distances
    }
}

fn nearest(distances: &[Option<i64>], open: &[bool]) -> Option<(i64, usize)> {
    let vertices = 0..distances.len();
    vertices
        .filter(|&v| open[v])
        .filter_map(|v| distances[v].map(|distance| (distance, v)))
        .min()
}

fn listed_edge(word: u64) -> Edge {
    Edge {
        tail: (word >> 56) as usize,
        head: head(word) as usize,
        weight: i64::from(word as u32 as i32),
    }
}

fn table_edge(at: usize, word: u64, n: usize) -> Option<Edge> {
    let weight = i64::from(word as u32 as i32);
    (weight >= 0).then_some(Edge {
        tail: at / n,
        head: at % n,
        weight,
    })
}
