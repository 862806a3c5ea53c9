//! The shapes of method 4's tables, for the tests to count.

use crate::reference::graph::{Edge, Graph};
use crate::reference::plan::FAR;
use crate::reference::{Buffers, Outcome};

pub const ALL: [&str; 12] = [
    "negative cycle, reached from vertex 0",
    "negative cycle, not reached from vertex 0",
    "negative cycle of one edge",
    "negative cycle of several edges alone",
    "one vertex",
    "no edge",
    "edge to its own vertex",
    "parallel edges",
    "zero cycle",
    "negative distance",
    "pair apart",
    "no pair apart",
];

/// The shapes of a request of method 4 and of what its run left.
pub fn of(request: &[u64], outcome: &Outcome, left: &Buffers) -> Vec<&'static str> {
    let graph = Graph::read(request);
    let edges: Vec<Edge> = graph.edges.iter().copied().flatten().collect();
    let of_any = [
        (graph.vertices == 1, "one vertex"),
        (edges.is_empty(), "no edge"),
        (parallel(&edges), "parallel edges"),
    ];
    let shapes = match outcome.number {
        12 => cycle_shapes(&graph, &edges),
        _ => table_shapes(&edges, left, graph.vertices),
    };
    chosen(&of_any).chain(shapes).collect()
}

fn chosen<'a>(shapes: &'a [(bool, &'static str)]) -> impl Iterator<Item = &'static str> + 'a {
    shapes
        .iter()
        .filter(|(seen, _)| *seen)
        .map(|&(_, name)| name)
}

/// Of a run with a negative cycle.
fn cycle_shapes(graph: &Graph, edges: &[Edge]) -> Vec<&'static str> {
    let reached = graph.distances_from(0).is_none();
    let lone = edges
        .iter()
        .any(|edge| edge.tail == edge.head && edge.weight < 0);
    let shapes = [
        (reached, "negative cycle, reached from vertex 0"),
        (!reached, "negative cycle, not reached from vertex 0"),
        (lone, "negative cycle of one edge"),
        (!lone, "negative cycle of several edges alone"),
    ];
    chosen(&shapes).collect()
}

/// Of a run without one, by the table that it left.
fn table_shapes(edges: &[Edge], left: &Buffers, n: usize) -> Vec<&'static str> {
    let table = &left.distances[..n * n];
    let own = |edge: &Edge| edge.tail == edge.head;
    // The way back costs what the edge gives.
    let returns = |edge: &Edge| !own(edge) && table[edge.head * n + edge.tail] == -edge.weight;
    let apart = table.contains(&FAR);
    let shapes = [
        (edges.iter().any(own), "edge to its own vertex"),
        (edges.iter().any(returns), "zero cycle"),
        (table.iter().any(|&total| total < 0), "negative distance"),
        (apart, "pair apart"),
        (!apart, "no pair apart"),
    ];
    chosen(&shapes).collect()
}

/// Whether two edges join the same vertices at different weights.
fn parallel(edges: &[Edge]) -> bool {
    let beside = |one: &Edge, other: &Edge| {
        (one.tail, one.head) == (other.tail, other.head) && one.weight != other.weight
    };
    edges
        .iter()
        .enumerate()
        .any(|(at, one)| edges[..at].iter().any(|other| beside(one, other)))
}
