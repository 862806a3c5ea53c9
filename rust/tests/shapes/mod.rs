//! The shapes of method 5's routes, for the tests to count, and of method 4's tables.

pub mod tables;

use std::collections::HashSet;

use crate::reference::graph::{Edge, Graph};
use crate::reference::plan::FAR;
use crate::reference::{Buffers, Outcome};

pub const ALL: [&str; 8] = [
    "negative cycle",
    "unreached",
    "no edge",
    "one edge",
    "some edges",
    "all vertices",
    "tie",
    "zero cycle",
];

/// The shapes of what a run of method 5 left.
pub fn of(request: &[u64], outcome: &Outcome, left: &Buffers) -> Vec<&'static str> {
    let graph = Graph::read(request);
    let destination = graph.destination.expect("method 5 has a destination");
    if outcome.number == 12 {
        return vec!["negative cycle"];
    }
    if left.distances[destination] == FAR {
        return vec!["unreached"];
    }
    // The destination, and the tail of each edge of the route.
    let mut passed = vec![destination];
    let shown = &left.route[..graph.vertices - 1];
    let numbers = shown.iter().filter_map(|&edge| usize::try_from(edge).ok());
    passed.extend(numbers.filter_map(|number| graph.edges[number].map(|edge| edge.tail)));
    let mut shapes = vec![match passed.len() {
        1 => "no edge",
        2 => "one edge",
        count if count == graph.vertices => "all vertices",
        _ => "some edges",
    }];
    let tight = tight(&graph, &left.distances);
    let offers = |vertex: usize| tight.iter().filter(|edge| edge.head == vertex).count();
    if passed.iter().any(|&v| v != graph.source && offers(v) > 1) {
        shapes.push("tie");
    }
    if passed.iter().any(|&v| returns(&tight, v)) {
        shapes.push("zero cycle");
    }
    shapes
}

/// The edges that lead from a reached vertex to a distance. They alone are on
/// shortest walks and on cycles of total 0.
fn tight(graph: &Graph, distances: &[i64]) -> Vec<Edge> {
    let edges = graph.edges.iter().copied().flatten();
    let tight = edges.filter(|edge| {
        let reached = distances[edge.tail];
        reached != FAR && reached + edge.weight == distances[edge.head]
    });
    tight.collect()
}

/// Whether a walk of some of these edges leads from a vertex back to it.
fn returns(edges: &[Edge], vertex: usize) -> bool {
    let mut reached = HashSet::new();
    let mut waiting = vec![vertex];
    while let Some(at) = waiting.pop() {
        for edge in edges.iter().filter(|edge| edge.tail == at) {
            if reached.insert(edge.head) {
                waiting.push(edge.head);
            }
        }
    }
    reached.contains(&vertex)
}
