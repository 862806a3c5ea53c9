//! The kinds of requests and of runs, for the tests to count.

use std::collections::BTreeMap;

use super::network::Network;
use super::Told;
use crate::generator::{METHODS, MOST};
use crate::reference::graph::{Edge, Graph};
use crate::reference::plan::{Public, FAR};

/// How often each kind occurred, by method.
pub type Kinds = BTreeMap<&'static str, [usize; 6]>;

pub fn count(kinds: &mut Kinds, method: u64, seen: &[(bool, &'static str)]) {
    for &(seen, kind) in seen {
        kinds.entry(kind).or_default()[method as usize] += usize::from(seen);
    }
}

/// Each kind must have occurred in each method as often as is asked.
pub fn assert_common(kinds: &Kinds, least: impl Fn(&str, u64) -> usize) {
    for (kind, counts) in kinds {
        let common = |&method: &u64| counts[method as usize] >= least(kind, method);
        assert!(METHODS.iter().all(common), "{kind} is rare: {counts:?}");
    }
}

pub fn full_size(request: &[u64]) -> bool {
    let Public { method, n, m, .. } = Public::read(request[0]);
    n == 32 && (m == 128 || method == 2)
}

/// Whether a distance is the mark of an unreached vertex.
pub fn apart(told: &Told) -> bool {
    told.rows.iter().any(|row| row.distances.contains(&FAR))
}

pub fn edges(request: &[u64]) -> Vec<Edge> {
    Graph::read(request).edges.into_iter().flatten().collect()
}

/// The kinds of a request that ran.
pub fn of(request: &[u64], told: &Told) -> [(bool, &'static str); 7] {
    let Network { vertices, least } = Network::read(request);
    let edges = edges(request).into_iter();
    let (own, others): (Vec<Edge>, Vec<Edge>) = edges.partition(|edge| edge.tail == edge.head);
    let dearer = |edge: &Edge| least[edge.tail * vertices + edge.head] == Some(edge.weight - 1);
    let limit = |edge: &Edge| edge.weight.abs() == MOST;
    [
        (full_size(request), "full size"),
        (apart(told), "unreached vertex"),
        (least.iter().flatten().any(|&w| w < 0), "negative weight"),
        (others.iter().any(limit), "weight at its limit"),
        (others.iter().any(dearer), "edge dearer by 1"),
        (!own.is_empty(), "edge to its own vertex"),
        (
            own.iter().any(|e| e.weight < 0),
            "negative edge to its own vertex",
        ),
    ]
}
