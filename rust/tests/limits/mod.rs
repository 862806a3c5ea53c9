//! Requests of full size with weights at the limits, where totals come nearest
//! to the mark of an unreached vertex.

use crate::generator::{edge_word, Random, METHODS, MOST};
use crate::reference::plan::{head, pack, Public, FAR};
use crate::{compared, SEED};

const N: u64 = 32;
const M: u64 = 128;
/// The methods that have a list of edges.
const LISTED: [u64; 4] = [1, 3, 4, 5];

/// A request from vertex 0; method 3 has the edges sorted, method 5 the last
/// vertex as its destination.
fn listed(method: u64, edges: &[u64]) -> Vec<u64> {
    let mut request = vec![pack(method, N, edges.len() as u64, 0)];
    request.extend(edges);
    match method {
        3 => request[1..].sort_by_key(|&word| head(word)),
        5 => request.push(N - 1),
        _ => (),
    }
    request
}

/// A request of method 2 from vertex 0, with a weight for each pair of vertices.
fn table(weight: impl FnMut((u64, u64)) -> i64) -> Vec<u64> {
    let pairs = (0..N).flat_map(|tail| (0..N).map(move |head| (tail, head)));
    let entries = pairs.map(weight).map(|weight| u64::from(weight as u32));
    [pack(2, N, 0, 0)].into_iter().chain(entries).collect()
}

/// The distances from vertex 0 of a request that runs.
fn distances(random: &mut Random, request: &[u64]) -> Vec<i64> {
    let (outcome, left) = compared(random, request);
    assert_eq!(outcome.number, 0);
    left.distances[..N as usize].to_vec()
}

/// A chain's distances: each step costs the most.
fn steps(count: u64) -> Vec<i64> {
    (0..count as i64).map(|step| step * MOST).collect()
}

/// Every edge lowers the source's total in every pass of methods 1 and 5, and
/// would once more in the check: no run of theirs has lower totals than this. In
/// method 4 the least edge counts, and the first stage doubles it.
#[test]
fn lowest_totals() {
    let mut random = Random::new(SEED + 17);
    let edges = [edge_word(0, 0, -MOST); M as usize];
    for (method, lowest) in [
        (1, -396_800_000_000),
        (3, -3_100_000_000),
        (4, -200_000_000),
        (5, -396_800_000_000),
    ] {
        let request = listed(method, &edges);
        let (outcome, left) = compared(&mut random, &request);
        assert_eq!((outcome.number, outcome.values[2]), (12, 1));
        let first = Public::read(request[0]).distances() as usize;
        assert_eq!(left.cells[first], lowest);
        assert_eq!(left.cells[first + 1..][..31], [FAR; 31]);
        println!("method {method}: a total of {lowest}");
    }
}

/// A chain whose steps are in an order that reaches one vertex a pass, among
/// edges beside them and back that offer nothing less.
#[test]
fn highest_distances() {
    let mut random = Random::new(SEED + 18);
    let mut ends: Vec<(u64, u64, i64)> = (1..N).map(|v| (v - 1, v, MOST)).collect();
    while ends.len() < M as usize {
        let tail = random.below(N - 1);
        ends.push(match random.below(3) {
            0 => (tail, tail + 1, MOST),
            1 => (tail + 1, tail, -MOST),
            _ => (
                tail + 1,
                random.below(tail + 1),
                random.between(-1, 1) * MOST,
            ),
        });
    }
    ends.sort_by_key(|&(tail, ..)| N - tail);
    let edges: Vec<u64> = ends.iter().map(|&(t, h, w)| edge_word(t, h, w)).collect();
    for method in LISTED {
        let found = distances(&mut random, &listed(method, &edges));
        assert_eq!(found, steps(N));
        println!("method {method}: a distance of {}", found[31]);
    }
    let chain = table(|(tail, head)| if head == tail + 1 { MOST } else { -1 });
    let found = distances(&mut random, &chain);
    assert_eq!(found[31], 3_100_000_000);
    assert_eq!(found, steps(N));
    println!("method 2: a distance of {}", found[31]);
}

/// FAR and a rebate is no distance, and neither are two FARs.
#[test]
fn unreached_vertices_stay_unreached() {
    let mut random = Random::new(SEED + 19);
    let mut runs = 0;
    for reached in [1, 2, 16, 31] {
        let far = vec![FAR; (N - reached) as usize];
        let expected = [steps(reached), far].concat();
        for method in LISTED {
            let edges = apart(&mut random, method, reached);
            let found = distances(&mut random, &listed(method, &edges));
            assert_eq!(found, expected);
            runs += 1;
        }
        let entries = table(|(tail, head)| match tail < reached {
            true if head == tail + 1 && head < reached => MOST,
            true => -1,
            false => 0,
        });
        assert_eq!(distances(&mut random, &entries), expected);
        runs += 1;
    }
    println!("{runs} requests of full size with unreached vertices");
}

/// A chain of the reached vertices, and rebates from the others to any vertex. In
/// method 4 they lead to lower ones: a negative cycle counts there that vertex 0
/// does not reach.
fn apart(random: &mut Random, method: u64, reached: u64) -> Vec<u64> {
    let mut edges: Vec<u64> = (1..reached).map(|v| edge_word(v - 1, v, MOST)).collect();
    while edges.len() < M as usize {
        let tail = reached + random.below(N - reached);
        let heads = if method == 4 { tail } else { N };
        edges.push(edge_word(tail, random.below(heads), -MOST));
    }
    random.shuffle(&mut edges);
    edges
}

/// Weights at the ends of their range and 0. With many rebates there is a
/// negative cycle, with few there may be none.
#[test]
fn weights_at_the_limits() {
    let mut random = Random::new(SEED + 20);
    for method in METHODS {
        let mut seen = [0; 2];
        for turn in 0..20 {
            let chances = [2, 200][turn % 2];
            let request = match method {
                2 => table(|_| dense_weight(&mut random)),
                _ => {
                    let edges: Vec<u64> = (0..M).map(|_| edge(&mut random, chances)).collect();
                    listed(method, &edges)
                }
            };
            let (outcome, _) = compared(&mut random, &request);
            seen[outcome.values[2] as usize] += 1;
        }
        println!("method {method}: 20 requests of full size at the limits, by verdict: {seen:?}");
        assert!(seen[0] > 3 && (method == 2 || seen[1] > 3), "{seen:?}");
    }
}

/// A rebate in one of so many.
fn edge(random: &mut Random, chances: u64) -> u64 {
    let least = random.between(0, 1);
    let weight = match (random.one_in(chances), random.one_in(3)) {
        (true, _) => least - MOST,
        (false, true) => 0,
        (false, false) => MOST - least,
    };
    edge_word(random.below(N), random.below(N), weight)
}

/// Few entries, so that walks are long and not all vertices are reached.
fn dense_weight(random: &mut Random) -> i64 {
    match (random.one_in(16), random.below(4)) {
        (false, _) => -1,
        (true, 0) => 0,
        (true, 1) => MOST - 1,
        (true, _) => MOST,
    }
}
