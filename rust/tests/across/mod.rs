//! Totals across methods: requests with the same least weights, and moved fees.

mod fees;
mod kinds;
mod network;

use std::collections::BTreeMap;

use crate::generator::{Random, METHODS};
use crate::reference::plan::Public;
use crate::reference::Outcome;
use crate::{compared, solved, SEED};
use kinds::{assert_common, count, Kinds};
use network::Network;

/// What a run tells.
struct Told {
    outcome: Outcome,
    log: Vec<u64>,
    /// In method 4 one for each vertex; none with a negative cycle.
    rows: Vec<Row>,
}

/// The distances from a vertex, and the method that found them.
#[derive(Debug, PartialEq)]
struct Row {
    method: u64,
    source: usize,
    distances: Vec<i64>,
}

/// Runs a valid request on drawn buffers.
fn told(random: &mut Random, request: &[u64]) -> Told {
    let public = Public::read(request[0]);
    let (outcome, mut left) = compared(random, request);
    assert!(matches!(outcome.number, 0 | 12), "{request:x?}");
    let given = match outcome.number {
        0 => public.distances_length(),
        _ => 0,
    };
    left.log.truncate(outcome.values[1] as usize);
    // Method 4 has 0 as its source, and a row for each vertex from there on.
    let sources = public.source as usize..;
    let rows = left.distances[..given].chunks(public.n as usize);
    let rows = sources.zip(rows).map(|(source, distances)| Row {
        method: public.method,
        source,
        distances: distances.to_vec(),
    });
    Told {
        outcome,
        log: left.log,
        rows: rows.collect(),
    }
}

/// Distances from the same vertex are the same, whichever methods found them.
#[test]
fn one_network_in_every_method() {
    let mut random = Random::new(SEED + 31);
    let (mut seen, mut pairs) = (Kinds::new(), BTreeMap::new());
    for turn in 0..2_000 {
        let n = match turn % 250 {
            0 => 32,
            _ => 1 + random.index(9),
        };
        let network = Network::draw(&mut random, n);
        let requests = requests(&mut random, &network);
        let runs: Vec<Told> = requests.iter().map(|r| told(&mut random, r)).collect();
        compare_rows(&network, &runs, &mut pairs);
        let expected: Vec<_> = (0..n).map(|v| network.distances_from(v)).collect();
        for (request, told) in requests.iter().zip(&runs) {
            assert_eq!(Network::read(request), network, "{request:x?}");
            judge_rows(request, told, &expected);
            count_kinds(request, told, &expected, &mut seen);
        }
    }
    println!("2000 networks, requests by kind and method: {seen:?}");
    println!("rows compared, by their methods: {pairs:?}");
    assert_common(&seen, |kind, method| match (kind, method) {
        ("unreached negative cycle" | "negative edge to its own vertex", 2 | 4) => 0,
        ("negative cycle" | "negative weight" | "edge dearer by 1", 2) => 0,
        ("full size", _) => 1,
        _ => 100,
    });
    assert_eq!(pairs.len(), 15);
    assert!(pairs.values().all(|&count| count > 100), "{pairs:?}");
}

/// Requests of every method that the network allows, and of one method another
/// one, from a vertex or now and then from each.
fn requests(random: &mut Random, network: &Network) -> Vec<Vec<u64>> {
    let n = network.vertices;
    let sources = match n < 32 && random.one_in(4) {
        true => (0..n).collect(),
        false => vec![random.index(n)],
    };
    let methods = [&METHODS[..], &[random.one_of(&METHODS)]].concat();
    let each = |source: usize| methods.iter().map(move |&method| (method, source));
    // Method 4 has a row for every vertex anyway.
    let first = sources[0];
    let asked = sources.into_iter().flat_map(each);
    let asked = asked.filter(|&(method, source)| method != 4 || source == first);
    let requests = asked.filter_map(|(method, source)| network.request(random, method, source));
    requests.collect()
}

/// Judges a run by the distances expected from each vertex, none from one that
/// reaches a negative cycle.
fn judge_rows(request: &[u64], told: &Told, expected: &[Option<Vec<i64>>]) {
    let Public { method, source, .. } = Public::read(request[0]);
    let runs = match method {
        4 => expected.iter().all(Option::is_some),
        _ => expected[source as usize].is_some(),
    };
    assert_eq!(told.outcome.number == 0, runs, "{request:x?}");
    for row in &told.rows {
        let expected = expected[row.source].as_ref();
        assert_eq!(expected, Some(&row.distances), "{request:x?}");
    }
}

fn compare_rows(network: &Network, runs: &[Told], pairs: &mut BTreeMap<[u64; 2], usize>) {
    let rows: Vec<&Row> = runs.iter().flat_map(|told| &told.rows).collect();
    for (at, one) in rows.iter().enumerate() {
        for other in rows[..at].iter().filter(|row| row.source == one.source) {
            assert_eq!(one.distances, other.distances, "{network:?}");
            let mut methods = [one.method, other.method];
            methods.sort_unstable();
            *pairs.entry(methods).or_default() += 1;
        }
    }
}

/// A negative cycle is 12 in method 4 wherever it is, and in the others where the
/// source reaches it.
fn count_kinds(request: &[u64], told: &Told, expected: &[Option<Vec<i64>>], seen: &mut Kinds) {
    let method = request[0] >> 60;
    let (falls, cycle) = (told.outcome.number == 12, expected.contains(&None));
    let verdicts = [
        (falls, "negative cycle"),
        (cycle && !falls, "unreached negative cycle"),
    ];
    count(seen, method, &verdicts);
    if !falls {
        count(seen, method, &kinds::of(request, told));
    }
}

/// The least weights count, and no others, with an edge from a vertex to itself or
/// without.
#[test]
fn another_least_weight_changes_a_total() {
    let distances = |request: &[u64]| solved(request).1;
    // From 0 to 1 at 9 and at 4, and from 1 to 2 at 3.
    let four = [
        0x1000_0300_0030_0000,
        0x0001_0000_0000_0009,
        0x0001_0000_0000_0004,
        0x0102_0000_0000_0003,
    ];
    assert_eq!(distances(&four), [Some(0), Some(4), Some(7)]);
    // The least is another one, while the greatest stays.
    let five = [
        0x1000_0300_0030_0000,
        0x0001_0000_0000_0009,
        0x0001_0000_0000_0005,
        0x0102_0000_0000_0003,
    ];
    assert_eq!(distances(&five), [Some(0), Some(5), Some(8)]);
    // In method 3 from 0 to itself at 1, to 1 at 4 and at 100000000.
    let sorted = [
        0x3000_0300_0040_0000,
        0x0000_0000_0000_0001,
        0x0001_0000_0000_0004,
        0x0001_0000_05F5_E100,
        0x0102_0000_0000_0003,
    ];
    assert_eq!(distances(&sorted), distances(&four));
    let absent = 0xFFFF_FFFF;
    let table = |first: u64| {
        let rows = [[0, first, absent], [absent, absent, 3], [absent; 3]];
        [&[0x2000_0300_0000_0000], &rows.concat()[..]].concat()
    };
    assert_eq!(distances(&table(4)), distances(&four));
    assert_eq!(distances(&table(5)), distances(&five));
    // Method 4 has the others' distances in its first row.
    let all = [&[0x4000_0300_0030_0000], &four[1..]].concat();
    assert_eq!(distances(&all)[..3], distances(&four));
}
