//! Fees of vertices, moved between the edges that arrive and those that leave.

use std::ops::RangeInclusive;

use super::kinds::{apart, assert_common, count, edges, full_size, Kinds};
use super::network::Network;
use super::{told, Row, Told};
use crate::generator::{request, Random, METHODS, MOST};
use crate::reference::graph::{Edge, Graph};
use crate::reference::plan::FAR;
use crate::{number, solved, SEED};

/// The weights that an edge of a method may have.
fn weights(method: u64) -> RangeInclusive<i64> {
    match method {
        2 => 0..=MOST,
        _ => -MOST..=MOST,
    }
}

/// The request with every weight higher by the fee of the vertex that the edge
/// leaves, and lower by that of the one where it arrives. In method 5 the
/// destination may be another.
fn moved(random: &mut Random, request: &[u64], fees: &[i64]) -> Vec<u64> {
    let mut moved = request.to_vec();
    for (word, edge) in moved[1..].iter_mut().zip(Graph::read(request).edges) {
        if let Some(Edge { tail, head, weight }) = edge {
            let weight = weight + fees[tail] - fees[head];
            assert!(weights(request[0] >> 60).contains(&weight));
            *word = *word >> 32 << 32 | u64::from(weight as u32);
        }
    }
    if request[0] >> 60 == 5 {
        let last = moved.len() - 1;
        moved[last] = random.below(fees.len() as u64);
    }
    moved
}

/// Fees with which every weight stays in its range. They are equal at first; then
/// one after the other is drawn anew in the room that the others leave it.
fn fees(random: &mut Random, request: &[u64]) -> Vec<i64> {
    let n = Graph::read(request).vertices;
    let reach = [2, 1_000, 1_000_000, MOST, 1 << 40][random.index(5)];
    let mut fees = vec![random.between(-reach, reach); n];
    for _ in 0..3 * n {
        let vertex = random.index(n);
        let [low, high] = room(request, &fees, vertex, reach);
        fees[vertex] = match random.below(4) {
            0 => low,
            1 => high,
            _ => random.between(low, high),
        };
    }
    fees
}

/// The least and the greatest fee that a vertex may have beside these.
fn room(request: &[u64], fees: &[i64], vertex: usize, reach: i64) -> [i64; 2] {
    let (least, most) = weights(request[0] >> 60).into_inner();
    let mut room = [-reach, reach];
    for Edge { tail, head, weight } in edges(request) {
        let [low, high] = match (tail == vertex, head == vertex) {
            (true, false) => [least, most].map(|end| end - weight + fees[head]),
            (false, true) => [most, least].map(|end| weight - end + fees[tail]),
            _ => continue,
        };
        room = [room[0].max(low), room[1].min(high)];
    }
    room
}

/// A request that has an edge between different vertices.
fn drawn(random: &mut Random, method: u64) -> Vec<u64> {
    loop {
        let request = any_request(random, method);
        if edges(&request).iter().any(|edge| edge.tail != edge.head) {
            return request;
        }
    }
}

/// A request as other tests draw it, or one of a network by its least weights.
fn any_request(random: &mut Random, method: u64) -> Vec<u64> {
    let chances = if method == 2 { 20 } else { 150 };
    let (n, m) = match random.one_in(chances) {
        true => (32, 128),
        false => (2 + random.below(7), random.below(16)),
    };
    if !random.one_in(3) {
        let network = Network::draw(random, n as usize);
        let source = random.index(n as usize);
        if let Some(request) = network.request(random, method, source) {
            return request;
        }
    }
    request(random, method, n, m)
}

/// The verdict stays, and with it the log. Each reached vertex's distance rises by
/// the fee of the source and falls by its own.
#[test]
fn moved_fees() {
    let mut random = Random::new(SEED + 32);
    let mut seen = Kinds::new();
    for turn in 0..8_000 {
        let method = METHODS[turn % METHODS.len()];
        let request = drawn(&mut random, method);
        let fees = fees(&mut random, &request);
        let other = moved(&mut random, &request, &fees);
        let [before, after] = [&request, &other].map(|request| told(&mut random, request));
        assert_eq!(before.outcome, after.outcome, "{fees:?} {request:x?}");
        assert!(before.log == after.log, "{fees:?} {request:x?}");
        let expected = with_fees(&before.rows, &fees);
        assert_eq!(after.rows, expected, "{fees:?} {request:x?}");
        count_kinds([&request, &other], &fees, [&before, &after], &mut seen);
    }
    println!("8000 requests with moved fees, by kind and method: {seen:?}");
    assert_common(&seen, |kind, method| match (kind, method) {
        ("negative cycle", 2) => 0,
        ("negative cycle", _) => 50,
        ("full size", _) => 2,
        _ => 100,
    });
}

/// These rows with the fees.
fn with_fees(rows: &[Row], fees: &[i64]) -> Vec<Row> {
    let rows = rows.iter().map(|row| {
        let distances = row.distances.iter().zip(fees);
        let moved = distances.map(|(&distance, fee)| match distance {
            FAR => FAR,
            reached => reached + fees[row.source] - fee,
        });
        Row {
            distances: moved.collect(),
            ..*row
        }
    });
    rows.collect()
}

/// Counts the kinds of a request and of the same with moved fees.
fn count_kinds(requests: [&[u64]; 2], fees: &[i64], told: [&Told; 2], seen: &mut Kinds) {
    let [request, other] = requests;
    let method = request[0] >> 60;
    let (least, most) = weights(method).into_inner();
    let limit = |edge: &Edge| edge.weight == least || edge.weight == most;
    let rebate = fees.iter().any(|&fee| fee < 0);
    let furthest = furthest(told);
    let kinds = [
        (true, "other weight"),
        (told[0].outcome.number == 12, "negative cycle"),
        (apart(told[0]), "unreached vertex"),
        (full_size(request), "full size"),
        (edges(other).iter().any(limit), "weight at its limit"),
        (furthest > 0, "other distance"),
        (furthest > 0 && rebate, "other distance, negative fee"),
        (furthest > 1_000_000, "distance moved by over 1000000"),
    ];
    // Equal fees change nothing.
    let changes = edges(request) != edges(other);
    count(seen, method, &kinds.map(|(is, kind)| (is && changes, kind)));
}

/// The furthest that a distance moved.
fn furthest(told: [&Told; 2]) -> i64 {
    let [before, after] = told.map(|told| told.rows.iter().flat_map(|row| &row.distances));
    let moves = before.zip(after).map(|(one, other)| (other - one).abs());
    moves.max().unwrap_or(0)
}

/// Fees of 10, 3 and -2.
#[test]
fn fees_by_hand() {
    let distances = |words: [&[u64]; 3]| solved(&words.concat()).1;
    // From 0 to 1 at 7 and from 1 to 2 at -4; with the fees at 14 and at 1.
    let before = [0x0001_0000_0000_0007, 0x0102_0000_FFFF_FFFC];
    let after = [0x0001_0000_0000_000E, 0x0102_0000_0000_0001];
    for (header, rest) in [
        ([0x1000_0300_0020_0000], &[][..]),
        ([0x3000_0300_0020_0000], &[]),
        ([0x5000_0300_0020_0000], &[2]),
    ] {
        let [old, new] = [before, after].map(|edges| distances([&header, &edges, rest]));
        assert_eq!(old, [Some(0), Some(7), Some(3)]);
        assert_eq!(new, [Some(0), Some(14), Some(15)]);
    }
    // Method 4 has them in its first row; from 1 no walk leads to 0.
    let all = [0x4000_0300_0020_0000];
    let [old, new] = [before, after].map(|edges| distances([&all, &edges, &[]]));
    assert_eq!(old[..3], [Some(0), Some(7), Some(3)]);
    assert_eq!(new[..3], [Some(0), Some(14), Some(15)]);
    assert_eq!(old[3..6], [None, Some(0), Some(-4)]);
    assert_eq!(new[3..6], [None, Some(0), Some(1)]);
    assert_eq!([&old[6..], &new[6..]], [[None, None, Some(0)]; 2]);
    // Moved to the wrong ends they make 0 and -9, and the distances fall.
    let turned = [0x0001_0000_0000_0000, 0x0102_0000_FFFF_FFF7];
    let fallen = distances([&[0x1000_0300_0020_0000], &turned, &[]]);
    assert_eq!(fallen, [Some(0), Some(0), Some(-9)]);
}

/// The same fees around a cycle: from 2 to 0 at -3 or -4, which become -15 and -16.
#[test]
fn cycle_fees_by_hand() {
    let [header, before, after] = [
        &[0x1000_0300_0030_0000][..],
        &[0x0001_0000_0000_0007, 0x0102_0000_FFFF_FFFC],
        &[0x0001_0000_0000_000E, 0x0102_0000_0000_0001],
    ];
    let with = |edges: &[u64], back: u64| [header, edges, &[back]].concat();
    let distances = |request: &[u64]| solved(request).1;
    let zero = [
        with(before, 0x0200_0000_FFFF_FFFD),
        with(after, 0x0200_0000_FFFF_FFF1),
    ];
    assert_eq!(distances(&zero[0]), [Some(0), Some(7), Some(3)]);
    assert_eq!(distances(&zero[1]), [Some(0), Some(14), Some(15)]);
    let negative = [
        with(before, 0x0200_0000_FFFF_FFFC),
        with(after, 0x0200_0000_FFFF_FFF0),
    ];
    assert_eq!(negative.map(|request| number(&request)), [(12, None); 2]);
}

/// Where a table has no edge the entry stays, and no weight may fall below 0.
#[test]
fn table_fees_by_hand() {
    let absent = 0xFFFF_FFFF;
    let distances = |first: u64, second: u64| {
        let rows = [
            [absent, first, absent],
            [absent, absent, second],
            [absent, absent, 5],
        ];
        solved(&[&[0x2000_0300_0000_0000], &rows.concat()[..]].concat()).1
    };
    assert_eq!(distances(7, 4), [Some(0), Some(7), Some(11)]);
    // Fees of 10, 3 and -2.
    assert_eq!(distances(14, 9), [Some(0), Some(14), Some(23)]);
    // Vertex 1 has a fee of 7, and the others none.
    assert_eq!(distances(0, 11), [Some(0), Some(0), Some(11)]);
    // With a fee of 8 the first weight would be -1, and there would be no edge.
    assert_eq!(distances(absent, 12), [Some(0), None, None]);
}
