//! Method 4's tables: by shape, beside method 1, by hand, and stage by stage.

mod stages;

use std::collections::BTreeMap;

use crate::generator::{edge_word, request, Random, MOST};
use crate::reference::plan::{pack, FAR};
use crate::shapes::tables;
use crate::{compared, number, solved, SEED};

#[test]
fn tables_of_every_shape() {
    let mut random = Random::new(SEED + 24);
    let mut seen = BTreeMap::from(tables::ALL.map(|shape| (shape, 0)));
    for _ in 0..20_000 {
        let (n, m) = (1 + random.below(8), random.below(16));
        let request = request(&mut random, 4, n, m);
        let (outcome, left) = compared(&mut random, &request);
        for shape in tables::of(&request, &outcome, &left) {
            *seen.get_mut(shape).expect("a known shape") += 1;
        }
    }
    println!("20000 tables, by shape: {seen:?}");
    assert!(seen.values().all(|&count| count > 1000), "{seen:?}");
}

/// Each row is what method 1 gives from that vertex, and there is a negative
/// cycle where any vertex reaches one.
#[test]
fn rows_beside_method_1() {
    let mut random = Random::new(SEED + 25);
    // Of the negative cycles those that some vertices reach, and those that all do.
    let (mut rows, mut cycles) = (0, [0; 2]);
    for _ in 0..2_000 {
        let (n, m) = (1 + random.below(6), random.below(13));
        let all = request(&mut random, 4, n, m);
        let (whole, table) = compared(&mut random, &all);
        let mut from_each = Vec::new();
        for source in 0..n {
            let mut single = all.clone();
            single[0] = pack(1, n, m, source);
            let (outcome, left) = compared(&mut random, &single);
            from_each.push(outcome.number);
            if whole.number == 0 {
                let at = (source * n) as usize;
                let row = &table.distances[at..][..n as usize];
                assert_eq!(row, &left.distances[..n as usize], "{all:x?}");
                rows += 1;
            }
        }
        assert_eq!(whole.number == 12, from_each.contains(&12), "{all:x?}");
        if whole.number == 12 {
            let by_all = from_each.iter().all(|&number| number == 12);
            cycles[usize::from(by_all)] += 1;
        }
    }
    println!("{rows} rows beside method 1, negative cycles reached by some and by all: {cycles:?}");
    assert!(rows > 1000 && cycles.iter().all(|&count| count > 100));
}

fn request_of(n: u64, edges: &[u64]) -> Vec<u64> {
    [&[pack(4, n, edges.len() as u64, 0)], edges].concat()
}

/// A ring of all vertices but 0, which it leads to and which does not lead to it.
#[test]
fn full_size_cycle_that_vertex_0_does_not_reach() {
    let mut random = Random::new(SEED + 29);
    for (last, answer) in [(-29, 0), (-30, 0), (-31, 12)] {
        let mut edges: Vec<u64> = (0..124)
            .map(|i| match 1 + i % 31 {
                31 => edge_word(31, 1, last),
                tail => edge_word(tail, tail + 1, 1),
            })
            .collect();
        edges.extend((1..5).map(|tail| edge_word(tail, 0, -MOST)));
        random.shuffle(&mut edges);
        let mut request = request_of(32, &edges);
        let (outcome, left) = compared(&mut random, &request);
        assert_eq!(outcome.number, answer);
        if answer == 0 {
            // Around the ring to vertex 31, and on from there to vertex 0.
            assert_eq!(left.distances[32 + 31], 30);
            assert_eq!(left.distances[31 * 32], last - MOST);
            assert_eq!(left.distances[1..32], [FAR; 31]);
        }
        request[0] = pack(1, 32, 128, 0);
        assert_eq!(compared(&mut random, &request).0.number, 0);
    }
}

/// Tables by hand, the verdict of the whole table, and what is refused.
#[test]
fn requests_of_method_4() {
    let rows = |n: u64, edges: &[u64]| {
        let (_, distances, parents) = solved(&request_of(n, edges));
        assert!(parents.is_empty());
        let rows = distances.chunks(n as usize).map(|row| row.to_vec());
        rows.collect::<Vec<_>>()
    };
    let falls = |n: u64, edges: &[u64]| number(&request_of(n, edges)) == (12, None);
    // From each vertex, the long way where that is cheaper.
    let chain = [edge_word(0, 2, 9), edge_word(0, 1, 2), edge_word(1, 2, -4)];
    assert_eq!(
        rows(3, &chain),
        [
            [Some(0), Some(2), Some(-2)],
            [None, Some(0), Some(-4)],
            [None, None, Some(0)]
        ]
    );
    // Of edges that join the same vertices the least counts, wherever it stands.
    let parallel = [5, -3, 4].map(|weight| edge_word(1, 0, weight));
    assert_eq!(rows(2, &parallel), [[Some(0), None], [Some(-3), Some(0)]]);
    // Going around a cycle of total 0 changes nothing, nor does staying.
    let around = [edge_word(1, 2, 3), edge_word(2, 1, -3), edge_word(2, 2, 0)];
    assert_eq!(
        rows(3, &around),
        [
            [Some(0), None, None],
            [None, Some(0), Some(3)],
            [None, Some(-3), Some(0)]
        ]
    );
    assert_eq!(rows(1, &[edge_word(0, 0, 7)]), [[Some(0)]]);
    // A negative cycle counts that vertex 0 does not reach, where method 1 runs.
    let away = [edge_word(1, 2, -1), edge_word(2, 1, 0)];
    assert!(falls(3, &away));
    assert!(vukstaja::solve(&[pack(1, 3, 2, 0), away[0], away[1]]).is_ok());
    assert!(falls(3, &[edge_word(2, 2, -1)]));
    assert!(falls(1, &[edge_word(0, 0, -1)]));
    // The source is 0, and the edges are those of method 1.
    assert_eq!(number(&[pack(4, 3, 0, 1)]), (4, None));
    assert_eq!(number(&[pack(4, 3, 0, 1 << 19)]), (4, None));
    assert_eq!(number(&[pack(4, 3, 129, 1)]), (3, None));
    assert_eq!(number(&[pack(4, 3, 1, 0)]), (5, None));
    assert_eq!(number(&[pack(4, 3, 0, 0), 0]), (5, None));
    let dear = [edge_word(0, 1, MOST), edge_word(0, 1, MOST + 1)];
    assert_eq!(number(&request_of(2, &dear)), (11, Some(1)));
    let empty = vukstaja::solve(&[pack(4, 1, 0, 0)]).expect("no edges run");
    assert_eq!((empty.report.rounds, empty.log.len()), (16, 40));
    let lone = vukstaja::solve(&request_of(1, &[edge_word(0, 0, 0)])).expect("an edge runs");
    assert_eq!((lone.report.rounds, lone.log.len()), (30, 49));
}

/// All words of a run, by hand: from cell 0 on the edge's tail, head and weight,
/// the table, the column, the row, the vertex's name, and the scratch at 7.
#[test]
fn log_by_hand() {
    let [set, copy, add, less, equal, both, move_if, open] =
        [0, 1, 2, 3, 4, 5, 6, 7].map(|op| move |d, a, b| pack(op, d, a, b));
    let far = |d| set(d, (1 << 19) - 1, (1 << 20) - 1);
    let update = [add(10, 4, 5), less(11, 10, 3), move_if(3, 11, 10)];
    let expected = [
        &[pack(4, 1, 1, 0), set(6, 0, 0), far(7), far(8)][..],
        &[add(8, 8, 8); 20],
        &[set(9, 0, 0), set(12, 0, 0), copy(3, 8, 0), copy(3, 9, 0)],
        &[copy(4, 8, 0), equal(11, 0, 6), move_if(4, 11, 9)],
        &[copy(5, 8, 0), equal(11, 1, 6), move_if(5, 11, 2)],
        &update,
        &[copy(4, 3, 0), copy(5, 3, 0)],
        &update,
        &[less(11, 3, 9), add(12, 12, 11), both(12, 12, 12)],
        &[less(11, 7, 3), move_if(3, 11, 7), open(0, 12, 0), 0],
    ]
    .concat();
    let routes = vukstaja::solve(&request_of(1, &[edge_word(0, 0, 9)]));
    assert_eq!(routes.expect("an edge runs").log, expected);
}
