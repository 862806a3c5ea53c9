//! Compares the library with an independent implementation of the rules.

mod across;
mod chains;
mod conversion;
mod generator;
mod limits;
mod reference;
mod shapes;
mod sums;
mod tables;

use std::collections::{BTreeMap, HashSet};
use std::thread;

use generator::{
    buffers, damage, edge_word, faults, foreign_plan, request, small_request, Random, METHODS,
};
use reference::graph::Graph;
use reference::plan::{head, lay, pack, Public, FAR};
use reference::{Buffers, Outcome};
use sums::Carrier;
use vukstaja::{Answer, Header, Method, Refusal, Routes};

const SEED: u64 = 0x5EED_0101_2026_0001;
const LESS: u64 = 3;
/// The last cell that a word can name.
const LAST_CELL: u64 = (1 << 20) - 1;

fn refused(refusal: Refusal) -> Outcome {
    Outcome {
        number: refusal.number,
        place: refusal.place,
        values: [0; 5],
    }
}

fn ran(number: u64, values: [u64; 5]) -> Outcome {
    Outcome {
        number,
        place: None,
        values,
    }
}

fn library_run(request: &[u64], lent: &mut Buffers) -> Outcome {
    let answer = vukstaja::run(
        request,
        &mut lent.cells,
        &mut lent.log,
        &mut lent.distances,
        &mut lent.parents,
        &mut lent.route,
    );
    match answer {
        Answer::Ran(r) => ran(0, [r.rounds, r.log_length, r.verdict, 0, 0]),
        Answer::NegativeCycle(r) => ran(12, [r.rounds, r.log_length, r.verdict, 0, 0]),
        Answer::Refused(refusal) => refused(refusal),
    }
}

/// Runs both on the same buffers and compares answer and buffers whole.
fn compare(request: &[u64], lent: Buffers) -> (Outcome, Buffers) {
    let mut ours = lent.clone();
    let mut theirs = lent.clone();
    let outcome = library_run(request, &mut ours);
    assert_eq!(
        outcome,
        reference::run(request, &mut theirs),
        "{request:x?}"
    );
    assert!(ours == theirs, "buffers differ: {request:x?}");
    if matches!(outcome.number, 0 | 12) {
        judge_rounds(&outcome, &ours.log, ours.cells.len());
        judge_sums(request, &outcome, lent.cells, &ours);
        judge(request, &outcome, &ours);
    }
    (outcome, ours)
}

/// The same on drawn buffers, with enough room.
fn compared(random: &mut Random, request: &[u64]) -> (Outcome, Buffers) {
    let lent = buffers(random, request[0]);
    compare(request, lent)
}

/// Judges the rounds by the log that was left alone, on that many cells.
fn judge_rounds(outcome: &Outcome, log: &[u64], cells: usize) {
    let [rounds, length, ..] = outcome.values;
    assert_eq!(rounds, chains::heaviest(&log[..length as usize], cells));
}

/// Judges the log by carrying it out without a limit to the numbers: it leaves
/// the cells that the run left, and no sum is near the ends of 64 bits.
fn judge_sums(request: &[u64], outcome: &Outcome, lent: Vec<i64>, left: &Buffers) {
    let length = outcome.values[1] as usize;
    let mut carrier = Carrier::new(request, lent);
    carrier.carry_out(&left.log[1..length]);
    let cells = left.cells.iter().copied().map(i128::from);
    assert!(cells.eq(carrier.cells), "{request:x?}");
    let [least, greatest] = sums::bounds(&Public::read(request[0]));
    assert!(least <= carrier.least, "{request:x?}");
    assert!(carrier.greatest <= greatest, "{request:x?}");
}

/// Judges verdict, distances, parents and route by the graph alone.
fn judge(request: &[u64], outcome: &Outcome, left: &Buffers) {
    let graph = Graph::read(request);
    if request[0] >> 60 == 4 {
        return judge_table(request, &graph, outcome, left);
    }
    let distances = graph.bellman_ford();
    assert_eq!(outcome.number == 12, distances.is_none(), "{request:x?}");
    assert_eq!(outcome.values[2], u64::from(distances.is_none()));
    if request[0] >> 60 == 3 {
        judge_passes(request, &graph, outcome, left);
    }
    if let Some(destination) = graph.destination {
        judge_route(request, &graph, destination, outcome, left);
    }
    let Some(distances) = distances else {
        return;
    };
    let dense = request[0] >> 60 == 2;
    if dense {
        assert_eq!(distances, graph.dijkstra(), "{request:x?}");
    }
    for (vertex, distance) in distances.iter().enumerate() {
        let found = left.distances[vertex];
        assert_eq!(found, distance.unwrap_or(FAR), "{request:x?}");
        let steps = walk_back(&graph, left, vertex, dense);
        assert_eq!(steps.is_some(), distance.is_some(), "{request:x?}");
    }
}

/// Judges method 4 row by row, each from its own vertex.
fn judge_table(request: &[u64], graph: &Graph, outcome: &Outcome, left: &Buffers) {
    let table = graph.table();
    assert_eq!(outcome.number == 12, table.is_none(), "{request:x?}");
    assert_eq!(outcome.values[2], u64::from(table.is_none()));
    let n = graph.vertices;
    for (row, found) in table.iter().flatten().zip(left.distances.chunks(n)) {
        let expected = row.iter().map(|distance| distance.unwrap_or(FAR));
        assert!(expected.eq(found.iter().copied()), "{request:x?}");
    }
}

/// Judges method 3 by its passes, which fix every parent. A negative cycle
/// leaves no results, but the same cells.
fn judge_passes(request: &[u64], graph: &Graph, outcome: &Outcome, left: &Buffers) {
    let passes = graph.passes();
    let first = Public::read(request[0]).distances() as usize;
    for vertex in 0..graph.vertices {
        let distance = passes.distances[vertex].unwrap_or(FAR);
        let parent = passes.parents[vertex].map_or(-1, |edge| edge as i64);
        let at = first + vertex;
        let found = (left.cells[at], left.cells[at + graph.vertices]);
        assert_eq!(found, (distance, parent), "{request:x?}");
        if outcome.number == 0 {
            let given = (left.distances[vertex], left.parents[vertex]);
            assert_eq!(given, found, "{request:x?}");
        }
    }
    assert_eq!(outcome.number == 12, passes.gains, "{request:x?}");
}

/// Judges method 5's route: the parents followed from the destination, and a
/// walk whose total is the distance. A negative cycle leaves no results, but
/// cells in which the parents are followed all the same.
fn judge_route(
    request: &[u64],
    graph: &Graph,
    destination: usize,
    outcome: &Outcome,
    left: &Buffers,
) {
    let (n, steps) = (graph.vertices, graph.vertices - 1);
    if outcome.number == 12 {
        let public = Public::read(request[0]);
        let parents = &left.cells[public.distances() as usize + n..][..n];
        let route = &left.cells[public.route() as usize..][..steps];
        assert_eq!(route, graph.followed(parents, destination), "{request:x?}");
        return;
    }
    let route = &left.route[..steps];
    let followed = graph.followed(&left.parents, destination);
    assert_eq!(route, followed, "{request:x?}");
    let end = route.iter().position(|&edge| edge == -1);
    let (shown, padding) = route.split_at(end.unwrap_or(steps));
    assert!(padding.iter().all(|&edge| edge == -1), "{request:x?}");
    match left.distances[destination] {
        FAR => assert!(shown.is_empty(), "{request:x?}"),
        total => {
            let walk = graph.walk(shown, destination);
            assert_eq!(walk, Some((graph.source, total)), "{request:x?}");
        }
    }
}

/// Follows the parents along tight edges to the source and counts the steps;
/// `None` for a vertex without parent that is not the source.
fn walk_back(graph: &Graph, left: &Buffers, vertex: usize, dense: bool) -> Option<usize> {
    let mut at = vertex;
    for steps in 0..graph.vertices {
        let parent = left.parents[at];
        if parent == -1 {
            return (at == graph.source).then_some(steps);
        }
        let number = match dense {
            true => parent as usize * graph.vertices + at,
            false => parent as usize,
        };
        let edge = graph.edges[number].expect("a parent's edge is there");
        assert_eq!(edge.head, at);
        let total = left.distances[edge.tail] + edge.weight;
        assert_eq!(total, left.distances[at], "the parent's edge is not tight");
        at = edge.tail;
    }
    panic!("the parents of vertex {vertex} run in a circle");
}

#[test]
fn small_requests() {
    let mut random = Random::new(SEED);
    let mut seen = [0; 17];
    for _ in 0..100_000 {
        let mut request = small_request(&mut random);
        let mut lent = buffers(&mut random, request[0]);
        for _ in 0..random.below(6).saturating_sub(2) {
            damage(&mut random, &mut request, &mut lent);
        }
        let (outcome, _) = compare(&request, lent);
        seen[outcome.number as usize] += 1;
    }
    println!("100000 requests, by number: {seen:?}");
    for number in (0..17).filter(|&number| number != 9) {
        assert!(seen[number] > 100, "number {number} is rare: {seen:?}");
    }
}

/// Of the first word that has faults the first one is told, whatever the word
/// after it and the destination are.
#[test]
fn words_with_every_combination_of_faults() {
    let mut random = Random::new(SEED + 9);
    let mut compared = 0;
    let mut seen = HashSet::new();
    let edges = [1, 3, 4, 5].map(|method| [1, 2, 31, 32].map(|n| (method, n)));
    let tables = [(2, 1), (2, 2), (2, 3)];
    for (method, n) in edges.concat().into_iter().chain(tables) {
        let mut valid = request(&mut random, method, n, 3);
        if method == 5 {
            valid.pop();
        }
        let combinations = faults::combinations(method);
        for at in 1..valid.len() {
            for chosen in &combinations {
                for later in &combinations {
                    let faulty = with_faults(&mut random, &valid, at, [chosen, later]);
                    if let Some(mut request) = faulty {
                        if method == 5 {
                            let bad = random.one_in(2);
                            request.push(faults::destination(&mut random, n, bad));
                        }
                        compare_faults(&mut random, &request, at, chosen);
                        compared += 1;
                        seen.insert((method, chosen.clone()));
                    }
                }
            }
        }
    }
    println!("{compared} requests with chosen faults");
    // In method 3 a head that is not there is not below another: 8 of 32 cannot be.
    assert_eq!(seen.len(), 16 + 4 + 24 + 16 + 16);
}

/// A request with these faults in the word at a place and in the next one,
/// unless the words before them allow no such faults.
fn with_faults(
    random: &mut Random,
    valid: &[u64],
    at: usize,
    faults: [&[u64]; 2],
) -> Option<Vec<u64>> {
    let public = Public::read(valid[0]);
    let mut request = valid.to_vec();
    for (at, faults) in (at..request.len()).zip(faults) {
        let floor = faults::floor(&public, &request, at);
        if !faults::possible(faults, floor) {
            return None;
        }
        request[at] = faults::word(random, &public, floor, faults);
    }
    Some(request)
}

fn compare_faults(random: &mut Random, request: &[u64], at: usize, chosen: &[u64]) {
    let lent = buffers(random, request[0]);
    let (outcome, _) = compare(request, lent);
    if let Some(&number) = chosen.first() {
        let place = Some(at as u64 - 1);
        assert_eq!((outcome.number, outcome.place), (number, place));
    }
}

#[test]
fn routes_of_every_shape() {
    let mut random = Random::new(SEED + 13);
    let mut seen = BTreeMap::from(shapes::ALL.map(|shape| (shape, 0)));
    for _ in 0..20_000 {
        let (n, m) = (1 + random.below(8), random.below(16));
        let request = request(&mut random, 5, n, m);
        let (outcome, left) = compared(&mut random, &request);
        for shape in shapes::of(&request, &outcome, &left) {
            *seen.get_mut(shape).expect("a known shape") += 1;
        }
    }
    println!("20000 routes, by shape: {seen:?}");
    assert!(seen.values().all(|&count| count > 1000), "{seen:?}");
}

/// Method 5 is method 1 with a route: the destination moves nothing else, and
/// the log does not tell it.
#[test]
fn routes_to_every_vertex() {
    let mut random = Random::new(SEED + 14);
    let mut routes = 0;
    for _ in 0..1000 {
        let (n, m) = (1 + random.below(6), random.below(13));
        let mut routed = request(&mut random, 5, n, m);
        let mut plain = routed.clone();
        plain.pop();
        plain[0] = pack(1, n, m, Public::read(routed[0]).source);
        let (outcome, left) = compared(&mut random, &plain);
        let mut logs = HashSet::new();
        for destination in 0..n {
            routed[1 + m as usize] = destination;
            let mut lent = buffers(&mut random, routed[0]);
            lent.distances = left.distances.clone();
            lent.parents = left.parents.clone();
            let (with_route, routed_left) = compare(&routed, lent);
            assert_eq!(with_route.number, outcome.number);
            assert_eq!(routed_left.distances, left.distances);
            assert_eq!(routed_left.parents, left.parents);
            let length = with_route.values[1] as usize;
            logs.insert(routed_left.log[..length].to_vec());
            routes += 1;
        }
        assert_eq!(logs.len(), 1);
    }
    println!("{routes} routes beside method 1");
}

/// Too short a route buffer is refused in method 5 alone, and in no method is
/// more of it written than the route.
#[test]
fn route_buffers_of_every_length() {
    let mut random = Random::new(SEED + 15);
    let mut compared = 0;
    for turn in 0..500 {
        let (method, n) = (METHODS[turn % METHODS.len()], 1 + random.below(6));
        let m = random.below(9);
        let request = request(&mut random, method, n, m);
        let places = Public::read(request[0]).route_length();
        for length in 0..n as usize + 3 {
            let mut lent = buffers(&mut random, request[0]);
            lent.route = random.cells(length);
            let before = lent.route.clone();
            let (outcome, left) = compare(&request, lent);
            assert_eq!(outcome.number == 8, length < places, "{request:x?}");
            let written = if outcome.number == 0 { places } else { 0 };
            assert_eq!(left.route[written..], before[written..]);
            compared += 1;
        }
    }
    println!("{compared} route buffers");
}

/// Distances and parents are refused where they are too short, and the parents'
/// buffer is not looked at in method 4. No more is written than there is.
#[test]
fn results_buffers_of_every_length() {
    let mut random = Random::new(SEED + 23);
    let mut compared = [0; 2];
    for turn in 0..100 {
        let (method, n) = (METHODS[turn % METHODS.len()], 1 + random.below(4));
        let m = random.below(9);
        let request = request(&mut random, method, n, m);
        let public = Public::read(request[0]);
        let places = [public.distances_length(), public.parents_length()];
        for (kind, needed) in places.into_iter().enumerate() {
            for length in 0..=needed.max(n as usize) + 2 {
                let mut lent = buffers(&mut random, request[0]);
                let fresh = random.cells(length);
                *results(&mut lent)[kind] = fresh.clone();
                let (outcome, mut left) = compare(&request, lent);
                assert_eq!(outcome.number == 8, length < needed, "{request:x?}");
                let written = if outcome.number == 0 { needed } else { 0 };
                assert_eq!(results(&mut left)[kind][written..], fresh[written..]);
                compared[kind] += 1;
            }
        }
    }
    println!("{compared:?} buffers of distances and of parents");
}

fn results(lent: &mut Buffers) -> [&mut Vec<i64>; 2] {
    [&mut lent.distances, &mut lent.parents]
}

/// A destination is looked at whole, after the buffers and all edges.
#[test]
fn refused_destinations() {
    let mut random = Random::new(SEED + 16);
    for n in [1, 2, 31, 32] {
        let valid = request(&mut random, 5, n, 2);
        let public = Public::read(valid[0]);
        for bad in [n, 255, 1 << 8, 1 << 32, 1 << 63, u64::MAX] {
            let destined = [&valid[..3], &[bad]].concat();
            let lent = buffers(&mut random, valid[0]);
            let (outcome, _) = compare(&destined, lent.clone());
            assert_eq!((outcome.number, outcome.place), (16, None));
            let short = Buffers {
                parents: vec![],
                ..lent.clone()
            };
            assert_eq!(compare(&destined, short).0.number, 8);
            for at in [1, 2] {
                for number in [10, 11, 13, 14] {
                    let mut faulty = destined.clone();
                    faulty[at] = faults::word(&mut random, &public, 0, &[number]);
                    compare_faults(&mut random, &faulty, at, &[number]);
                }
            }
        }
    }
}

#[test]
fn middle_requests() {
    let mut random = Random::new(SEED + 1);
    for _ in 0..200 {
        let (n, m) = (7 + random.below(8), random.below(40));
        let method = random.one_of(&METHODS);
        let request = request(&mut random, method, n, m);
        compared(&mut random, &request);
    }
}

#[test]
fn full_size_requests() {
    let mut random = Random::new(SEED + 2);
    for (method, runs, words, rounds) in [
        (1, 12, 1_060_837, 166_832),
        (2, 40, 44_227, 9_633),
        (3, 20, 437_222, 38_151),
        (4, 20, 521_372, 1_136),
        (5, 12, 1_072_197, 166_832),
    ] {
        for _ in 0..runs {
            let request = request(&mut random, method, 32, 128);
            let (outcome, _) = compared(&mut random, &request);
            assert_eq!(outcome.values[..2], [rounds, words]);
        }
    }
}

#[test]
fn full_size_negative_cycle_around_all_vertices() {
    let mut random = Random::new(SEED + 3);
    for method in [1, 3, 4, 5] {
        let mut request = vec![pack(method, 32, 128, 0)];
        // Against the order of the edges a pass of method 1 moves one step only.
        for i in 0..128 {
            let tail = 31 - i % 32;
            let weight = if tail == 31 { -31 } else { 1 };
            request.push(edge_word(tail, (tail + 1) % 32, weight));
        }
        match method {
            3 => request[1..].sort_by_key(|&word| head(word)),
            5 => request.push(31),
            _ => (),
        }
        let lent = buffers(&mut random, request[0]);
        let (outcome, left) = compare(&request, lent.clone());
        assert_eq!(outcome.number, 0);
        // Method 5's route leads through all vertices.
        let places = Public::read(request[0]).route_length();
        assert!(left.route[..places].iter().all(|&edge| edge >= 0));
        for word in request.iter_mut().skip(1).filter(|word| **word >> 56 == 31) {
            *word = edge_word(31, 0, -32);
        }
        assert_eq!(compare(&request, lent).0.number, 12);
    }
}

/// Solving finds the lengths by itself, for damaged headers too.
#[test]
fn solved_requests() {
    let mut random = Random::new(SEED + 7);
    let mut roomy = Buffers {
        cells: vec![0; 8_874],
        log: vec![0; 1_072_197],
        distances: vec![0; 1024],
        parents: vec![0; 32],
        route: vec![0; 31],
    };
    for _ in 0..10_000 {
        let mut request = small_request(&mut random);
        let mut unused = buffers(&mut random, request[0]);
        if random.one_in(2) {
            damage(&mut random, &mut request, &mut unused);
        }
        let expected = reference::run(&request, &mut roomy);
        match vukstaja::solve(&request) {
            Ok(routes) => compare_routes(&routes, &expected, &roomy),
            Err(refusal) => {
                let found = (refusal.number, refusal.place);
                assert_eq!(found, (expected.number, expected.place));
            }
        }
    }
}

fn compare_routes(routes: &Routes, expected: &Outcome, left: &Buffers) {
    let report = routes.report;
    let values = [report.rounds, report.log_length, report.verdict, 0, 0];
    assert_eq!(ran(0, values), *expected);
    assert_eq!(routes.log, left.log[..routes.log.len()]);
    assert_eq!(routes.log.len() as u64, report.log_length);
    let public = Public::read(routes.header.word());
    assert_eq!(routes.distances.len(), public.distances_length());
    for (place, distance) in routes.distances.iter().enumerate() {
        assert_eq!(distance.unwrap_or(FAR), left.distances[place]);
    }
    assert!(routes.rows().flatten().eq(&routes.distances));
    assert!(routes.rows().all(|row| row.len() as u64 == public.n));
    assert_eq!(routes.parents.len(), public.parents_length());
    for (vertex, parent) in routes.parents.iter().enumerate() {
        let parent = parent.map_or(-1, |parent| parent as i64);
        assert_eq!(parent, left.parents[vertex]);
    }
    let places = public.route_length();
    let shown: Vec<i64> = routes.route.iter().map(|&edge| edge as i64).collect();
    let (route, padding) = left.route[..places].split_at(shown.len());
    assert_eq!(shown, route);
    assert!(padding.iter().all(|&edge| edge == -1));
}

#[test]
fn refusals_have_sentences_of_their_own() {
    let place = None;
    let texts = (1..=16).map(|number| Refusal { number, place }.to_string());
    let sentences: HashSet<String> = texts
        .map(|text| text.split_once(": ").expect("a number first").1.to_string())
        .collect();
    assert_eq!(sentences.len(), 16);
    let placed = Refusal {
        number: 11,
        place: Some(0),
    };
    let text = "refused 11: a weight or a saved distance is outside its range (place 0)";
    assert_eq!(placed.to_string(), text);
}

/// Numbers too large for their fields stay too large.
#[test]
fn oversized_headers_are_refused() {
    let header = Header {
        method: Method::BellmanFord,
        vertices: u32::MAX,
        edges: u32::MAX,
        source: u32::MAX,
    };
    assert_eq!(number(&[header.word()]), (2, None));
}

fn compare_plan(plan: &[u64], cells: Vec<i64>, log: Vec<u64>) -> Outcome {
    let (mut our_cells, mut our_log) = (cells.clone(), log.clone());
    let (mut their_cells, mut their_log) = (cells, log);
    let outcome = match vukstaja::run_plan(plan, &mut our_cells, &mut our_log) {
        Ok(report) => ran(0, [report.rounds, report.log_length, 0, 0, 0]),
        Err(refusal) => refused(refusal),
    };
    let expected = reference::run_plan(plan, &mut their_cells, &mut their_log);
    assert_eq!(outcome, expected);
    assert!(our_cells == their_cells, "cells differ");
    assert!(our_log == their_log, "logs differ");
    if outcome.number == 0 {
        judge_rounds(&outcome, &our_log, our_cells.len());
    }
    outcome
}

#[test]
fn foreign_plans() {
    let mut random = Random::new(SEED + 4);
    let mut seen = [0; 13];
    for _ in 0..30_000 {
        let count = random.below(12);
        let length = random.index(40);
        let (ops, named) = (up_to(8), up_to(count.max(1)));
        let mut plan = foreign_plan(&mut random, length, &ops, &named);
        for _ in 0..random.below(4).saturating_sub(1) {
            generator::damage_plan(&mut random, &mut plan, count);
        }
        let cells = plan_cells(&mut random, count as usize);
        let needed = reference::log_length(&plan);
        let length = match random.below(4) {
            0 => random.index(needed + 1),
            1 => needed.saturating_sub(1),
            _ => needed + random.index(3),
        };
        let log = random.words(length);
        seen[compare_plan(&plan, cells, log).number as usize] += 1;
    }
    println!("30000 foreign plans, by number: {seen:?}");
    assert!(seen[0] > 1000 && seen[7] > 1000 && seen[9] > 1000);
}

fn up_to(count: u64) -> Vec<u64> {
    (0..count).collect()
}

/// Small numbers and the ends, so that comparisons go both ways.
fn plan_cells(random: &mut Random, count: usize) -> Vec<i64> {
    let mut cells = random.cells(count);
    for cell in &mut cells {
        match random.below(4) {
            0 => *cell = random.between(-1, 1),
            1 => *cell = i64::MAX,
            2 => *cell = i64::MIN,
            _ => (),
        }
    }
    cells
}

/// A request's own plan, run as a foreign one on the cells that its words are
/// laid into, leaves what the request's run leaves.
#[test]
fn plans_of_requests() {
    let mut random = Random::new(SEED + 30);
    for turn in 0..500 {
        let method = METHODS[turn % METHODS.len()];
        let (n, m) = match turn < METHODS.len() {
            true => (32, 128),
            false => (1 + random.below(8), random.below(16)),
        };
        let request = request(&mut random, method, n, m);
        let lent = buffers(&mut random, request[0]);
        let mut cells = lent.cells.clone();
        lay(&Public::read(request[0]), &request[1..], &mut cells);
        let (outcome, left) = compare(&request, lent);
        let mut log = vec![0; outcome.values[1] as usize];
        let plan = reference::plan_words(request[0]);
        let report = vukstaja::run_plan(&plan, &mut cells, &mut log).expect("the plan runs");
        assert_eq!([report.rounds, report.log_length], outcome.values[..2]);
        assert!(cells == left.cells, "cells differ: {request:x?}");
        assert!(log == left.log[..log.len()], "logs differ: {request:x?}");
    }
}

#[test]
fn empty_plan() {
    let outcome = compare_plan(&[], vec![5], vec![6]);
    assert_eq!(outcome, ran(0, [0; 5]));
    assert_eq!(compare_plan(&[], vec![], vec![]), ran(0, [0; 5]));
}

/// Every word leans on the one before it, so no run has more rounds than this.
#[test]
fn last_place_of_a_plan() {
    let places = 1 << 24;
    let mut plan = vec![pack(LESS, 0, 0, 0); places + 1];
    let outcome = compare_plan(&plan, vec![3], vec![0; 2]);
    assert_eq!((outcome.number, outcome.place), (9, Some(places as u64)));
    plan.pop();
    assert_eq!(compare_plan(&plan, vec![3], vec![0; 2]).number, 7);
    let outcome = compare_plan(&plan, vec![3], vec![0; places]);
    assert_eq!(outcome, ran(0, [100_663_290, places as u64, 0, 0, 0]));
}

/// Runs a plan of that many words on random cells, enough for those named; its
/// answer, cells and log are compared with the reference's, and its rounds with
/// the heaviest chain of the words in its log. It has some of the ops alone,
/// since a SET now and then would keep every chain short.
fn compare_foreign(random: &mut Random, length: usize, named: &[u64]) -> Outcome {
    let mut ops = up_to(8);
    ops.retain(|&op| op == LESS || random.one_in(2));
    let plan = foreign_plan(random, length, &ops, named);
    let highest = named.iter().max().expect("a cell is named");
    let count = *highest as usize + 1 + random.index(3);
    let cells = plan_cells(random, count);
    let log = random.words(reference::log_length(&plan));
    compare_plan(&plan, cells, log)
}

/// Plans of every length. Where they name few cells the words lean on each other
/// and chains are long, where they name many there are many chains.
#[test]
fn rounds_of_foreign_plans() {
    let mut random = Random::new(SEED + 10);
    let mut deepest = 0;
    for turn in 0..4_000 {
        let named = match turn % 40 {
            0 => vec![LAST_CELL],
            1 => {
                let mut some: Vec<u64> = (0..1000).map(|_| random.below(1 << 20)).collect();
                some.push(LAST_CELL);
                some
            }
            2..=5 => up_to(1 + random.below(3000)),
            _ => up_to(1 + random.below(8)),
        };
        let length = match turn / 40 % 4 {
            0 => random.index(4),
            1 => random.index(40),
            2 => random.index(400),
            _ => random.index(4000),
        };
        let outcome = compare_foreign(&mut random, length, &named);
        deepest = deepest.max(outcome.values[0]);
    }
    println!("4000 foreign plans, {deepest} rounds at the most");
    assert!(deepest > 10_000);
}

#[test]
fn rounds_of_a_million_words() {
    let mut random = Random::new(SEED + 11);
    for count in [1, 3, 1000, LAST_CELL + 1] {
        let outcome = compare_foreign(&mut random, 1_000_001, &up_to(count));
        println!(
            "a million words, {count} cells: {} rounds",
            outcome.values[0]
        );
    }
}

/// What each operation reads and writes, by rounds worked out by hand. What the
/// cells hold is nothing to them: neither whether a MOVEIF moves, nor an opened
/// cell whose published word could be an operation.
#[test]
fn rounds_by_hand() {
    let [set, copy, add, less, equal, both, move_if, open] =
        [0, 1, 2, 3, 4, 5, 6, 7].map(|op| move |d, a, b| pack(op, d, a, b));
    let plans = [
        (0, vec![]),
        (0, vec![copy(0, 0, 0), add(1, 0, 0)]),
        // What does not lean on each other is done in the same rounds.
        (6, vec![less(0, 1, 2), equal(3, 1, 2), set(1, 0, 5)]),
        // Either operand counts, and the written cell where it is one.
        (12, vec![less(0, 1, 2), equal(3, 0, 1)]),
        (12, vec![less(0, 1, 2), equal(3, 1, 0)]),
        (12, vec![less(0, 0, 0), less(0, 0, 0)]),
        (7, vec![less(0, 1, 2), both(3, 1, 0)]),
        (
            12,
            vec![less(0, 1, 2), add(3, 1, 0), copy(4, 3, 0), less(5, 4, 4)],
        ),
        // A written cell takes the new depth, even where it is a lesser one.
        (7, vec![less(0, 1, 2), set(0, 0, 0), less(3, 0, 0)]),
        (6, vec![less(0, 1, 2), copy(0, 1, 0), equal(3, 0, 0)]),
        // The fields of SET are no addresses.
        (7, vec![less(1, 2, 2), set(0, 1, 1), less(3, 0, 0)]),
        // MOVEIF reads what it writes to, and the depth moves in any case.
        (7, vec![less(0, 1, 2), move_if(0, 1, 2)]),
        (7, vec![less(0, 1, 2), move_if(3, 0, 2)]),
        (13, vec![less(0, 1, 2), move_if(3, 4, 0), less(5, 3, 3)]),
        // OPEN reads and does not write, not even cell 0.
        (7, vec![less(1, 2, 2), open(0, 1, 0)]),
        (7, vec![less(1, 2, 2), open(0, 1, 0), less(3, 0, 0)]),
        (6, vec![open(0, 0, 0), open(0, 0, 0), less(0, 1, 1)]),
    ];
    for (rounds, words) in plans {
        let plan = [&[0], &words[..]].concat();
        for cell in [0, less(0, 0, 0) as i64] {
            let log = vec![0; reference::log_length(&plan)];
            let outcome = compare_plan(&plan, vec![cell; 6], log);
            assert_eq!(outcome.values[0], rounds, "{plan:x?}");
        }
    }
}

/// A plan runs on the stack that a thread has by default, and on a small one,
/// whichever cells it names and however many words it has.
#[test]
fn plans_on_small_stacks() {
    for stack in [2 << 20, 256 << 10] {
        let thread = thread::Builder::new().stack_size(stack).spawn(|| {
            let mut random = Random::new(SEED + 12);
            compare_foreign(&mut random, 100, &[0, LAST_CELL]);
            compare_foreign(&mut random, 1_000_001, &[0, 1, 2]);
        });
        let ended = thread.expect("a thread starts").join();
        ended.expect("the plans run");
    }
}

fn compare_written(header: &[u64], lent: Vec<u64>) -> Outcome {
    let (mut ours, mut theirs) = (lent.clone(), lent);
    let outcome = match vukstaja::write_plan(header, &mut ours) {
        Ok(length) => ran(0, [length, 0, 0, 0, 0]),
        Err(refusal) => refused(refusal),
    };
    assert_eq!(outcome, reference::write_plan(header, &mut theirs));
    assert!(ours == theirs, "plans differ: {header:x?}");
    outcome
}

#[test]
fn written_plans() {
    let mut random = Random::new(SEED + 5);
    let mut seen = [0; 13];
    for _ in 0..10_000 {
        let mut request = small_request(&mut random);
        let mut lent = buffers(&mut random, request[0]);
        for _ in 0..random.below(3) {
            damage(&mut random, &mut request, &mut lent);
        }
        let outcome = compare_written(&request, lent.log);
        seen[outcome.number as usize] += 1;
    }
    println!("10000 plans written, by number: {seen:?}");
    for number in [0, 1, 2, 3, 4, 7] {
        assert!(seen[number] > 100, "number {number} is rare: {seen:?}");
    }
}

/// The length of a plan that the rules state for a header.
fn stated_length(method: Method, n: u64, m: u64) -> u64 {
    match method {
        Method::BellmanFord => 3 * n + 4 + m * (8 * n * n + 3 * n - 1),
        Method::Dijkstra => n * n * n + 11 * n * n + 6 * n + 3,
        Method::SortedBellmanFord => 3 * n * n + 3 * n + 5 + m * (3 * n * n + 10 * n - 1),
        Method::FloydWarshall => 3 * n * n * n + 5 * n * n + 4 * n + 27 + m * (3 * n * n + 6 * n),
        Method::BellmanFordRoute => m * (8 * n * n + 5 * n) + 3 * n * n + 2 * n + 4,
    }
}

/// The rounds that the rules state for a header.
fn stated_rounds(method: Method, n: u64, m: u64) -> u64 {
    match method {
        Method::BellmanFord if m == 0 => 2,
        Method::BellmanFord => m * (n * n + 9 * n - 9) + n + 16,
        Method::Dijkstra => 9 * n * n + 13 * n + 1,
        Method::SortedBellmanFord if m == 0 => 8 * n + 1,
        Method::SortedBellmanFord => 9 * n * m + n * n + 8 * n + 7,
        Method::FloydWarshall if m == 0 => 7 * n + 9,
        Method::FloydWarshall => 7 * n + 7 * m + 16,
        Method::BellmanFordRoute if m == 0 => (n * n + 5 * n - 5).max(2),
        Method::BellmanFordRoute => {
            let [verdict, route] = [m * n + n + 16, m + n * n + 5 * n + 1];
            m * (n - 1) * (n + 9) + verdict.max(route)
        }
    }
}

/// Every number of vertices and every number of edges occurs here.
#[test]
fn written_plans_have_the_stated_lengths_and_rounds() {
    let edges = [
        Method::BellmanFord,
        Method::SortedBellmanFord,
        Method::FloydWarshall,
        Method::BellmanFordRoute,
    ];
    let pairs = (0..=128).flat_map(|m| edges.map(|method| (method, 1 + m % 32, m)));
    let tables = (1..=32).map(|n| (Method::Dijkstra, n, 0));
    for (method, n, m) in pairs.chain(tables) {
        let source = match method {
            Method::FloydWarshall => 0,
            _ => n - 1,
        };
        let header = Header {
            method,
            vertices: n,
            edges: m,
            source,
        };
        let word = header.word();
        assert_eq!(Header::from_word(word), Some(header));
        let plan = reference::plan_words(word);
        let length = stated_length(method, n.into(), m.into());
        assert_eq!(plan.len() as u64, length);
        let rounds = reference::depth::rounds(&plan[1..], Public::read(word).cells());
        assert_eq!(rounds, stated_rounds(method, n.into(), m.into()));
        assert_eq!(compare_sizes(&[word]).number, 0);
        let outcome = compare_written(&[word], vec![7; plan.len() + 2]);
        assert_eq!(outcome.values[0], length);
        assert_eq!(compare_written(&[word], vec![7; plan.len() - 1]).number, 7);
    }
}

fn compare_sizes(header: &[u64]) -> Outcome {
    let outcome = match vukstaja::sizes(header) {
        Ok(sizes) => {
            let lengths = [
                sizes.cells,
                sizes.log,
                sizes.distances,
                sizes.parents,
                sizes.route,
            ];
            ran(0, lengths.map(|length| length as u64))
        }
        Err(refusal) => refused(refusal),
    };
    assert_eq!(outcome, reference::sizes(header), "{header:x?}");
    outcome
}

#[test]
fn sizes_of_headers() {
    let mut random = Random::new(SEED + 8);
    let mut seen = [0; 5];
    for _ in 0..20_000 {
        let mut request = small_request(&mut random);
        let mut unused = buffers(&mut random, request[0]);
        for _ in 0..random.below(4) {
            damage(&mut random, &mut request, &mut unused);
        }
        seen[compare_sizes(&request).number as usize] += 1;
    }
    println!("20000 headers' sizes, by number: {seen:?}");
    assert!(seen.iter().all(|&count| count > 100), "{seen:?}");
    let most = [
        (1, 128, 31, [488, 1_060_837, 32, 32, 0]),
        (2, 0, 31, [1190, 44_227, 32, 32, 0]),
        (3, 128, 31, [8_874, 437_222, 32, 32, 0]),
        (4, 128, 0, [1_510, 521_372, 1_024, 0, 0]),
        (5, 128, 31, [552, 1_072_197, 32, 32, 31]),
    ];
    for (method, m, source, sizes) in most {
        let header = pack(method, 32, m, source);
        assert_eq!(compare_sizes(&[header]), ran(0, sizes));
    }
}

/// The log tells the public part and the verdict, and nothing else.
#[test]
fn logs_of_pairs() {
    let mut random = Random::new(SEED + 6);
    let mut differing = BTreeMap::from(METHODS.map(|method| (method, 0)));
    for _ in 0..4_000 {
        let first = small_request(&mut random);
        let (method, n, m) = (first[0] >> 60, first[0] >> 40 & 0xFF, first[0] >> 20 & 0xFF);
        let mut second = request(&mut random, method, n, m);
        second[0] = first[0];
        let [(one, left), (two, right)] = [&first, &second].map(|request| {
            let lent = buffers(&mut random, request[0]);
            compare(request, lent)
        });
        let length = one.values[1] as usize;
        let equal = left.log[..length] == right.log[..length];
        assert_eq!(one.values[..2], two.values[..2]);
        assert_eq!(equal, one.values[2] == two.values[2]);
        *differing.get_mut(&method).expect("a known method") += usize::from(!equal);
    }
    println!("4000 pairs, by method those with different verdicts: {differing:?}");
    // Method 2 has no verdict.
    assert_eq!(differing.remove(&2), Some(0));
    assert!(
        differing.values().all(|&count| count > 100),
        "{differing:?}"
    );
}

fn solved(request: &[u64]) -> (u64, Vec<Option<i64>>, Vec<Option<usize>>) {
    let routes = vukstaja::solve(request).expect("the request runs");
    (routes.report.rounds, routes.distances, routes.parents)
}

fn number(request: &[u64]) -> (u64, Option<u64>) {
    let refusal = vukstaja::solve(request).expect_err("the request is refused");
    (refusal.number, refusal.place)
}

#[test]
fn requests_at_the_edges() {
    let lone = pack(1, 1, 1, 0);
    let absent = u64::from(u32::MAX);
    let first = vukstaja::solve(&[0x1000_0100_0000_0000]).expect("row 1 runs");
    let row_1 = [
        0x1000010000000000,
        0x0000020000000000,
        0x0000000000000000,
        0x000001FFFFFFFFFF,
        0x0000037FFFFFFFFF,
        0x00000A0000000000,
        0x7000000000A00000,
        0,
    ];
    assert_eq!((first.report.rounds, &first.log[..]), (2, &row_1[..]));
    let printed = [0x1000_0200_0010_0000, 0x0001_0000_FFFF_FFFB];
    assert_eq!(
        solved(&printed),
        (31, vec![Some(0), Some(-5)], vec![None, Some(0)])
    );
    let alone = (18, vec![Some(0)], vec![None]);
    assert_eq!(number(&[lone, edge_word(0, 0, -1)]), (12, None));
    assert_eq!(solved(&[lone, edge_word(0, 0, 0)]), alone);
    let twins = [pack(1, 2, 2, 0), edge_word(0, 1, 4), edge_word(0, 1, 4)];
    assert_eq!(
        solved(&twins),
        (44, vec![Some(0), Some(4)], vec![None, Some(0)])
    );
    let apart = [pack(1, 3, 2, 0), edge_word(1, 2, -1), edge_word(2, 1, -1)];
    assert_eq!(
        solved(&apart),
        (73, vec![Some(0), None, None], vec![None, None, None])
    );
    let empty = [pack(2, 2, 0, 0), absent, absent, absent, absent];
    assert_eq!(solved(&empty), (63, vec![Some(0), None], vec![None, None]));
    let single = vukstaja::solve(&[pack(2, 1, 0, 0), absent]).expect("row 7 runs");
    assert_eq!((single.report.rounds, single.log.len()), (23, 21));
    assert_eq!(solved(&[lone, edge_word(0, 0, 100_000_000)]), alone);
    assert_eq!(number(&[lone, edge_word(0, 0, 100_000_001)]), (11, Some(0)));
    assert_eq!(number(&[pack(1, 33, 0, 0)]), (2, None));
    assert_eq!(number(&[pack(1, 1, 129, 0)]), (3, None));
    assert_eq!(number(&[]), (1, None));
    for method in [0, 6, 7, 15] {
        let header = pack(method, 1, 0, 0);
        assert_eq!(number(&[header]), (1, None));
        assert_eq!(Header::from_word(header), None);
    }
}

/// Ties, what each pass reads, and the order of the edges.
#[test]
fn requests_of_method_3() {
    let solved_edges = |n: u64, edges: &[u64]| {
        let header = pack(3, n, edges.len() as u64, 0);
        let (_, distances, parents) = solved(&[&[header], edges].concat());
        (distances, parents)
    };
    // Equal offers, and the lowest of their edges is not the first edge.
    let tied = [5, 4, 4].map(|weight| edge_word(0, 1, weight));
    assert_eq!(
        solved_edges(2, &tied),
        (vec![Some(0), Some(4)], vec![None, Some(1)])
    );
    // Edge 2 offers what edge 1 offers, but a pass earlier; in method 1 it does not.
    let ahead = [edge_word(0, 1, 1), edge_word(1, 2, 1), edge_word(0, 2, 2)];
    let reached = vec![Some(0), Some(1), Some(2)];
    assert_eq!(
        solved_edges(3, &ahead),
        (reached.clone(), vec![None, Some(0), Some(2)])
    );
    let in_order = solved(&[&[pack(1, 3, 3, 0)], &ahead[..]].concat());
    assert_eq!(in_order.1, reached);
    assert_eq!(in_order.2, vec![None, Some(0), Some(1)]);
    // Rebates from unreached vertices are no offers.
    let apart = [edge_word(2, 1, -1), edge_word(1, 2, -1)];
    assert_eq!(solved_edges(3, &apart).0, [Some(0), None, None]);
    let empty = vukstaja::solve(&[pack(3, 1, 0, 0)]).expect("no edges run");
    assert_eq!((empty.report.rounds, empty.log.len()), (9, 12));
    let lone = pack(3, 1, 1, 0);
    assert_eq!(number(&[lone, edge_word(0, 0, -1)]), (12, None));
    assert_eq!(number(&[lone, edge_word(0, 0, 100_000_001)]), (11, Some(0)));
    // An edge is compared with the one before it, after its weight.
    let unsorted = |heads: [u64; 3], weight: i64| {
        let words = heads.map(|head| edge_word(0, head, weight));
        number(&[&[pack(3, 3, 3, 0)], &words[..]].concat())
    };
    assert_eq!(unsorted([1, 0, 0], 5), (15, Some(1)));
    assert_eq!(unsorted([0, 2, 1], 5), (15, Some(2)));
    assert_eq!(unsorted([0, 2, 1], 100_000_001), (11, Some(0)));
    let dear = [edge_word(0, 1, 5), edge_word(0, 0, -100_000_001)];
    assert_eq!(
        number(&[&[pack(3, 2, 2, 0)], &dear[..]].concat()),
        (11, Some(1))
    );
}

/// Routes by hand, the last edge first, and the destination's place in the order.
#[test]
fn requests_of_method_5() {
    let route = |n: u64, edges: &[u64], rest: &[u64]| {
        let header = pack(5, n, edges.len() as u64, 0);
        let routes = vukstaja::solve(&[&[header], edges, rest].concat());
        let route = routes.map(|routes| routes.route);
        route.map_err(|refusal| (refusal.number, refusal.place))
    };
    let chain = [edge_word(2, 3, 1), edge_word(0, 1, 2), edge_word(1, 2, -4)];
    assert_eq!(route(4, &chain, &[3]), Ok(vec![0, 2, 1]));
    assert_eq!(route(4, &chain, &[2]), Ok(vec![2, 1]));
    assert_eq!(route(4, &chain, &[1]), Ok(vec![1]));
    // The source, and a vertex that no walk reaches, have no edges to show.
    assert_eq!(route(4, &chain, &[0]), Ok(vec![]));
    assert_eq!(route(5, &chain, &[4]), Ok(vec![]));
    // Of equal totals the one that was there first stays.
    let tied = [edge_word(0, 2, 3), edge_word(0, 1, 1), edge_word(1, 2, 2)];
    assert_eq!(route(3, &tied, &[2]), Ok(vec![0]));
    // A cycle of total 0 is not gone around, not even the source's own.
    let around = [edge_word(2, 1, 3), edge_word(1, 2, -3), edge_word(0, 1, 7)];
    assert_eq!(route(3, &around, &[2]), Ok(vec![1, 2]));
    assert_eq!(route(3, &around, &[1]), Ok(vec![2]));
    let home = [edge_word(0, 1, 5), edge_word(1, 0, -5), edge_word(0, 0, 0)];
    assert_eq!(route(2, &home, &[0]), Ok(vec![]));
    assert_eq!(route(2, &home, &[1]), Ok(vec![0]));
    let falling = [edge_word(0, 1, 5), edge_word(1, 0, -6)];
    assert_eq!(route(2, &falling, &[1]), Err((12, None)));
    // The destination is one word, refused after all edges and without place.
    assert_eq!(route(4, &chain, &[]), Err((5, None)));
    assert_eq!(route(4, &chain, &[3, 0]), Err((5, None)));
    assert_eq!(route(4, &chain, &[4]), Err((16, None)));
    assert_eq!(route(4, &chain, &[1 << 63]), Err((16, None)));
    let dear = [edge_word(0, 1, 5), edge_word(0, 1, 100_000_001)];
    assert_eq!(route(4, &dear, &[4]), Err((11, Some(1))));
    let empty = vukstaja::solve(&[pack(5, 1, 0, 0), 0]).expect("no edges run");
    assert_eq!((empty.report.rounds, empty.log.len()), (2, 10));
    let apart = vukstaja::solve(&[pack(5, 3, 0, 1), 2]).expect("no edges run");
    assert_eq!((apart.report.rounds, apart.log.len()), (19, 38));
}

#[test]
fn words_at_the_edges() {
    let mut cells = [i64::MAX, 1];
    let mut log = [0; 2];
    vukstaja::run_plan(&[0, pack(2, 0, 0, 1)], &mut cells, &mut log).expect("ADD runs");
    assert_eq!(cells, [i64::MIN, 1]);
    vukstaja::run_plan(&[0, pack(0, 1, 524_288, 0)], &mut cells, &mut log).expect("SET runs");
    assert_eq!(cells, [i64::MIN, -549_755_813_888]);
}
