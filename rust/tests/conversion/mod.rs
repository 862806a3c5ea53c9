//! Saved distances converted, beside the reference and beside new runs.

use crate::generator::{edge_word, Random, METHODS};
use crate::reference::plan::{pack, FAR};
use crate::reference::saved::{self, OLD_FAR, OLD_MOST};
use crate::reference::Outcome;
use crate::{ran, refused, SEED};

/// The greatest weight of old.
const OLD_WEIGHT: i64 = 1_000_000;

fn library_convert(saved: &mut [i64]) -> Outcome {
    match vukstaja::convert(saved) {
        Ok(()) => ran(0, [0; 5]),
        Err(refusal) => refused(refusal),
    }
}

/// Often at an end of the range, or the mark.
fn good_word(random: &mut Random) -> i64 {
    match random.below(6) {
        0 => OLD_FAR,
        1 => OLD_MOST - random.between(0, 1),
        2 => -OLD_MOST + random.between(0, 1),
        3 => random.between(-2, 2),
        _ => random.between(-OLD_MOST, OLD_MOST),
    }
}

/// Often just past an end, near either mark, or an end of all numbers.
fn bad_word(random: &mut Random) -> i64 {
    let near = random.between(1, 2);
    match random.below(12) {
        0 => OLD_MOST + near,
        1 => -OLD_MOST - near,
        2 => OLD_FAR + near,
        3 => OLD_FAR - near,
        4 => -OLD_FAR + near - 1,
        5 => FAR + near - 1,
        6 => FAR - near,
        7 => i64::MAX - near + 1,
        8 => i64::MIN + near - 1,
        // A good word in all but one of the upper bits.
        9 => good_word(random) ^ 1 << (39 + random.below(25)),
        10 => random.between(OLD_MOST + 1, OLD_FAR - 1),
        _ => random.word() as i64 | 1 << 40,
    }
}

/// Answer and words are the reference's, and words beside the buffer stay.
#[test]
fn drawn_buffers() {
    let mut random = Random::new(SEED + 21);
    let mut seen = [0; 4];
    let mut words = 0;
    for _ in 0..20_000 {
        let length = random.index(41);
        let mut lent: Vec<i64> = (0..length + 2).map(|_| good_word(&mut random)).collect();
        let bad = (random.index(7).saturating_sub(3)).min(length);
        for _ in 0..bad {
            lent[1 + random.index(length)] = bad_word(&mut random);
        }
        let before = lent.clone();
        let mut theirs = lent.clone();
        let outcome = library_convert(&mut lent[1..=length]);
        assert_eq!(outcome, saved::convert(&mut theirs[1..=length]));
        assert_eq!(lent, theirs, "{before:?}");
        assert_eq!(outcome.number == 0, bad == 0, "{before:?}");
        if bad > 0 {
            assert_eq!(lent, before);
        }
        seen[bad] += 1;
        words += length;
    }
    println!("20000 buffers, {words} words, by bad words put in: {seen:?}");
    assert!(seen.iter().all(|&count| count > 1000), "{seen:?}");
}

/// Every word by itself, for each at an edge and its neighbours.
#[test]
fn words_by_hand() {
    assert_eq!(vukstaja::OLD_UNREACHED, 274_877_906_944);
    assert_eq!(vukstaja::UNREACHED, 549_755_813_887);
    assert_eq!(vukstaja::convert(&mut []), Ok(()));
    for (word, converted) in [
        (0, Some(0)),
        (-1, Some(-100)),
        (31_000_000, Some(3_100_000_000)),
        (-31_000_000, Some(-3_100_000_000)),
        (274_877_906_944, Some(549_755_813_887)),
        (31_000_001, None),
        (-31_000_001, None),
        (274_877_906_943, None),
        (274_877_906_945, None),
        (549_755_813_887, None),
        (i64::MAX, None),
        (i64::MIN, None),
    ] {
        let mut saved = [7, word];
        let outcome = library_convert(&mut saved);
        let place = converted.is_none().then_some(1);
        assert_eq!(outcome.place, place, "{word}");
        let left = converted.map_or([7, word], |converted| [700, converted]);
        assert_eq!(saved, left);
    }
}

/// An edge of old: its tail, its head and its weight.
type Edge = (u64, u64, i64);

/// From 0 through all vertices, each step up, or each down, as far as it goes.
fn row(random: &mut Random, method: u64, n: u64) -> Vec<Edge> {
    let weight = match method != 2 && random.one_in(2) {
        true => -OLD_WEIGHT,
        false => OLD_WEIGHT,
    };
    (1..n).map(|v| (v - 1, v, weight)).collect()
}

/// Weights near the limit, any of them, or climbs, which have rebates and no
/// negative cycle.
fn any_edges(random: &mut Random, method: u64, n: u64) -> Vec<Edge> {
    let style = random.below(if method == 2 { 2 } else { 5 });
    let heights: Vec<i64> = (0..n).map(|_| random.between(0, OLD_WEIGHT)).collect();
    let edges = (0..random.below(2 * n + 1)).map(|_| {
        let (tail, head) = (random.below(n), random.below(n));
        let weight = match style {
            0 => OLD_WEIGHT - random.between(0, 1),
            1 => random.between(0, OLD_WEIGHT),
            2 => random.between(-OLD_WEIGHT, OLD_WEIGHT),
            _ => heights[head as usize] - heights[tail as usize],
        };
        (tail, head, weight)
    });
    edges.collect()
}

/// A network of old, for which a request has every weight a hundredfold.
struct Network {
    method: u64,
    n: u64,
    source: u64,
    /// In method 2 no two have the same ends, in method 3 they are sorted.
    edges: Vec<Edge>,
}

impl Network {
    /// Edges between any vertices, or now and then a row through all of them.
    fn draw(random: &mut Random, method: u64) -> Network {
        let n = match random.one_in(50) {
            true => 32,
            false => 1 + random.below(9),
        };
        let mut edges = match random.one_in(8) {
            true => row(random, method, n),
            false => any_edges(random, method, n),
        };
        random.shuffle(&mut edges);
        match method {
            2 => {
                edges.sort_by_key(|&(tail, head, _)| (tail, head));
                edges.dedup_by_key(|&mut (tail, head, _)| (tail, head));
            }
            3 => edges.sort_by_key(|&(_, head, _)| head),
            _ => (),
        }
        let source = match method {
            4 => 0,
            _ => random.below(n) * random.below(2),
        };
        Network {
            method,
            n,
            source,
            edges,
        }
    }

    /// The distances with the old mark, in method 4 from each vertex; `None` for
    /// a negative cycle.
    fn old_distances(&self) -> Option<Vec<i64>> {
        let sources = match self.method {
            4 => 0..self.n,
            _ => self.source..self.source + 1,
        };
        let rows: Option<Vec<_>> = sources.map(|source| self.old_row(source)).collect();
        rows.map(|rows| rows.concat())
    }

    /// Plain Bellman-Ford.
    fn old_row(&self, source: u64) -> Option<Vec<i64>> {
        let mut distances = vec![1 << 38; self.n as usize];
        distances[source as usize] = 0;
        for _ in 0..self.n {
            let before = distances.clone();
            for &(tail, head, weight) in &self.edges {
                let reached = distances[tail as usize];
                if reached != 1 << 38 && reached + weight < distances[head as usize] {
                    distances[head as usize] = reached + weight;
                }
            }
            if distances == before {
                return Some(distances);
            }
        }
        None
    }

    /// The request with every weight a hundredfold.
    fn request(&self) -> Vec<u64> {
        let Network { method, n, .. } = *self;
        let m = if method == 2 {
            0
        } else {
            self.edges.len() as u64
        };
        let mut request = vec![pack(method, n, m, self.source)];
        let words = self.edges.iter();
        if method != 2 {
            request.extend(words.map(|&(t, h, weight)| edge_word(t, h, 100 * weight)));
            request.extend((method == 5).then_some(n - 1));
            return request;
        }
        request.resize(1 + (n * n) as usize, u64::from(u32::MAX));
        for &(tail, head, weight) in words {
            request[1 + (tail * n + head) as usize] = 100 * weight as u64;
        }
        request
    }
}

/// The distances of old, converted, are those of a run with every weight a
/// hundredfold.
#[test]
fn hundredfold_networks() {
    let mut random = Random::new(SEED + 22);
    let (mut converted, mut unreached, mut furthest) = ([0; 6], 0, [0; 2]);
    let mut cycles = 0;
    for turn in 0..3_000 {
        let network = Network::draw(&mut random, METHODS[turn % METHODS.len()]);
        let solved = vukstaja::solve(&network.request());
        let Some(mut distances) = network.old_distances() else {
            let refusal = solved.expect_err("a negative cycle is refused");
            assert_eq!(refusal.number, 12);
            cycles += 1;
            continue;
        };
        unreached += usize::from(distances.contains(&OLD_FAR));
        vukstaja::convert(&mut distances).expect("the distances are converted");
        let reached = |distance: &i64| (*distance != FAR).then_some(*distance);
        let found = solved.expect("the request runs").distances;
        let expected: Vec<Option<i64>> = distances.iter().map(reached).collect();
        assert_eq!(found, expected, "{:x?}", network.request());
        for distance in found.into_iter().flatten() {
            furthest = [furthest[0].min(distance), furthest[1].max(distance)];
        }
        converted[network.method as usize] += 1;
    }
    println!(
        "{converted:?} networks by method, {unreached} with unreached vertices, \
         {cycles} more with a negative cycle, distances {furthest:?}"
    );
    assert!(METHODS
        .iter()
        .all(|&method| converted[method as usize] > 400));
    assert!(converted.iter().sum::<usize>() > 2_500 && unreached > 500);
    assert_eq!(furthest, [-3_100_000_000, 3_100_000_000]);
}
