//! What method 4 forms on the way: its tables after each stage, and how far its
//! sums and entries reach.

use super::request_of;
use crate::generator::{buffers, edge_word, request, Random, MOST};
use crate::reference::graph::Graph;
use crate::reference::plan::{Public, FAR};
use crate::sums::{band, Carrier, HIGH};
use crate::{compare, SEED};

/// A run's tables, and its least and its greatest sum.
struct Staged {
    /// After the edges, and after each stage.
    tables: Vec<Vec<i128>>,
    /// As the run left it, with marks.
    marked: Vec<i128>,
    least: i128,
    greatest: i128,
}

/// Runs a request and carries its log out stage by stage.
fn staged(random: &mut Random, request: &[u64]) -> Staged {
    let Public { n, m, .. } = Public::read(request[0]);
    let lent = buffers(random, request[0]);
    let (outcome, left) = compare(request, lent.clone());
    let log = &left.log[1..outcome.values[1] as usize];
    let [edge, stage] = [3 * n * n + 6 * n, 3 * n * n + 2 * n];
    // Constants, start and edges; the stages; cycles, marks and the verdict.
    let (first, log) = log.split_at((n + 24 + n * n + n + m * edge) as usize);
    let (stages, last) = log.split_at((n * stage) as usize);
    assert_eq!(last.len() as u64, 2 * n + 1 + 2 * n * n + 2);
    let mut carrier = Carrier::new(request, lent.cells);
    let mut table_after = |words: &[u64]| {
        carrier.carry_out(words);
        carrier.cells[(3 * m) as usize..][..(n * n) as usize].to_vec()
    };
    let mut tables = vec![table_after(first)];
    tables.extend(stages.chunks_exact(stage as usize).map(&mut table_after));
    let marked = table_after(last);
    Staged {
        tables,
        marked,
        least: carrier.least,
        greatest: carrier.greatest,
    }
}

/// Entries only fall, and each stage at most doubles how far they are from 0 or
/// from the mark.
fn judge_stages(tables: &[Vec<i128>]) {
    for (stage, table) in (0..).zip(tables) {
        let band = band(stage);
        let near = |entry: &i128| entry.abs() <= band || (HIGH - band..=HIGH).contains(entry);
        assert!(table.iter().all(near), "stage {stage}: {table:?}");
    }
    for pair in tables.windows(2) {
        assert!(pair[0].iter().zip(&pair[1]).all(|(old, new)| new <= old));
    }
}

/// How many entries the stages left of each kind.
#[derive(Debug, Default)]
struct Entries {
    walks: usize,
    /// Of pairs that no walk joins: still as they started, or lowered by rebates.
    untouched: usize,
    lowered: usize,
}

/// An entry is marked where no walk joins its pair, and stays where one does, with
/// a negative cycle or without.
fn judge_marks(request: &[u64], staged: &Staged, seen: &mut Entries) {
    let graph = Graph::read(request);
    let joined = (0..graph.vertices).flat_map(|vertex| graph.reached_from(vertex));
    let stages = staged.tables.len() as u64 - 1;
    let table = &staged.tables[stages as usize];
    for ((&entry, &marked), joined) in table.iter().zip(&staged.marked).zip(joined) {
        if joined {
            assert!(entry.abs() <= band(stages) && marked == entry);
            seen.walks += 1;
        } else {
            assert!(entry >= HIGH - band(stages) && marked == FAR.into());
            let lowered = entry < HIGH;
            seen.untouched += usize::from(!lowered);
            seen.lowered += usize::from(lowered);
        }
    }
}

fn judged(random: &mut Random, request: &[u64], seen: &mut Entries) -> Staged {
    let staged = staged(random, request);
    judge_stages(&staged.tables);
    judge_marks(request, &staged, seen);
    staged
}

#[test]
fn entries_of_every_stage() {
    let mut random = Random::new(SEED + 26);
    let mut seen = Entries::default();
    for turn in 0..2_000 {
        let (n, m) = match turn % 200 {
            0 => (32, 128),
            _ => (1 + random.below(9), random.below(20)),
        };
        let request = request(&mut random, 4, n, m);
        judged(&mut random, &request, &mut seen);
    }
    println!("2000 tables stage by stage: {seen:?}");
    let counts = [seen.walks, seen.untouched, seen.lowered];
    assert!(counts.iter().all(|&count| count > 10_000));
}

/// From vertex 0 to each of so many and back, and from it to itself, all at the
/// least weight: every stage doubles every entry between them.
fn hub(vertices: u64) -> Vec<u64> {
    let spokes = (1..vertices).flat_map(|v| [edge_word(v, 0, -MOST), edge_word(0, v, -MOST)]);
    [edge_word(0, 0, -MOST)].into_iter().chain(spokes).collect()
}

/// No run has lower sums or lower entries than a hub's.
#[test]
fn lowest_entries() {
    let mut random = Random::new(SEED + 27);
    let mut seen = Entries::default();
    for n in 1..=32 {
        let request = request_of(n, &hub(n));
        let staged = judged(&mut random, &request, &mut seen);
        for (stage, table) in (0..).zip(&staged.tables).skip(1) {
            assert!(table.iter().all(|&entry| entry == -band(stage)));
        }
        assert_eq!(staged.least, -band(n));
    }
    // At full size with other edges, which offer nothing less.
    let mut edges = hub(32);
    while edges.len() < 128 {
        let weight = random.between(-MOST, MOST);
        edges.push(edge_word(random.below(32), random.below(32), weight));
    }
    random.shuffle(&mut edges);
    let staged = judged(&mut random, &request_of(32, &edges), &mut seen);
    let reach = [staged.least, staged.greatest];
    println!("hubs of 1 to 32 vertices, sums {reach:?}");
    assert_eq!(reach, [-429_496_729_600_000_000, 1_152_921_504_604_749_824]);
    assert!(staged.marked.iter().all(|&entry| entry == staged.least));
}

/// A hub of all vertices but one, which has an edge to itself alone: no run has
/// lower entries without a walk, and they are still far over FAR.
#[test]
fn lowest_entries_without_a_walk() {
    let mut random = Random::new(SEED + 28);
    let mut seen = Entries::default();
    let edges = [hub(31), vec![edge_word(31, 31, -MOST)]].concat();
    let staged = judged(&mut random, &request_of(32, &edges), &mut seen);
    let counts = [seen.walks, seen.untouched, seen.lowered];
    assert_eq!(counts, [31 * 31 + 1, 0, 2 * 31]);
    let last = &staged.tables[32];
    assert_eq!(
        (last[31], last[31 * 32]),
        (361_712_387_402_374_912, 361_712_387_402_374_912)
    );
}
