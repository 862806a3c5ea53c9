//! The library beside plain Rust that does the same work. All contenders take
//! turns in one process; the best turn of each counts, in nanoseconds of CPU
//! time a word, once what they left is found to be the same.

mod clock;
mod expert;
mod foreign;
#[allow(dead_code)] // The tests use what is left over here.
#[path = "../tests/reference/mod.rs"]
mod reference;

use std::hint::black_box;

use reference::plan::{emit, head, lay, pack, Machine, Public};
use vukstaja::Answer;

/// Each contender writes about so many words for each size, in all its turns,
const WORDS: usize = 40_000_000;
/// and at least so many in a turn, so that reading the clock costs next to nothing.
const WORDS_PER_TURN: usize = 50_000;
const SIZES: [(u64, u64, u64); 20] = [
    (1, 4, 16),
    (1, 8, 32),
    (1, 16, 64),
    (1, 32, 128),
    (2, 4, 0),
    (2, 8, 0),
    (2, 16, 0),
    (2, 32, 0),
    (3, 4, 16),
    (3, 8, 32),
    (3, 16, 64),
    (3, 32, 128),
    (4, 4, 16),
    (4, 8, 32),
    (4, 16, 64),
    (4, 32, 128),
    (5, 4, 16),
    (5, 8, 32),
    (5, 16, 64),
    (5, 32, 128),
];

/// The baselines of a run test nothing of the request, and copy no results. The
/// rounds follow from the header, so they work out no depths.
const RUN: Table = Table {
    title: "run: nanoseconds a word of the log",
    length: Task::log_length,
    contenders: &[
        ("library", library_run),
        ("plan+interpret", plan_then_interpret),
        ("nested loops", nested_loops),
    ],
};
const WRITE_PLAN: Table = Table {
    title: "write_plan: nanoseconds a word of the plan",
    length: Task::plan_length,
    contenders: &[
        ("library", library_write_plan),
        ("plain Rust", plain_write_plan),
    ],
};
/// Both test every word of the plan before the first is carried out.
const RUN_PLAN: Table = Table {
    title: "run_plan, on the method's own plan: nanoseconds a word of the log",
    length: Task::log_length,
    contenders: &[
        ("library", library_run_plan),
        ("plain Rust", plain_run_plan),
    ],
};

/// Does its work in the bank, and tells the rounds or a plan's length.
type Work = fn(&Task, &mut Bank) -> u64;

struct Table {
    title: &'static str,
    /// The number of words that each contender writes.
    length: fn(&Task) -> usize,
    /// The library first.
    contenders: &'static [(&'static str, Work)],
}

fn main() {
    for table in [RUN, WRITE_PLAN, RUN_PLAN] {
        table.print();
    }
}

impl Table {
    fn print(&self) {
        let headings = self.headings();
        println!("\n{}", self.title);
        println!("method  n    m    words  {}", headings.join("  "));
        for (method, n, m) in SIZES {
            let task = Task::new(method, n, m);
            let times = self.race(&task);
            let ratios = times[1..].iter().map(|time| times[0] / time);
            print!("{method:6} {n:2} {m:4} {:8}", (self.length)(&task));
            for (heading, figure) in headings.iter().zip(times.iter().copied().chain(ratios)) {
                print!("  {figure:width$.2}", width = heading.len());
            }
            println!();
        }
    }

    /// A time for each contender, then a ratio for each but the library.
    fn headings(&self) -> Vec<String> {
        let names = self.contenders.iter().map(|(name, _)| name.to_string());
        let others = self.contenders[1..].iter();
        names
            .chain(others.map(|(name, _)| format!("library / {name}")))
            .collect()
    }

    /// The best nanoseconds a word of each contender.
    fn race(&self, task: &Task) -> Vec<f64> {
        let length = (self.length)(task);
        let runs = WORDS_PER_TURN.div_ceil(length);
        let words_per_turn = runs * length;
        let works = self.contenders.iter().map(|&(_, work)| work);
        let mut racers: Vec<Racer> = works.map(|work| Racer::new(work, task, length)).collect();
        for _ in 0..WORDS / words_per_turn {
            for racer in &mut racers {
                racer.take_turn(task, runs);
            }
        }
        for racer in &racers[1..] {
            racer.must_equal(&racers[0]);
        }
        racers
            .iter()
            .map(|racer| racer.best as f64 / words_per_turn as f64)
            .collect()
    }
}

/// What the contenders of a table are given.
struct Task {
    request: Vec<u64>,
    plan: Vec<u64>,
}

impl Task {
    /// A ring with shortcuts, so that distances move in many passes; method 5's
    /// destination is the last vertex.
    fn new(method: u64, n: u64, m: u64) -> Task {
        let header = pack(method, n, m, 0);
        let mut request = vec![header];
        if method == 2 {
            request.extend((0..n * n).map(|at| 1 + at * 37 % 1009));
        } else {
            request.extend((0..m).map(|i| {
                let tail = n - 1 - i % n;
                let head = (tail + 1 + i / n) % n;
                tail << 56 | head << 48 | (1 + i * 37 % 100)
            }));
        }
        match method {
            3 => request[1..].sort_by_key(|&edge| head(edge)),
            5 => request.push(n - 1),
            _ => (),
        }
        let plan = reference::plan_words(header);
        Task { request, plan }
    }

    fn plan_length(&self) -> usize {
        self.plan.len()
    }

    fn log_length(&self) -> usize {
        reference::log_length(&self.plan)
    }
}

/// The buffers of a contender, made beforehand so that only its work is timed.
struct Bank {
    cells: Vec<i64>,
    /// The log, or else the plan that is written.
    words: Vec<u64>,
    /// Filled by those alone that write a plan before they run it.
    plan: Vec<u64>,
    distances: Vec<i64>,
    parents: Vec<i64>,
    route: Vec<i64>,
}

/// A contender and how it did so far.
struct Racer {
    work: Work,
    bank: Bank,
    answer: u64,
    /// The nanoseconds of its best turn.
    best: u64,
}

impl Racer {
    fn new(work: Work, task: &Task, length: usize) -> Racer {
        let public = Public::read(task.request[0]);
        let mut cells = vec![0; public.cells()];
        lay(&public, &task.request[1..], &mut cells);
        let bank = Bank {
            cells,
            words: vec![0; length],
            plan: Vec::with_capacity(task.plan.len()),
            distances: vec![0; public.distances_length()],
            parents: vec![0; public.parents_length()],
            route: vec![0; public.route_length()],
        };
        Racer {
            work,
            bank,
            answer: 0,
            best: u64::MAX,
        }
    }

    fn take_turn(&mut self, task: &Task, runs: usize) {
        let start = clock::nanoseconds();
        for _ in 0..runs {
            self.answer = (self.work)(black_box(task), black_box(&mut self.bank));
        }
        self.best = self.best.min(clock::nanoseconds() - start);
    }

    fn must_equal(&self, library: &Racer) {
        assert!(self.bank.cells == library.bank.cells, "the cells differ");
        assert!(self.bank.words == library.bank.words, "the words differ");
        assert_eq!(self.answer, library.answer);
    }
}

fn library_run(task: &Task, bank: &mut Bank) -> u64 {
    let answer = vukstaja::run(
        &task.request,
        &mut bank.cells,
        &mut bank.words,
        &mut bank.distances,
        &mut bank.parents,
        &mut bank.route,
    );
    match answer {
        Answer::Ran(report) => report.rounds,
        other => panic!("the request did not run: {other:?}"),
    }
}

fn plan_then_interpret(task: &Task, bank: &mut Bank) -> u64 {
    let header = task.request[0];
    let public = Public::read(header);
    lay(&public, &task.request[1..], &mut bank.cells);
    bank.plan.clear();
    emit(&public, &mut bank.plan);
    Machine::new(header, &mut bank.cells, &mut bank.words).interpret(&bank.plan);
    expert::rounds(&public)
}

fn nested_loops(task: &Task, bank: &mut Bank) -> u64 {
    expert::run(&task.request, &mut bank.cells, &mut bank.words)
}

fn library_write_plan(task: &Task, bank: &mut Bank) -> u64 {
    let answer = vukstaja::write_plan(&task.request[..1], &mut bank.words);
    answer.expect("the header has a plan")
}

fn plain_write_plan(task: &Task, bank: &mut Bank) -> u64 {
    let header = task.request[0];
    bank.words.clear();
    bank.words.push(header);
    emit(&Public::read(header), &mut bank.words);
    bank.words.len() as u64
}

fn library_run_plan(task: &Task, bank: &mut Bank) -> u64 {
    let answer = vukstaja::run_plan(&task.plan, &mut bank.cells, &mut bank.words);
    answer.expect("the plan can be carried out").rounds
}

fn plain_run_plan(task: &Task, bank: &mut Bank) -> u64 {
    let rounds = foreign::run_plan(&task.plan, &mut bank.cells, &mut bank.words);
    rounds.expect("the plan can be carried out")
}
