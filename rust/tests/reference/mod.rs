//! An implementation of the rules that shares nothing with the library.

pub mod depth;
pub mod graph;
pub mod plan;
pub mod saved;

use plan::{emit, head, lay, split, Machine, Public};

const PLACES: usize = 1 << 24;
const MOST: i64 = 100_000_000;

/// The number, the place and the values of an answer, 0 where it has fewer than five.
#[derive(Clone, Copy, Debug, PartialEq, Eq)]
pub struct Outcome {
    pub number: u64,
    pub place: Option<u64>,
    pub values: [u64; 5],
}

fn ran(number: u64, values: [u64; 5]) -> Outcome {
    Outcome {
        number,
        place: None,
        values,
    }
}

fn refused(number: u64, place: Option<usize>) -> Outcome {
    Outcome {
        number,
        place: place.map(|place| place as u64),
        values: [0; 5],
    }
}

/// The buffers a host lends.
#[derive(Clone, Debug, PartialEq, Eq)]
pub struct Buffers {
    pub cells: Vec<i64>,
    pub log: Vec<u64>,
    pub distances: Vec<i64>,
    pub parents: Vec<i64>,
    pub route: Vec<i64>,
}

/// Every word of a plan, the header first.
pub fn plan_words(header: u64) -> Vec<u64> {
    let mut words = vec![header];
    emit(&Public::read(header), &mut words);
    words
}

/// The log's length: every OPEN adds its published cell.
pub fn log_length(plan: &[u64]) -> usize {
    let opens = plan.iter().skip(1).filter(|&&word| word >> 60 == 7);
    plan.len() + opens.count()
}

/// The refusal of a header, 1 to 4.
fn header_fault(request: &[u64]) -> Option<u64> {
    let Some(&word) = request.first() else {
        return Some(1);
    };
    let public = Public::read(word);
    match public {
        Public { method, .. } if !(1..=5).contains(&method) => Some(1),
        Public { n, .. } if n == 0 || n > 32 => Some(2),
        Public { m, .. } if m > 128 => Some(3),
        Public { method: 2, m, .. } if m != 0 => Some(3),
        Public {
            method: 4, source, ..
        } if source != 0 => Some(4),
        Public { source, n, .. } if source >= n => Some(4),
        _ => None,
    }
}

/// The first refusal of a word after the header: spare bits, from-yard, to-yard, price.
fn word_fault(public: &Public, word: u64) -> Option<u64> {
    let (upper, price) = (word >> 32, i64::from(word as u32 as i32));
    if public.method == 2 {
        return match upper {
            0 if (-1..=MOST).contains(&price) => None,
            0 => Some(11),
            _ => Some(10),
        };
    }
    let (from, to, spare) = (upper >> 24, upper >> 16 & 0xFF, upper & 0xFFFF);
    if spare != 0 {
        Some(10)
    } else if from >= public.n {
        Some(13)
    } else if to >= public.n {
        Some(14)
    } else if price.abs() > MOST {
        Some(11)
    } else {
        None
    }
}

/// In method 3 no edge leads to a lower vertex than the edge before it.
fn order_fault(public: &Public, words: &[u64], at: usize) -> Option<u64> {
    let falls = at > 0 && head(words[at]) < head(words[at - 1]);
    (public.method == 3 && falls).then_some(15)
}

/// The first refusal of the words after the header, the destination last.
fn words_fault(public: &Public, words: &[u64]) -> Option<Outcome> {
    let (words, destination) = public.parts(words);
    let fault = (0..words.len()).find_map(|at| {
        let fault = word_fault(public, words[at]);
        let number = fault.or_else(|| order_fault(public, words, at));
        number.map(|number| refused(number, Some(at)))
    });
    let absent = destination.filter(|&vertex| vertex >= public.n);
    fault.or_else(|| absent.map(|_| refused(16, None)))
}

fn lent_fault(public: &Public, log_needed: usize, lent: &Buffers) -> Option<u64> {
    let results = [
        (lent.distances.len(), public.distances_length()),
        (lent.parents.len(), public.parents_length()),
        (lent.route.len(), public.route_length()),
    ];
    if lent.cells.len() < public.cells() {
        Some(6)
    } else if lent.log.len() < log_needed {
        Some(7)
    } else if results.iter().any(|(length, needed)| length < needed) {
        Some(8)
    } else {
        None
    }
}

/// Runs a request by writing its plan and interpreting the words.
pub fn run(request: &[u64], lent: &mut Buffers) -> Outcome {
    if let Some(number) = header_fault(request) {
        return refused(number, None);
    }
    let (header, words) = (request[0], &request[1..]);
    let public = Public::read(header);
    let expected = match public.method {
        2 => public.n * public.n,
        5 => public.m + 1,
        _ => public.m,
    };
    if words.len() as u64 != expected {
        return refused(5, None);
    }
    let plan = plan_words(header);
    if let Some(number) = lent_fault(&public, log_length(&plan), lent) {
        return refused(number, None);
    }
    if let Some(outcome) = words_fault(&public, words) {
        return outcome;
    }
    lay(&public, words, &mut lent.cells);
    let (rounds, logged) = interpret(&plan, &mut lent.cells, &mut lent.log);
    let verdict = match public.method {
        2 => 0,
        _ => lent.log[logged - 1],
    };
    let values = [rounds, logged as u64, verdict, 0, 0];
    if verdict != 0 {
        return ran(12, values);
    }
    copy_results(&public, lent);
    ran(0, values)
}

fn interpret(plan: &[u64], cells: &mut [i64], log: &mut [u64]) -> (u64, usize) {
    let (header, words) = (plan[0], &plan[1..]);
    let rounds = depth::rounds(words, cells.len());
    (rounds, Machine::new(header, cells, log).interpret(words))
}

fn copy_results(public: &Public, lent: &mut Buffers) {
    let (distances, parents) = (public.distances_length(), public.parents_length());
    let cells = &lent.cells[public.distances() as usize..];
    lent.distances[..distances].copy_from_slice(&cells[..distances]);
    lent.parents[..parents].copy_from_slice(&cells[distances..][..parents]);
    if public.method == 5 {
        let (length, first) = (public.route_length(), public.route() as usize);
        lent.route[..length].copy_from_slice(&lent.cells[first..first + length]);
    }
}

/// Whether a foreign plan's word can be carried out on that many cells.
fn sound(word: u64, cells: usize) -> bool {
    let (op, d, a, b) = split(word);
    let there = |address: u64| address < cells as u64;
    match op {
        0 => there(d),
        1 => there(d) && there(a) && b == 0,
        2..=6 => there(d) && there(a) && there(b),
        7 => d == 0 && there(a) && b == 0,
        _ => false,
    }
}

/// Runs a foreign plan.
pub fn run_plan(plan: &[u64], cells: &mut [i64], log: &mut [u64]) -> Outcome {
    let mut places = 1..plan.len();
    if let Some(place) = places.find(|&at| at >= PLACES || !sound(plan[at], cells.len())) {
        return refused(9, Some(place));
    }
    if log.len() < log_length(plan) {
        return refused(7, None);
    }
    if plan.is_empty() {
        return ran(0, [0; 5]);
    }
    let (rounds, logged) = interpret(plan, cells, log);
    ran(0, [rounds, logged as u64, 0, 0, 0])
}

/// Writes the plan of the first word given.
pub fn write_plan(header: &[u64], buffer: &mut [u64]) -> Outcome {
    if let Some(number) = header_fault(header) {
        return refused(number, None);
    }
    let plan = plan_words(header[0]);
    if buffer.len() < plan.len() {
        return refused(7, None);
    }
    buffer[..plan.len()].copy_from_slice(&plan);
    ran(0, [plan.len() as u64, 0, 0, 0, 0])
}

/// The lengths that the first word given asks for: cells, log, distances, parents, route.
pub fn sizes(header: &[u64]) -> Outcome {
    if let Some(number) = header_fault(header) {
        return refused(number, None);
    }
    let public = Public::read(header[0]);
    let log = log_length(&plan_words(header[0])) as u64;
    let [cells, distances, parents, route] = [
        public.cells(),
        public.distances_length(),
        public.parents_length(),
        public.route_length(),
    ]
    .map(|length| length as u64);
    ran(0, [cells, log, distances, parents, route])
}
