//! Requests, foreign plans and lent buffers from a fixed seed.

pub mod faults;

use crate::reference::plan::{head, pack, Public};
use crate::reference::{log_length, plan_words, Buffers};

/// The highest weight.
pub const MOST: i64 = 100_000_000;

/// The methods that there are.
pub const METHODS: [u64; 5] = [1, 2, 3, 4, 5];

/// A xorshift generator: small, and the same on every machine.
pub struct Random(u64);

impl Random {
    pub fn new(seed: u64) -> Random {
        println!("seed {seed:#018x}");
        Random(seed)
    }

    pub fn word(&mut self) -> u64 {
        self.0 ^= self.0 << 13;
        self.0 ^= self.0 >> 7;
        self.0 ^= self.0 << 17;
        self.0.wrapping_mul(0x2545_F491_4F6C_DD1D)
    }

    pub fn below(&mut self, bound: u64) -> u64 {
        (self.word() >> 16) % bound
    }

    pub fn between(&mut self, low: i64, high: i64) -> i64 {
        low + self.below((high - low + 1) as u64) as i64
    }

    pub fn one_in(&mut self, chances: u64) -> bool {
        self.below(chances) == 0
    }

    pub fn index(&mut self, length: usize) -> usize {
        self.below(length as u64) as usize
    }

    pub fn one_of(&mut self, numbers: &[u64]) -> u64 {
        numbers[self.index(numbers.len())]
    }

    pub fn shuffle<T>(&mut self, list: &mut [T]) {
        for at in (1..list.len()).rev() {
            list.swap(at, self.index(at + 1));
        }
    }

    pub fn words(&mut self, length: usize) -> Vec<u64> {
        (0..length).map(|_| self.word()).collect()
    }

    pub fn cells(&mut self, length: usize) -> Vec<i64> {
        (0..length).map(|_| self.word() as i64).collect()
    }
}

pub fn edge_word(tail: u64, head: u64, weight: i64) -> u64 {
    tail << 56 | head << 48 | u64::from(weight as u32)
}

/// A valid request of a small size.
pub fn small_request(random: &mut Random) -> Vec<u64> {
    let n = 1 + random.below(6);
    let m = random.below(13);
    let method = random.one_of(&METHODS);
    request(random, method, n, m)
}

/// A valid request; method 2 has no use for `m`, and method 4 none for a source.
pub fn request(random: &mut Random, method: u64, n: u64, m: u64) -> Vec<u64> {
    let source = if method == 4 { 0 } else { random.below(n) };
    let edges = if method == 2 { 0 } else { m };
    let mut words = vec![pack(method, n, edges, source)];
    match method {
        1 => words.extend(edge_words(random, n, m)),
        3 => words.extend(sorted_words(random, n, m)),
        4 => words.extend(circled_words(random, n, m)),
        5 => words.extend(routed_words(random, n, m, source)),
        _ => words.extend(table_words(random, n)),
    }
    words
}

fn edge_words(random: &mut Random, n: u64, m: u64) -> Vec<u64> {
    let style = random.below(6);
    let heights: Vec<i64> = (0..n).map(|_| random.between(0, 40_000_000)).collect();
    let wall = if random.one_in(3) { random.below(n) } else { 0 };
    let mut words = Vec::new();
    for _ in 0..m {
        let tail = random.below(n);
        let head = same_side(random, tail, wall, n);
        let climb = heights[head as usize] - heights[tail as usize];
        let weight = weight(random, style, climb);
        words.push(edge_word(tail, head, weight));
    }
    words
}

/// Edges by rising heads, in any order where they lead to the same vertex.
fn sorted_words(random: &mut Random, n: u64, m: u64) -> Vec<u64> {
    let mut words = edge_words(random, n, m);
    if random.one_in(3) {
        lead_to_few(random, n, &mut words);
    }
    words.sort_by_key(|&word| head(word));
    words
}

/// Heads that rise now and then only, past others or not at all.
fn lead_to_few(random: &mut Random, n: u64, words: &mut [u64]) {
    let chances = 1 + random.below(12);
    let mut head = random.below(n);
    for word in words {
        if random.one_in(chances) {
            head += random.below(n - head);
        }
        *word = *word & !(0xFF << 48) | head << 48;
    }
}

/// Edges, often with a cycle among them whose total is -1, 0 or 1. It is on one
/// side of a wall, so that vertex 0 may not reach it.
fn circled_words(random: &mut Random, n: u64, m: u64) -> Vec<u64> {
    let wall = random.below(n);
    let mut ring: Vec<u64> = (wall..n).collect();
    random.shuffle(&mut ring);
    ring.truncate(1 + random.index(ring.len()));
    if ring.len() > m as usize || random.one_in(2) {
        return edge_words(random, n, m);
    }
    let following = ring.iter().cycle().skip(1);
    let steps = ring
        .iter()
        .zip(following)
        .map(|(&tail, &head)| [tail, head]);
    let mut ends: Vec<([u64; 2], i64)> = steps.map(|ends| (ends, 0)).collect();
    ends[0].1 = random.between(-1, 1);
    while ends.len() < m as usize {
        let tail = random.below(n);
        let head = same_side(random, tail, wall, n);
        ends.push(([tail, head], random.between(0, 2)));
    }
    climb_words(random, n, ends)
}

/// Edges, and a destination after them.
fn routed_words(random: &mut Random, n: u64, m: u64, source: u64) -> Vec<u64> {
    if m + 1 >= n && random.one_in(3) {
        return trail_words(random, n, m, source);
    }
    let mut words = edge_words(random, n, m);
    words.push(match random.one_in(6) {
        true => source,
        false => random.below(n),
    });
    words
}

/// A trail from the source through all vertices, in any order among edges that
/// lead nowhere sooner. The destination is often its end, or not far from it.
fn trail_words(random: &mut Random, n: u64, m: u64, source: u64) -> Vec<u64> {
    let mut trail: Vec<u64> = (0..n).filter(|&vertex| vertex != source).collect();
    random.shuffle(&mut trail);
    trail.insert(0, source);
    // With no detour other edges may tie with the trail.
    let detour = random.between(0, 2);
    let others = (n - 1..m).map(|_| [random.below(n), random.below(n)]);
    let steps = trail.windows(2).map(|step| [step[0], step[1]]);
    let mut ends: Vec<([u64; 2], i64)> = steps.map(|ends| (ends, 0)).collect();
    ends.extend(others.map(|ends| (ends, detour)));
    let mut words = climb_words(random, n, ends);
    words.push(match random.one_in(2) {
        true => trail[n as usize - 1],
        false => random.one_of(&trail[n as usize / 2..]),
    });
    words
}

/// Edges with these ends in any order. Their weights climb from one vertex's height
/// to another's, so that the detours alone make up the total of a cycle.
fn climb_words(random: &mut Random, n: u64, mut ends: Vec<([u64; 2], i64)>) -> Vec<u64> {
    let heights: Vec<i64> = (0..n).map(|_| random.between(0, 40_000_000)).collect();
    random.shuffle(&mut ends);
    let words = ends.into_iter().map(|([tail, head], detour)| {
        let climb = heights[head as usize] - heights[tail as usize];
        edge_word(tail, head, climb + detour)
    });
    words.collect()
}

/// No edge crosses the wall, so that a part stays unreached.
fn same_side(random: &mut Random, tail: u64, wall: u64, n: u64) -> u64 {
    if tail < wall {
        random.below(wall)
    } else {
        wall + random.below(n - wall)
    }
}

fn weight(random: &mut Random, style: u64, climb: i64) -> i64 {
    match style {
        0 => random.between(-1, 2),
        1 => 0,
        2 if random.one_in(4) => MOST,
        2 if random.one_in(4) => -MOST,
        2 => random.between(-MOST, MOST),
        3 => random.between(0, 3),
        // Climbs cancel on a cycle: negative edges and zero cycles, no negative one.
        4 => climb + random.between(0, 1),
        _ if random.one_in(10) => random.between(-3, -1),
        _ => random.between(1, 9),
    }
}

fn table_words(random: &mut Random, n: u64) -> Vec<u64> {
    let style = random.below(4);
    let gaps = 1 + random.below(4);
    (0..n * n)
        .map(|_| table_weight(random, style, gaps))
        .map(|weight| u64::from(weight as u32))
        .collect()
}

fn table_weight(random: &mut Random, style: u64, gaps: u64) -> i64 {
    if random.below(5) < gaps {
        return -1;
    }
    match style {
        0 => 0,
        1 => random.between(0, 2),
        2 => random.between(MOST - 1, MOST),
        _ => random.between(0, MOST),
    }
}

/// Buffers with leftovers in them, often longer than the request needs: those of
/// parents and route are lent where there are none, too.
pub fn buffers(random: &mut Random, header: u64) -> Buffers {
    let public = Public::read(header);
    let log = log_length(&plan_words(header));
    let mut spare = || random.index(5) * random.index(2);
    let lengths = [
        public.cells() + spare(),
        log + spare(),
        public.distances_length() + spare(),
        public.parents_length() + spare(),
        public.route_length() + spare(),
    ];
    Buffers {
        cells: random.cells(lengths[0]),
        log: random.words(lengths[1]),
        distances: random.cells(lengths[2]),
        parents: random.cells(lengths[3]),
        route: random.cells(lengths[4]),
    }
}

/// Damages a request or its buffers in one of the ways that are refused.
pub fn damage(random: &mut Random, request: &mut Vec<u64>, lent: &mut Buffers) {
    if random.one_in(2) {
        return damage_word(random, request);
    }
    match random.below(13) {
        0 => request.clear(),
        1 => change_header(random, request, 60, 16),
        2 => change_header(random, request, 40, 40),
        3 => change_header(random, request, 20, 140),
        4 => change_header(random, request, 0, 40),
        5 => request.push(0),
        6 => drop(request.pop()),
        7 => shorten(random, &mut lent.cells, Public::cells, request),
        8 => shorten(random, &mut lent.log, needed_log, request),
        9 => shorten(
            random,
            &mut lent.distances,
            Public::distances_length,
            request,
        ),
        10 => shorten(random, &mut lent.parents, Public::parents_length, request),
        11 => shorten(random, &mut lent.route, Public::route_length, request),
        _ => damage_destination(random, request),
    }
}

fn needed_log(public: &Public) -> usize {
    let header = pack(public.method, public.n, public.m, public.source);
    log_length(&plan_words(header))
}

/// Puts a number near the field's limits, or any at all, into a header field.
fn change_header(random: &mut Random, request: &mut [u64], shift: u32, near: u64) {
    let Some(header) = request.first_mut() else {
        return;
    };
    let mask = if shift == 60 { 0xF } else { 0xF_FFFF };
    let value = if random.one_in(4) {
        random.word()
    } else {
        random.below(near)
    };
    *header = *header & !(mask << shift) | (value & mask) << shift;
}

/// Leaves one too few, none, or any number between.
fn shorten<T>(
    random: &mut Random,
    buffer: &mut Vec<T>,
    needed: fn(&Public) -> usize,
    request: &[u64],
) {
    // A header that was damaged first may need more than is sensible to plan.
    let Some(public) = request.first().map(|&word| Public::read(word)) else {
        return;
    };
    if public.n == 0 || public.n > 32 || public.m > 128 {
        return;
    }
    let needed = needed(&public);
    if needed == 0 {
        return;
    }
    let length = match random.below(3) {
        0 => needed - 1,
        1 => 0,
        _ => random.index(needed),
    };
    buffer.truncate(length);
}

fn damage_word(random: &mut Random, request: &mut [u64]) {
    if request.len() < 2 {
        return;
    }
    let at = 1 + random.index(request.len() - 1);
    if random.one_in(4) {
        let other = 1 + random.index(request.len() - 1);
        return request.swap(at, other);
    }
    let public = Public::read(request[0]);
    let floor = faults::floor(&public, request, at);
    let word = &mut request[at];
    match random.below(8) {
        0 => *word ^= 1 << random.below(64),
        1 => *word ^= 1 << (32 + random.below(16)),
        2 => *word = *word & !(0xFF << 56) | random.below(40) << 56,
        3 => *word = *word & !(0xFF << 48) | random.below(40) << 48,
        4 => *word = *word >> 32 << 32 | (MOST as u64 + random.below(2)),
        5 => *word = *word >> 32 << 32 | u64::from((-MOST - random.between(0, 1)) as u32),
        6 if (1..=32).contains(&public.n) => *word = faulty_word(random, &public, floor),
        _ => *word = random.word(),
    }
}

/// Puts a bad destination at the end of a request of method 5.
fn damage_destination(random: &mut Random, request: &mut [u64]) {
    if let [header, .., destination] = request {
        let Public { method, n, .. } = Public::read(*header);
        if method == 5 && (1..=32).contains(&n) {
            *destination = faults::destination(random, n, true);
        }
    }
}

fn faulty_word(random: &mut Random, public: &Public, floor: u64) -> u64 {
    let mut possible = faults::combinations(public.method);
    possible.retain(|faults| faults::possible(faults, floor));
    let chosen = random.index(possible.len());
    faults::word(random, public, floor, &possible[chosen])
}

/// A foreign plan of that many words, with these ops and cells alone; every word
/// can be carried out where the cells are there.
pub fn foreign_plan(random: &mut Random, length: usize, ops: &[u64], cells: &[u64]) -> Vec<u64> {
    let mut plan = random.words(length);
    for word in plan.iter_mut().skip(1) {
        *word = operation(random, ops, cells);
    }
    plan
}

fn operation(random: &mut Random, ops: &[u64], cells: &[u64]) -> u64 {
    let [d, a, b] = [0; 3].map(|_: u64| random.one_of(cells));
    match random.one_of(ops) {
        // Fields that could be addresses, and are none.
        0 if random.one_in(2) => pack(0, d, a, b),
        0 => pack(0, d, random.below(1 << 20), random.below(1 << 20)),
        1 => pack(1, d, a, 0),
        7 => pack(7, 0, a, 0),
        op => pack(op, d, a, b),
    }
}

/// Damages one word of a plan: an op, a field, a bit, or all of it.
pub fn damage_plan(random: &mut Random, plan: &mut [u64], cells: u64) {
    if plan.is_empty() {
        return;
    }
    let at = random.index(plan.len());
    let shift = 20 * random.below(3);
    let near = cells + random.below(2);
    match random.below(4) {
        0 => plan[at] = plan[at] & !(0xF << 60) | (7 + random.below(9)) << 60,
        1 => plan[at] = plan[at] & !(0xF_FFFF << shift) | near << shift,
        2 => plan[at] ^= 1 << random.below(64),
        _ => plan[at] = random.word(),
    }
}
