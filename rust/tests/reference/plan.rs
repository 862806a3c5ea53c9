//! The plans of the methods and how a word is carried out, from the rules.

/// Marks an unreached vertex.
pub const FAR: i64 = (1 << 39) - 1;

const FIELD: u64 = (1 << 20) - 1;

/// The public part of a request.
#[derive(Clone, Copy)]
pub struct Public {
    pub method: u64,
    pub n: u64,
    pub m: u64,
    pub source: u64,
}

impl Public {
    pub fn read(word: u64) -> Public {
        let (method, n, m, source) = split(word);
        Public {
            method,
            n,
            m,
            source,
        }
    }

    pub fn cells(&self) -> usize {
        let (n, m) = (self.n, self.m);
        let count = match self.method {
            1 => 3 * m + 3 * n + 8,
            3 => 2 * n * m + 4 * m + 5 * n + 10,
            4 => 3 * m + n * n + 3 * n + 6,
            5 => 3 * m + 5 * n + 8,
            _ => n * n + 5 * n + 6,
        };
        count as usize
    }

    /// The first cell of the edges' heads; method 3 keeps one before them.
    pub fn heads(&self) -> u64 {
        match self.method {
            3 => self.m + 1,
            _ => self.m,
        }
    }

    /// The first cell of the distances, which the parents follow where there are any.
    pub fn distances(&self) -> u64 {
        match self.method {
            2 => self.n * self.n,
            _ => self.heads() + 2 * self.m,
        }
    }

    /// How many distances are given: in method 4 a row for each vertex.
    pub fn distances_length(&self) -> usize {
        match self.method {
            4 => (self.n * self.n) as usize,
            _ => self.n as usize,
        }
    }

    /// How many parents are given: in method 4 none.
    pub fn parents_length(&self) -> usize {
        match self.method {
            4 => 0,
            _ => self.n as usize,
        }
    }

    /// Method 5's cell of the destination, after those that method 1 has too.
    pub fn destination(&self) -> u64 {
        3 * self.m + 3 * self.n + 8
    }

    /// The first cell of method 5's route.
    pub fn route(&self) -> u64 {
        self.destination() + 1 + self.n
    }

    /// How many edges the route has room for.
    pub fn route_length(&self) -> usize {
        match self.method {
            5 => self.n as usize - 1,
            _ => 0,
        }
    }

    /// The words of the graph by themselves, and the destination after them in method 5.
    pub fn parts<'a>(&self, words: &'a [u64]) -> (&'a [u64], Option<u64>) {
        match (self.method, words) {
            (5, [edges @ .., destination]) => (edges, Some(*destination)),
            _ => (words, None),
        }
    }
}

/// Splits a word into its 4-bit field and three 20-bit fields.
#[inline]
pub fn split(word: u64) -> (u64, u64, u64, u64) {
    (
        word >> 60,
        word >> 40 & FIELD,
        word >> 20 & FIELD,
        word & FIELD,
    )
}

#[inline]
pub fn pack(op: u64, d: u64, a: u64, b: u64) -> u64 {
    op << 60 | d << 40 | a << 20 | b
}

/// The vertex that an edge's word leads to.
pub fn head(edge: u64) -> u64 {
    edge >> 48 & 0xFF
}

/// Adds each operation of a plan to the words, in order.
pub fn emit(public: &Public, words: &mut Vec<u64>) {
    let writer = Writer { words };
    match public.method {
        1 | 5 => writer.edges(public),
        3 => writer.sorted_edges(public),
        4 => writer.all_pairs(public),
        _ => writer.table(public),
    }
}

struct Writer<'a> {
    words: &'a mut Vec<u64>,
}

/// Where method 3 keeps its lists: those that every method has; of each vertex
/// the least offer and the edge that gives it; the scratch; of each edge
/// whether it is the first to its head; and its tail and its head by vertices.
struct Sorted {
    d: u64,
    p: u64,
    y: u64,
    least: u64,
    giver: u64,
    x: u64,
    first: u64,
    from: u64,
    to: u64,
}

impl Sorted {
    fn new(public: &Public) -> Sorted {
        let (n, m) = (public.n, public.m);
        let d = public.distances();
        let x = d + 5 * n;
        let from = x + 9 + m;
        Sorted {
            d,
            p: d + n,
            y: d + 2 * n,
            least: d + 3 * n,
            giver: d + 4 * n,
            x,
            first: x + 9,
            from,
            to: from + n * m,
        }
    }
}

/// Where method 4 keeps its lists: the distances of all pairs by rows, the column
/// and the row that are added up, the names of the vertices, and the scratch.
struct Pairs {
    d: u64,
    column: u64,
    row: u64,
    y: u64,
    x: u64,
}

impl Pairs {
    fn new(public: &Public) -> Pairs {
        let (n, d) = (public.n, public.distances());
        let column = d + n * n;
        Pairs {
            d,
            column,
            row: column + n,
            y: column + 2 * n,
            x: column + 3 * n,
        }
    }
}

impl Writer<'_> {
    #[inline(always)]
    fn step(&mut self, op: u64, d: u64, a: u64, b: u64) {
        self.words.push(pack(op, d, a, b));
    }
    fn set(&mut self, d: u64, value: i64) {
        let bits = value as u64;
        self.step(0, d, bits >> 20 & FIELD, bits & FIELD);
    }
    fn copy(&mut self, d: u64, a: u64) {
        self.step(1, d, a, 0);
    }
    fn add(&mut self, d: u64, a: u64, b: u64) {
        self.step(2, d, a, b);
    }
    fn less(&mut self, d: u64, a: u64, b: u64) {
        self.step(3, d, a, b);
    }
    fn equal(&mut self, d: u64, a: u64, b: u64) {
        self.step(4, d, a, b);
    }
    fn both(&mut self, d: u64, a: u64, b: u64) {
        self.step(5, d, a, b);
    }
    fn move_if(&mut self, d: u64, a: u64, b: u64) {
        self.step(6, d, a, b);
    }
    fn open(&mut self, a: u64) {
        self.step(7, 0, a, 0);
    }

    fn edges(mut self, public: &Public) {
        let (n, m) = (public.n, public.m);
        let (d, p, y, x) = (3 * m, 3 * m + n, 3 * m + 2 * n, 3 * m + 3 * n);
        for v in 0..n {
            self.start_vertex(public, v, y, d, p);
        }
        self.set(x, FAR);
        self.set(x + 7, 0);
        for pass in 0..n {
            let check = pass == n - 1;
            for i in 0..m {
                self.price(public, i);
                if !check {
                    self.set(x + 3, i as i64);
                }
                for v in 0..n {
                    self.equal(x + 5, m + i, y + v);
                    self.less(x + 6, x + 2, d + v);
                    self.both(x + 6, x + 6, x + 4);
                    self.both(x + 6, x + 6, x + 5);
                    if check {
                        self.move_if(x + 7, x + 6, x + 6);
                    } else {
                        self.move_if(d + v, x + 6, x + 2);
                        self.move_if(p + v, x + 6, x + 3);
                    }
                }
            }
        }
        if public.method == 5 {
            self.tails(public);
            self.route(public);
        }
        self.open(x + 7);
    }

    /// Notes for each vertex the tail of its parent, or itself where it has none.
    fn tails(&mut self, public: &Public) {
        let (n, m) = (public.n, public.m);
        let (p, y, x) = (3 * m + n, 3 * m + 2 * n, 3 * m + 3 * n);
        let b = public.destination() + 1;
        for v in 0..n {
            self.copy(b + v, y + v);
        }
        for i in 0..m {
            self.set(x + 3, i as i64);
            for v in 0..n {
                self.equal(x + 5, p + v, x + 3);
                self.move_if(b + v, x + 5, i);
            }
        }
    }

    /// Steps from the destination back, as often as the longest walk needs.
    fn route(&mut self, public: &Public) {
        let (n, m) = (public.n, public.m);
        let (p, y, x) = (3 * m + n, 3 * m + 2 * n, 3 * m + 3 * n);
        let (b, r) = (public.destination() + 1, public.route());
        self.copy(x + 1, public.destination());
        for k in 0..n - 1 {
            self.copy(x + 2, x + 1);
            for v in 0..n {
                self.equal(x + 5, x + 2, y + v);
                self.move_if(r + k, x + 5, p + v);
                self.move_if(x + 1, x + 5, b + v);
            }
        }
    }

    /// Fetches the distance of edge `i`'s tail and adds the weight.
    fn price(&mut self, public: &Public, i: u64) {
        let (n, m) = (public.n, public.m);
        let (d, y, x) = (3 * m, 3 * m + 2 * n, 3 * m + 3 * n);
        self.copy(x + 1, x);
        for v in 0..n {
            self.equal(x + 5, i, y + v);
            self.move_if(x + 1, x + 5, d + v);
        }
        self.total(x, 2 * m + i);
    }

    /// Adds a weight to the tail's distance, and notes whether that is one.
    fn total(&mut self, x: u64, weight: u64) {
        self.add(x + 2, x + 1, weight);
        self.less(x + 4, x + 1, x);
    }

    fn start_vertex(&mut self, public: &Public, v: u64, y: u64, d: u64, p: u64) {
        self.set(y + v, v as i64);
        self.set(d + v, if v == public.source { 0 } else { FAR });
        self.set(p + v, -1);
    }

    fn sorted_edges(mut self, public: &Public) {
        let (n, m) = (public.n, public.m);
        let cells = Sorted::new(public);
        let Sorted { d, p, y, x, .. } = cells;
        for v in 0..n {
            self.start_vertex(public, v, y, d, p);
            self.set(cells.least + v, FAR);
        }
        self.set(x, FAR);
        self.set(x + 8, 0);
        self.set(m, -1);
        for i in 0..m {
            self.match_ends(public, &cells, i);
        }
        for pass in 0..n {
            let check = pass == n - 1;
            for i in 0..m {
                self.offer(public, &cells, i, check);
            }
            for v in 0..n {
                self.less(x + 5, cells.least + v, d + v);
                if check {
                    self.move_if(x + 8, x + 5, x + 5);
                } else {
                    self.move_if(d + v, x + 5, cells.least + v);
                    self.move_if(p + v, x + 5, cells.giver + v);
                }
            }
        }
        self.open(x + 8);
    }

    /// Notes whether edge `i` has a higher head than the one before it, and
    /// which vertices are its tail and its head.
    fn match_ends(&mut self, public: &Public, cells: &Sorted, i: u64) {
        let (n, head) = (public.n, public.heads() + i);
        self.less(cells.first + i, head - 1, head);
        for v in 0..n {
            self.equal(cells.from + i * n + v, i, cells.y + v);
            self.equal(cells.to + i * n + v, head, cells.y + v);
        }
    }

    /// Takes what edge `i` offers into the least offer to its head so far.
    fn offer(&mut self, public: &Public, cells: &Sorted, i: u64, check: bool) {
        let (n, m, x) = (public.n, public.m, cells.x);
        self.copy(x + 1, x);
        for v in 0..n {
            self.move_if(x + 1, cells.from + i * n + v, cells.d + v);
        }
        self.total(x, 2 * m + 1 + i);
        self.move_if(x + 6, cells.first + i, x);
        self.less(x + 5, x + 2, x + 6);
        self.both(x + 5, x + 5, x + 4);
        self.move_if(x + 6, x + 5, x + 2);
        if !check {
            self.set(x + 3, i as i64);
            self.move_if(x + 7, x + 5, x + 3);
        }
        for v in 0..n {
            let head = cells.to + i * n + v;
            self.move_if(cells.least + v, head, x + 6);
            if !check {
                self.move_if(cells.giver + v, head, x + 7);
            }
        }
    }

    fn all_pairs(mut self, public: &Public) {
        let (n, m) = (public.n, public.m);
        let cells = Pairs::new(public);
        self.start_pairs(n, &cells);
        for i in 0..m {
            self.pick_edge(public, &cells, i);
            self.add_up(n, &cells);
        }
        for k in 0..n {
            for v in 0..n {
                self.copy(cells.column + v, cells.d + v * n + k);
                self.copy(cells.row + v, cells.d + k * n + v);
            }
            self.add_up(n, &cells);
        }
        self.find_cycles(n, &cells);
        self.mark_pairs(n, &cells);
        self.open(cells.x + 5);
    }

    /// No pair is joined by a walk yet, but each vertex to itself. The mark of
    /// that is FAR doubled so often that no rebates bring it down to FAR.
    fn start_pairs(&mut self, n: u64, cells: &Pairs) {
        let &Pairs { d, y, x, .. } = cells;
        for v in 0..n {
            self.set(y + v, v as i64);
        }
        self.set(x, FAR);
        self.set(x + 1, FAR);
        for _ in 0..20 {
            self.add(x + 1, x + 1, x + 1);
        }
        self.set(x + 2, 0);
        self.set(x + 5, 0);
        for pair in 0..n * n {
            self.copy(d + pair, x + 1);
        }
        for v in 0..n {
            self.copy(d + v * (n + 1), x + 2);
        }
    }

    /// Makes edge `i` a column, 0 at its tail, and a row, its weight at its head.
    fn pick_edge(&mut self, public: &Public, cells: &Pairs, i: u64) {
        let m = public.m;
        let &Pairs {
            column, row, y, x, ..
        } = cells;
        for v in 0..public.n {
            self.copy(column + v, x + 1);
            self.equal(x + 4, i, y + v);
            self.move_if(column + v, x + 4, x + 2);
            self.copy(row + v, x + 1);
            self.equal(x + 4, m + i, y + v);
            self.move_if(row + v, x + 4, 2 * m + i);
        }
    }

    /// Each pair may go by the column and on by the row.
    fn add_up(&mut self, n: u64, cells: &Pairs) {
        let &Pairs {
            d, column, row, x, ..
        } = cells;
        for i in 0..n {
            for j in 0..n {
                let pair = d + i * n + j;
                self.add(x + 3, column + i, row + j);
                self.less(x + 4, x + 3, pair);
                self.move_if(pair, x + 4, x + 3);
            }
        }
    }

    /// Counts the vertices on negative cycles, and notes whether there are any.
    fn find_cycles(&mut self, n: u64, cells: &Pairs) {
        let &Pairs { d, x, .. } = cells;
        for v in 0..n {
            self.less(x + 4, d + v * n + v, x + 2);
            self.add(x + 5, x + 5, x + 4);
        }
        self.both(x + 5, x + 5, x + 5);
    }

    /// Puts FAR wherever no walk was found.
    fn mark_pairs(&mut self, n: u64, cells: &Pairs) {
        let &Pairs { d, x, .. } = cells;
        for pair in d..d + n * n {
            self.less(x + 4, x, pair);
            self.move_if(pair, x + 4, x);
        }
    }

    fn table(mut self, public: &Public) {
        let n = public.n;
        let d = n * n;
        let (p, y, o, x) = (d + n, d + 2 * n, d + 3 * n, d + 5 * n);
        for v in 0..n {
            self.start_vertex(public, v, y, d, p);
            self.set(o + v, 1);
        }
        self.set(x, FAR);
        self.set(x + 4, 0);
        for _ in 0..n {
            self.choose(n);
            self.fetch_row(n);
            self.relax_row(n);
        }
    }

    /// Finds the nearest vertex still open.
    fn choose(&mut self, n: u64) {
        let (d, y, o, x) = (n * n, n * n + 2 * n, n * n + 3 * n, n * n + 5 * n);
        self.copy(x + 1, x);
        self.set(x + 3, -1);
        for v in 0..n {
            self.less(x + 5, d + v, x + 1);
            self.both(x + 5, x + 5, o + v);
            self.move_if(x + 1, x + 5, d + v);
            self.move_if(x + 3, x + 5, y + v);
        }
    }

    /// Copies the chosen vertex's row without telling which, and closes it.
    fn fetch_row(&mut self, n: u64) {
        let (y, o, r, x) = (n * n + 2 * n, n * n + 3 * n, n * n + 4 * n, n * n + 5 * n);
        for j in 0..n {
            self.copy(r + j, x);
        }
        for v in 0..n {
            self.equal(x + 5, x + 3, y + v);
            self.move_if(o + v, x + 5, x + 4);
            for j in 0..n {
                self.move_if(r + j, x + 5, v * n + j);
            }
        }
    }

    fn relax_row(&mut self, n: u64) {
        let (d, p, r, x) = (n * n, n * n + n, n * n + 4 * n, n * n + 5 * n);
        for j in 0..n {
            self.add(x + 2, x + 1, r + j);
            self.less(x + 5, x + 2, d + j);
            self.move_if(d + j, x + 5, x + 2);
            self.move_if(p + j, x + 5, x + 3);
        }
    }
}

/// Lays a request's fields into the needed cells; the rest of these become 0.
pub fn lay(public: &Public, words: &[u64], cells: &mut [i64]) {
    cells[..public.cells()].fill(0);
    let (m, heads) = (public.m as usize, public.heads() as usize);
    let (words, destination) = public.parts(words);
    if let Some(vertex) = destination {
        cells[public.destination() as usize] = vertex as i64;
    }
    for (i, &word) in words.iter().enumerate() {
        let price = i64::from(word as u32 as i32);
        if public.method == 2 {
            cells[i] = if price == -1 { FAR } else { price };
        } else {
            cells[i] = (word >> 56) as i64;
            cells[heads + i] = head(word) as i64;
            cells[heads + m + i] = price;
        }
    }
}

/// A bank of cells and the log of what was done to it.
pub struct Machine<'a> {
    cells: &'a mut [i64],
    log: &'a mut [u64],
    logged: usize,
}

impl<'a> Machine<'a> {
    pub fn new(header: u64, cells: &'a mut [i64], log: &'a mut [u64]) -> Machine<'a> {
        let mut machine = Machine {
            cells,
            log,
            logged: 0,
        };
        machine.note(header);
        machine
    }

    #[inline(always)]
    fn note(&mut self, word: u64) {
        self.log[self.logged] = word;
        self.logged += 1;
    }

    #[inline(always)]
    fn act(&mut self, op: u64, d: u64, a: u64, b: u64) {
        let (to, left, right) = (d as usize, a as usize, b as usize);
        let cells = &mut *self.cells;
        match op {
            // Shifting up and back down spreads bit 39, the sign.
            0 => cells[to] = ((a << 20 | b) << 24) as i64 >> 24,
            1 => cells[to] = cells[left],
            2 => cells[to] = cells[left].wrapping_add(cells[right]),
            3 => cells[to] = i64::from(cells[left] < cells[right]),
            4 => cells[to] = i64::from(cells[left] == cells[right]),
            5 => cells[to] = i64::from(cells[left] != 0 && cells[right] != 0),
            6 => {
                if cells[left] != 0 {
                    cells[to] = cells[right];
                }
            }
            _ => {
                let published = cells[left] as u64;
                self.note(published);
            }
        }
    }

    /// Carries the words out, and tells how many the log has then. By value and
    /// not inlined, so that the loop is compiled with the machine in locals,
    /// whatever stands around the call.
    #[inline(never)]
    pub fn interpret(mut self, words: &[u64]) -> usize {
        for &word in words {
            let (op, d, a, b) = split(word);
            self.note(word);
            self.act(op, d, a, b);
        }
        self.logged
    }
}
