//! Private routing: safe calls to the proved static library.
//!
//! A graph has vertices and directed edges with weights; an edge of negative
//! weight is allowed in every method but 2. A run answers the distance of each
//! vertex from the source and its parent on a shortest walk, in method 5 also
//! the edges of such a walk to a destination, in method 4 the distances from
//! every vertex and no parents; and it writes a log that follows from the public
//! header and the verdict alone.
//!
//! ```
//! // Two vertices, and one edge from 0 to 1 of weight -5.
//! let routes = vukstaja::solve(&[0x1000_0200_0010_0000, 0x0001_0000_FFFF_FFFB])?;
//! assert_eq!(routes.distances, [Some(0), Some(-5)]);
//! assert_eq!(routes.parents, [None, Some(0)]);
//!
//! // Edges from 1 to 2 and from 0 to 1, and 2 as the destination.
//! let header = vukstaja::Header {
//!     method: vukstaja::Method::BellmanFordRoute,
//!     vertices: 3,
//!     edges: 2,
//!     source: 0,
//! };
//! let edges = [0x0102_0000_0000_0004, 0x0001_0000_0000_0003];
//! let routes = vukstaja::solve(&[header.word(), edges[0], edges[1], 2])?;
//! assert_eq!(routes.distances, [Some(0), Some(3), Some(7)]);
//! assert_eq!(routes.route, [0, 1]);
//!
//! // The same edges, and the distances from every vertex, row by row.
//! let header = vukstaja::Header {
//!     method: vukstaja::Method::FloydWarshall,
//!     ..header
//! };
//! let routes = vukstaja::solve(&[header.word(), edges[0], edges[1]])?;
//! let rows: Vec<_> = routes.rows().collect();
//! assert_eq!(rows[0], [Some(0), Some(3), Some(7)]);
//! assert_eq!(rows[1], [None, Some(0), Some(4)]);
//! assert_eq!(rows[2], [None, None, Some(0)]);
//! # Ok::<(), vukstaja::Refusal>(())
//! ```

use std::error::Error;
use std::fmt;

/// The distance of a vertex that no walk from the source reaches, in method 4
/// from the row's vertex.
pub const UNREACHED: i64 = (1 << 39) - 1;

/// The same in distances that were saved before weights came in hundredths.
pub const OLD_UNREACHED: i64 = 1 << 38;

/// The parent of the source and of unreached vertices, which fills a route up, too.
pub const NO_PARENT: i64 = -1;

const FIELD_BITS: u32 = 20;
const FIELD_MAX: u32 = (1 << FIELD_BITS) - 1;
const NEGATIVE_CYCLE: u64 = 12;

/// What a call answers: number, whether there is a place, place, and up to five values.
type Numbers = [u64; 8];

extern "C" {
    fn vukstaja_run(
        request: *const u64,
        request_len: usize,
        cells: *mut i64,
        cells_len: usize,
        log: *mut u64,
        log_len: usize,
        distances: *mut i64,
        distances_len: usize,
        parents: *mut i64,
        parents_len: usize,
        route: *mut i64,
        route_len: usize,
        answer: *mut Numbers,
    );
    fn vukstaja_run_plan(
        plan: *const u64,
        plan_len: usize,
        cells: *mut i64,
        cells_len: usize,
        log: *mut u64,
        log_len: usize,
        answer: *mut Numbers,
    );
    fn vukstaja_write_plan(
        header: *const u64,
        header_len: usize,
        plan: *mut u64,
        plan_len: usize,
        answer: *mut Numbers,
    );
    fn vukstaja_sizes(header: *const u64, header_len: usize, answer: *mut Numbers);
    fn vukstaja_convert(saved: *mut i64, saved_len: usize, answer: *mut Numbers);
}

/// How a request gives its graph, and which plan answers it.
#[derive(Clone, Copy, Debug, PartialEq, Eq)]
pub enum Method {
    /// Method 1: Bellman-Ford over a list of edges.
    BellmanFord = 1,
    /// Method 2: Dijkstra over a table of weights.
    Dijkstra = 2,
    /// Method 3: Bellman-Ford over a list of edges sorted by head, each pass
    /// from the distances of the pass before. Of edges that offer a vertex the
    /// same the lowest becomes its parent.
    SortedBellmanFord = 3,
    /// Method 4: Floyd-Warshall over a list of edges. It gives the distances
    /// from every vertex, n rows of n, and no parents. The header's source is 0,
    /// and a cycle of negative weight counts wherever it is.
    FloydWarshall = 4,
    /// Method 5: Bellman-Ford over a list of edges, and the route to a
    /// destination, which is a word after the edges.
    BellmanFordRoute = 5,
}

/// The public part of a request.
#[derive(Clone, Copy, Debug, PartialEq, Eq)]
pub struct Header {
    pub method: Method,
    pub vertices: u32,
    pub edges: u32,
    /// 0 in method 4, whose distances are from every vertex.
    pub source: u32,
}

impl Header {
    /// Reads a header word; `None` if its method is not 1 to 5. Whether the
    /// library accepts the rest, [`sizes`] tells.
    pub fn from_word(word: u64) -> Option<Header> {
        let method = match word >> (3 * FIELD_BITS) {
            1 => Method::BellmanFord,
            2 => Method::Dijkstra,
            3 => Method::SortedBellmanFord,
            4 => Method::FloydWarshall,
            5 => Method::BellmanFordRoute,
            _ => return None,
        };
        Some(Header {
            method,
            vertices: (word >> (2 * FIELD_BITS)) as u32 & FIELD_MAX,
            edges: (word >> FIELD_BITS) as u32 & FIELD_MAX,
            source: word as u32 & FIELD_MAX,
        })
    }

    /// The header as a request's first word.
    pub fn word(&self) -> u64 {
        (self.method as u64) << (3 * FIELD_BITS)
            | field(self.vertices) << (2 * FIELD_BITS)
            | field(self.edges) << FIELD_BITS
            | field(self.source)
    }
}

/// Saturates, so that a number too large for its field is still refused.
fn field(number: u32) -> u64 {
    u64::from(number.min(FIELD_MAX))
}

/// The lengths of the buffers that a request's header asks for.
#[derive(Clone, Copy, Debug, PartialEq, Eq)]
pub struct Sizes {
    pub cells: usize,
    /// Words of the log; the plan has no more.
    pub log: usize,
    /// In method 4 a place for each pair of vertices, in the others for each vertex.
    pub distances: usize,
    /// 0 in method 4.
    pub parents: usize,
    /// 0 in every method but 5.
    pub route: usize,
}

/// What a request's run tells beside its buffers.
#[derive(Clone, Copy, Debug, PartialEq, Eq)]
pub struct Report {
    /// The greatest depth of any word carried out.
    pub rounds: u64,
    pub log_length: u64,
    pub verdict: u64,
}

/// What the run of a foreign plan tells beside its buffers.
#[derive(Clone, Copy, Debug, PartialEq, Eq)]
pub struct PlanReport {
    /// The greatest depth of any word carried out.
    pub rounds: u64,
    pub log_length: u64,
}

/// Why a call was refused, and at which word where there is one.
#[derive(Clone, Copy, Debug, PartialEq, Eq)]
pub struct Refusal {
    pub number: u64,
    pub place: Option<u64>,
}

impl Refusal {
    fn sentence(&self) -> &'static str {
        match self.number {
            1 => "the header is missing, or its method is not 1 to 5",
            2 => "the number of vertices is 0 or over 32",
            3 => "the number of edges is over 128, or not 0 in method 2",
            4 => "the source is not one of the vertices, or not 0 in method 4",
            5 => "the number of words after the header is not the header's",
            6 => "there are too few cells",
            7 => "the log or plan buffer is too short",
            8 => "the distances, parents or route buffer is too short",
            9 => "the plan has a word that cannot be carried out",
            10 => "the spare bits of a word are not zero",
            11 => "a weight or a saved distance is outside its range",
            12 => "the source, or in method 4 any vertex, reaches a cycle of negative weight",
            13 => "an edge leads from a vertex that is not there",
            14 => "an edge leads to a vertex that is not there",
            15 => "an edge leads to a lower vertex than the edge before it",
            16 => "the destination is not one of the vertices",
            _ => "the refusal has no known number",
        }
    }
}

impl fmt::Display for Refusal {
    fn fmt(&self, out: &mut fmt::Formatter<'_>) -> fmt::Result {
        write!(out, "refused {}: {}", self.number, self.sentence())?;
        match self.place {
            Some(place) => write!(out, " (place {place})"),
            None => Ok(()),
        }
    }
}

impl Error for Refusal {}

/// The answer to a request.
#[derive(Clone, Copy, Debug, PartialEq, Eq)]
pub enum Answer {
    /// Cells, log and distances are written, in every method but 4 the parents
    /// too, and in method 5 the route.
    Ran(Report),
    /// Refusal 12: cells and log are written, distances, parents and route are not.
    NegativeCycle(Report),
    /// No buffer has changed.
    Refused(Refusal),
}

/// The routes of a request that ran.
#[derive(Clone, Debug, PartialEq, Eq)]
pub struct Routes {
    pub header: Header,
    pub report: Report,
    /// `None` where no walk from the source leads. In method 4 the distances
    /// from every vertex: with n vertices, `distances[i * n + j]` is that of `j`
    /// from `i`, and [`rows`](Routes::rows) has them by `i`.
    pub distances: Vec<Option<i64>>,
    /// The last edge's number in methods 1, 3 and 5, the last vertex but one in
    /// method 2. Empty in method 4.
    pub parents: Vec<Option<usize>>,
    /// In method 5 the numbers of the edges of a shortest walk to the destination,
    /// the last edge first: none where that is the source or unreached. Empty in
    /// other methods.
    pub route: Vec<usize>,
    pub log: Vec<u64>,
}

impl Routes {
    /// The distances by rows: in method 4 those from vertex 0, from vertex 1 and
    /// so on, in the others one row, from the source.
    pub fn rows(&self) -> impl Iterator<Item = &[Option<i64>]> {
        self.distances.chunks_exact(self.header.vertices as usize)
    }
}

/// Runs a request in the buffers lent. The parents' is looked at in every method
/// but 4, the route's in method 5 alone: where they are not, they may have any
/// length and stay as they are.
pub fn run(
    request: &[u64],
    cells: &mut [i64],
    log: &mut [u64],
    distances: &mut [i64],
    parents: &mut [i64],
    route: &mut [i64],
) -> Answer {
    let mut answer = Numbers::default();
    // SAFETY: each pointer and length come from one live slice, never null;
    // the exclusive borrows do not overlap, and the library keeps none of them.
    unsafe {
        vukstaja_run(
            request.as_ptr(),
            request.len(),
            cells.as_mut_ptr(),
            cells.len(),
            log.as_mut_ptr(),
            log.len(),
            distances.as_mut_ptr(),
            distances.len(),
            parents.as_mut_ptr(),
            parents.len(),
            route.as_mut_ptr(),
            route.len(),
            &mut answer,
        );
    }
    let [number, _, _, rounds, log_length, verdict, ..] = answer;
    let report = Report {
        rounds,
        log_length,
        verdict,
    };
    match number {
        0 => Answer::Ran(report),
        NEGATIVE_CYCLE => Answer::NegativeCycle(report),
        _ => Answer::Refused(refusal(&answer)),
    }
}

/// Runs a foreign plan on the cells lent.
pub fn run_plan(plan: &[u64], cells: &mut [i64], log: &mut [u64]) -> Result<PlanReport, Refusal> {
    let mut answer = Numbers::default();
    // SAFETY: each pointer and length come from one live slice, never null;
    // the exclusive borrows do not overlap, and the library keeps none of them.
    unsafe {
        vukstaja_run_plan(
            plan.as_ptr(),
            plan.len(),
            cells.as_mut_ptr(),
            cells.len(),
            log.as_mut_ptr(),
            log.len(),
            &mut answer,
        );
    }
    let [number, _, _, rounds, log_length, ..] = answer;
    match number {
        0 => Ok(PlanReport { rounds, log_length }),
        _ => Err(refusal(&answer)),
    }
}

/// Writes the plan of a header, the first word given, and answers its length.
pub fn write_plan(header: &[u64], plan: &mut [u64]) -> Result<u64, Refusal> {
    let mut answer = Numbers::default();
    // SAFETY: each pointer and length come from one live slice, never null;
    // the exclusive borrow does not overlap, and the library keeps neither.
    unsafe {
        vukstaja_write_plan(
            header.as_ptr(),
            header.len(),
            plan.as_mut_ptr(),
            plan.len(),
            &mut answer,
        );
    }
    match answer[0] {
        0 => Ok(answer[3]),
        _ => Err(refusal(&answer)),
    }
}

/// Tells what a header, the first word given, asks a caller to lend.
pub fn sizes(header: &[u64]) -> Result<Sizes, Refusal> {
    let mut answer = Numbers::default();
    // SAFETY: the pointer and length come from one live slice, never null,
    // and the library does not keep it.
    unsafe {
        vukstaja_sizes(header.as_ptr(), header.len(), &mut answer);
    }
    let [number, _, _, cells, log, distances, parents, route] = answer;
    match number {
        0 => Ok(Sizes {
            cells: cells as usize,
            log: log as usize,
            distances: distances as usize,
            parents: parents as usize,
            route: route as usize,
        }),
        _ => Err(refusal(&answer)),
    }
}

/// Converts, in place, distances that were saved before weights came in
/// hundredths: [`OLD_UNREACHED`] becomes [`UNREACHED`], and every other distance
/// a hundredfold. A word that is neither the old mark nor from -31,000,000 to
/// 31,000,000 is refused, with number 11 and the lowest such place, and then no
/// word is changed.
///
/// Convert distances once. Those without the mark may pass a second time, and
/// would be a hundredfold again.
///
/// ```
/// use vukstaja::{OLD_UNREACHED, UNREACHED};
///
/// let mut saved = [0, -5, OLD_UNREACHED];
/// vukstaja::convert(&mut saved)?;
/// assert_eq!(saved, [0, -500, UNREACHED]);
///
/// let mut saved = [0, OLD_UNREACHED, 31_000_001];
/// let refusal = vukstaja::convert(&mut saved).unwrap_err();
/// assert_eq!((refusal.number, refusal.place), (11, Some(2)));
/// assert_eq!(saved, [0, OLD_UNREACHED, 31_000_001]);
/// # Ok::<(), vukstaja::Refusal>(())
/// ```
pub fn convert(saved: &mut [i64]) -> Result<(), Refusal> {
    let mut answer = Numbers::default();
    // SAFETY: the pointer and length come from one live slice, never null;
    // the exclusive borrow does not overlap, and the library does not keep it.
    unsafe {
        vukstaja_convert(saved.as_mut_ptr(), saved.len(), &mut answer);
    }
    match answer[0] {
        0 => Ok(()),
        _ => Err(refusal(&answer)),
    }
}

/// Runs a request in buffers of the lengths its header asks for.
pub fn solve(request: &[u64]) -> Result<Routes, Refusal> {
    let sizes = sizes(request)?;
    let header = Header::from_word(request[0]).expect("a header with sizes has a method");
    let mut cells = vec![0; sizes.cells];
    let mut log = vec![0; sizes.log];
    let mut distances = vec![0; sizes.distances];
    let mut parents = vec![0; sizes.parents];
    let mut route = vec![0; sizes.route];
    let answer = run(
        request,
        &mut cells,
        &mut log,
        &mut distances,
        &mut parents,
        &mut route,
    );
    match answer {
        Answer::Ran(report) => Ok(Routes {
            header,
            report,
            distances: distances.into_iter().map(reached).collect(),
            parents: parents.into_iter().map(known).collect(),
            route: route.into_iter().map_while(known).collect(),
            log,
        }),
        Answer::NegativeCycle(_) => Err(Refusal {
            number: NEGATIVE_CYCLE,
            place: None,
        }),
        Answer::Refused(refusal) => Err(refusal),
    }
}

fn reached(distance: i64) -> Option<i64> {
    (distance != UNREACHED).then_some(distance)
}

fn known(parent: i64) -> Option<usize> {
    (parent != NO_PARENT).then_some(parent as usize)
}

fn refusal(answer: &Numbers) -> Refusal {
    Refusal {
        number: answer[0],
        place: (answer[1] == 1).then_some(answer[2]),
    }
}
