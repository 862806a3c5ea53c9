//! A log carried out on numbers of 128 bits, which no sum can pass: so each ADD of
//! a run is found to be exact, and how far its sums reach.

use crate::reference::plan::{lay, split, Public, FAR};

/// The highest weight.
const MOST: i128 = 100_000_000;

/// What stands for a pair that no walk joins while method 4 runs.
pub const HIGH: i128 = (FAR as i128) << 20;

/// The furthest from 0 and from [`HIGH`] that an entry of method 4's table is
/// after so many stages.
pub fn band(stages: u64) -> i128 {
    MOST << stages
}

/// The least and the greatest sum that a run may form.
pub fn bounds(public: &Public) -> [i128; 2] {
    match public.method {
        // A stage adds two entries that the stages before it left.
        4 => [-band(public.n), 2 * HIGH],
        _ => [-i128::from(FAR), 2 * i128::from(FAR)],
    }
}

/// A bank of cells, and the least and the greatest sum formed on it so far.
pub struct Carrier {
    pub cells: Vec<i128>,
    pub least: i128,
    pub greatest: i128,
}

impl Carrier {
    /// The bank that a request's run starts on, of these cells lent.
    pub fn new(request: &[u64], mut lent: Vec<i64>) -> Carrier {
        lay(&Public::read(request[0]), &request[1..], &mut lent);
        Carrier {
            cells: lent.into_iter().map(i128::from).collect(),
            least: 0,
            greatest: 0,
        }
    }

    /// Carries out a part of a log, without the header. A published word must
    /// be the cell that was opened.
    pub fn carry_out(&mut self, words: &[u64]) {
        let mut words = words.iter();
        while let Some(&word) = words.next() {
            let (op, d, a, b) = split(word);
            let [to, left, right] = [d, a, b].map(|address| address as usize);
            let cells = &mut self.cells;
            match op {
                0 => cells[to] = (i128::from(a << 20 | b) << 88) >> 88,
                1 => cells[to] = cells[left],
                2 => {
                    let sum = cells[left] + cells[right];
                    self.least = self.least.min(sum);
                    self.greatest = self.greatest.max(sum);
                    cells[to] = sum;
                }
                3 => cells[to] = i128::from(cells[left] < cells[right]),
                4 => cells[to] = i128::from(cells[left] == cells[right]),
                5 => cells[to] = i128::from(cells[left] != 0 && cells[right] != 0),
                6 if cells[left] != 0 => cells[to] = cells[right],
                6 => (),
                7 => {
                    let published = words.next().map(|&word| i128::from(word as i64));
                    assert_eq!(published, Some(cells[left]));
                }
                _ => panic!("op {op} was carried out"),
            }
        }
    }
}
