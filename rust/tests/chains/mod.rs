//! The rounds of a log as its heaviest chain of words, without any depths.
//!
//! A word leans on the last word before it that wrote a cell which it reads. In a
//! chain each word leans on the one before it, and a chain weighs what the column
//! has for its words.

/// The weight of the heaviest chain among a log's operations, 0 if it has none.
/// The log may name so many cells.
pub fn heaviest(log: &[u64], cells: usize) -> u64 {
    let operations = operations(log);
    // Going back from the last word: what the heaviest chain weighs that begins
    // with a read of the cell, until the word that wrote it is met.
    let mut waiting = vec![0; cells];
    let mut heaviest = 0;
    for word in operations.into_iter().rev() {
        let [d, a, b] = [40, 20, 0].map(|shift| (word >> shift & 0xF_FFFF) as usize);
        let (column, written, read): (u64, &[usize], &[usize]) = match word >> 60 {
            0 => (1, &[d], &[]),
            1 => (0, &[d], &[a]),
            2 => (0, &[d], &[a, b]),
            3 | 4 => (6, &[d], &[a, b]),
            5 => (1, &[d], &[a, b]),
            6 => (1, &[d], &[a, b, d]),
            7 => (1, &[], &[a]),
            op => panic!("op {op} was carried out"),
        };
        let mut weight = column;
        for &cell in written {
            weight += std::mem::take(&mut waiting[cell]);
        }
        for &cell in read {
            waiting[cell] = weight.max(waiting[cell]);
        }
        heaviest = heaviest.max(weight);
    }
    heaviest
}

/// The words of a log without the header and the published ones.
fn operations(log: &[u64]) -> Vec<u64> {
    let mut operations = Vec::with_capacity(log.len());
    let mut words = log.iter().skip(1);
    while let Some(&word) = words.next() {
        operations.push(word);
        if word >> 60 == 7 {
            words.next();
        }
    }
    operations
}
