//! Distances saved before weights came in hundredths, from the rules.

use super::{ran, refused, Outcome};

/// Marked an unreached vertex.
pub const OLD_FAR: i64 = 1 << 38;

/// No saved distance is further from 0.
pub const OLD_MOST: i64 = 31_000_000;

const FAR: i64 = (1 << 39) - 1;

/// What a word becomes; `None` for a word that no distance of old can be.
fn converted(word: i64) -> Option<i64> {
    if word == OLD_FAR {
        Some(FAR)
    } else if (-OLD_MOST..=OLD_MOST).contains(&word) {
        Some(100 * word)
    } else {
        None
    }
}

/// Converts all words, or refuses the first that cannot be.
pub fn convert(saved: &mut [i64]) -> Outcome {
    if let Some(place) = saved.iter().position(|&word| converted(word).is_none()) {
        return refused(11, Some(place));
    }
    for word in saved {
        *word = converted(*word).expect("every word was looked at");
    }
    ran(0, [0; 5])
}
