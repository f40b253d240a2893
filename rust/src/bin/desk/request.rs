//! The predicates that a clerk gives, and masks of them.

use crate::number::Number;
use crate::words::listed;

/// The mask of some predicates. A number that has no bit in a mask gets the highest, which the
/// library refuses as it does every bit that stands for no predicate.
pub fn mask(predicates: &Option<Vec<Number>>) -> u32 {
    let bits = predicates.iter().flatten().map(|number| 1 << number.value.min(u32::BITS - 1));
    bits.fold(0, |mask: u32, bit: u32| mask | bit)
}

/// The predicates of a mask.
pub fn predicates(mask: u32) -> impl Iterator<Item = u32> {
    (0..u32::BITS).filter(move |i| mask >> i & 1 == 1)
}

/// A request in words: "predicates 0 and 1 yes, all others no".
pub fn in_words(yes: u32) -> String {
    match yes.count_ones() {
        0 => "all predicates no".to_owned(),
        1 => format!("predicate {} yes, all others no", yes.trailing_zeros()),
        _ => format!("predicates {} yes, all others no", listed(predicates(yes), "and")),
    }
}
