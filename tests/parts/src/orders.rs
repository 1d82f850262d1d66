//! Tables of values in rising order: equality, order and hash.
use std::hash::{DefaultHasher, Hash, Hasher};
use std::test::Fail;

/// Asserts that equality, order and hash go by the places of the values, in two tables with equal values in rising
/// order.
pub fn assert_rising<T: Ord + Hash>(values: &[T], others: &[T]) -> Result<(), Fail> {
    for (place, value) in values.iter().enumerate() {
        if !is_placed(place, value, others) {
            return Err(Fail::new(format_args!("value {place}")));
        }
        if !is_hashed(place, value, others) {
            return Err(Fail::new(format_args!("hash of value {place}")));
        }
    }
    Ok(())
}

/// Whether a value is compared with each of a table in rising order as their places are.
pub fn is_placed<T: Ord>(place: usize, value: &T, others: &[T]) -> bool {
    for (other_place, other) in others.iter().enumerate() {
        let order = place.cmp(&other_place);
        if value.cmp(other) != order || (value == other) != order.is_eq() {
            return false;
        }
    }
    true
}

/// Whether just the value of a table that has this place has the value's hash.
fn is_hashed<T: Hash>(place: usize, value: &T, others: &[T]) -> bool {
    for (other_place, other) in others.iter().enumerate() {
        if (hash_of(value) == hash_of(other)) != (place == other_place) {
            return false;
        }
    }
    true
}

fn hash_of<T: Hash>(value: &T) -> u64 {
    let mut hasher = DefaultHasher::new();
    value.hash(&mut hasher);
    hasher.finish()
}
