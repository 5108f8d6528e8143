//! Made by scripts/rust.sh from crates/lay_args/src/numbers.rt, which is proved: change that.
//!
//! Parsing of the numbers in a command line.
/// The greatest number of digits of a seed: that of the greatest 64-bit number.
const SEED_DIGITS: usize = 20;
/// The greatest number of digits of a number of items.
const ITEM_DIGITS: usize = 6;
/// The greatest number of items of a sample.
const MOST_ITEMS: u64 = 200_000;
/// Parses the argument of `--sample`; `None` if it is no number in range.
pub fn seed(text: &str) -> Option<u64> {
    number(text, SEED_DIGITS, u64::MAX)
}
/// Parses the argument of `--items`; `None` if it is no number in range.
pub fn item_count(text: &str) -> Option<u32> {
    let count = number(text, ITEM_DIGITS, MOST_ITEMS)?;
    Some(count as u32)
}
/// Parses a number of 1 to `digits` decimal digits that is at most `limit`; else `None`.
fn number(text: &str, digits: usize, limit: u64) -> Option<u64> {
    if text.len() > digits || text.starts_with('+') {
        return None;
    }
    match text.parse::<u64>() {
        Ok(value) if value <= limit => Some(value),
        _ => None,
    }
}
