//! Made by scripts/rust.sh from crates/lay_sample/src/draws.rt, which is proved: change that.
//!
//! Pseudo-random draws from a seed.
use crate::generated::lay_sample::items::Item;
/// The multiplier of the generator.
const MULTIPLIER: u64 = 6364136223846793005;
/// The increment of the generator.
const INCREMENT: u64 = 1442695040888963407;
/// Draws numbers and items. The state begins as the seed.
#[derive(Debug,)]
pub struct Draws {
    pub state: u64,
}
impl Draws {
    /// Draws an item: its kind, and its number if the kind has one.
    pub fn item(&mut self) -> Item {
        match self.below(4) {
            0 => Item::Struct,
            1 => Item::Use(self.below(1000)),
            2 => Item::Function(self.below(1000)),
            _ => Item::Constant(self.below(100)),
        }
    }
    /// Draws a number below `n`. The lowest 33 bits of the state aren't used, since low bits repeat
    /// with a short period.
    fn below(&mut self, n: u64) -> u64 {
        self.state = self.state.wrapping_mul(MULTIPLIER).wrapping_add(INCREMENT);
        (self.state >> 33) % n
    }
}
