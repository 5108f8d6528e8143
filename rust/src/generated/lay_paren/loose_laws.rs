//! Made by scripts/rust.sh from crates/lay_paren/src/loose_laws.rt, which is proved: change that.
//!
//! Whether a tree lacks nothing but parentheses, decided on the tree with each part in parentheses.
//!
//! In parentheses a part may stand anywhere. So the tree with each part in parentheses is well
//! formed exactly if the tree itself is loose: [`enclosed_law`].
mod laws;
