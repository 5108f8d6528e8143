//! The formatter once more, written apart from the command and with other means: readers that take the longest front, what may stand
//! where asked of the finished tree, and measures computed from the back.

pub mod command;
pub mod depth;
pub mod doc;
pub mod layout;
pub mod lex;
pub mod map;
pub mod nest;
pub mod random;
pub mod read;
pub mod refuse;
pub mod render;
pub mod rng;
pub mod sample;
pub mod source;
pub mod tree;
pub mod written;
pub mod xid;
