//! The tests of the map from output to source.

mod maps;
