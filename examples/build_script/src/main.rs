//! Prints the text that the build script laid out, and the one that it left as it was.

fn main() {
    print!("{}", include_str!(concat!(env!("OUT_DIR"), "/accepted.rs")));
    println!("{}", include_str!(concat!(env!("OUT_DIR"), "/refused.rs")));
}
