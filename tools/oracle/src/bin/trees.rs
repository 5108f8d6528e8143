//! Writes texts of random trees: `trees SEED COUNT FOLDER` makes the files FOLDER/1.rs to FOLDER/COUNT.rs. Those with an odd number spell a
//! tree, and those with an even one have some tokens changed besides.

use oracle::random::{changed, spelled};
use std::path::Path;
use std::thread;

const STACK: usize = 1 << 30;

fn main() {
    let words: Vec<String> = std::env::args().skip(1).collect();
    let numbers: Vec<u64> = words.iter().take(2).filter_map(|word| word.parse().ok()).collect();
    let ([seed, count], [_, _, folder]) = (&numbers[..], &words[..]) else {
        eprintln!("usage: trees SEED COUNT FOLDER");
        std::process::exit(2)
    };
    let (seed, count, folder) = (*seed, *count, folder.clone());
    let writes = thread::Builder::new().stack_size(STACK).spawn(move || write(seed, count, Path::new(&folder)));
    writes.expect("a thread is had").join().expect("every text is written");
}

fn write(seed: u64, count: u64, folder: &Path) {
    for number in 1..=count {
        let seed = seed.wrapping_mul(1_000_000_007).wrapping_add(number);
        let text = if number % 2 == 1 { spelled(seed) } else { changed(seed) };
        std::fs::write(folder.join(format!("{number}.rs")), text).expect("the folder can be written");
    }
}
