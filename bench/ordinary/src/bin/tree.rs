//! Parses a TOML file so many times with the crate toml, and does nothing with it: `tree FILE TIMES`.

use std::hint::black_box;

fn main() {
    let words: Vec<String> = std::env::args().collect();
    let text = std::fs::read_to_string(&words[1]).unwrap();
    let times: u64 = words[2].parse().unwrap();
    let mut keys = 0;
    for _ in 0..times {
        let tree: toml::value::Table = toml::from_str(black_box(&text)).unwrap();
        keys += black_box(tree).len();
    }
    println!("{keys}");
}
