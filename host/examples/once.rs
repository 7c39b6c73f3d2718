//! Solves one network of the folder networks once, for a counter of instructions to watch:
//! `cargo run --release --example once archive rp60-64-line-1`, or `baseline` for safe Rust.

use rubblewaltz_host::compare::{Case, Version};
use rubblewaltz_host::{baseline, files, solve};
use std::env;

fn main() {
    let words: Vec<String> = env::args().skip(1).collect();
    let words: Vec<&str> = words.iter().map(String::as_str).collect();
    let (solve, name): (Version, &str) = match words[..] {
        ["archive", name] => (solve, name),
        ["baseline", name] => (baseline::solve, name),
        _ => panic!("archive or baseline, and a network's name"),
    };
    println!("{:?}", Case::unwritten(files::network(name)).call(solve));
}
