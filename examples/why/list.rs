//! A list of ten million numbers, where 60 MB are allowed.

use std::hint::black_box;

fn main() {
    let numbers: Vec<i64> = black_box((0..10_000_000).collect());
    println!("{}", numbers.len());
}
