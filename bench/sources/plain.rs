//! The same readings by plain Rust: loops over ranges, slices and deques, and `str::lines`.
use std::collections::VecDeque;
use std::io::{self, BufRead};
use std::time::Instant;

const SLICE: u32 = 10_000;
const TEXT: u32 = 60_000;

fn mixed(start: i64, items: impl Iterator<Item = i64>) -> i64 {
    let mut mix = start;
    for item in items {
        mix = (mix ^ item).rotate_left(7);
    }
    mix
}

fn total(start: i64, items: &[i64]) -> i64 {
    let mut sum = start;
    for item in items {
        sum = sum.wrapping_add(*item);
    }
    sum
}

fn line_bytes(start: i64, text: &str) -> i64 {
    let mut sum = start;
    for line in text.lines() {
        let first = line.as_bytes().first().copied().unwrap_or(0);
        sum = sum
            .wrapping_add(i64::from(first))
            .wrapping_add((line.len() & 0xffff) as i64);
    }
    sum
}

fn measure(name: &str, rounds: u32, mut read: impl FnMut(i64) -> i64) {
    let start = Instant::now();
    let mut value = 0;
    for _ in 0..rounds {
        value = read(value);
    }
    println!("{name} {} {value}", start.elapsed().as_nanos());
}

fn measure_lines(name: &str, bytes: u32, line: &str) {
    let text = line.repeat(TEXT as usize / line.len());
    measure(name, bytes / TEXT, |start| line_bytes(start, &text));
}

fn main() {
    for line in io::stdin().lock().lines() {
        let count: u32 = line.unwrap().parse().unwrap_or(0);
        let end = i64::from(count);
        measure("range", 1, |start| mixed(start, 0..end));
        measure("range_of_either", 1, |start| mixed(start, 0..end));
        measure("two_ranges", 1, |start| mixed(mixed(start, 0..end / 2), end / 2..end));
        let numbers: Vec<i64> = (0..i64::from(SLICE)).collect();
        let queue: VecDeque<i64> = numbers.iter().copied().collect();
        let rounds = count / SLICE;
        measure("slice", rounds, |start| mixed(start, numbers.iter().copied()));
        measure("slice_sum", rounds, |start| total(start, &numbers));
        measure("deque", rounds, |start| mixed(start, queue.iter().copied()));
        measure_lines("short_lines", count, "ab\n");
        measure_lines("lines", count, "a line of thirty bytes, or so\n");
        measure_lines(
            "long_lines",
            count,
            "a line of more than a hundred bytes, which goes on, and on, and on, and on, and on, and on, and on, and on\n",
        );
    }
}
