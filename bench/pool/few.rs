//! Starts and joins four threads and writes the sum of ten numbers.
use std::thread;

fn main() {
    let threads: Vec<_> = (0..4i64).map(|worker| thread::spawn(move || (worker * 10 / 4..(worker + 1) * 10 / 4).sum::<i64>())).collect();
    let sum: i64 = threads.into_iter().map(|thread| thread.join().unwrap()).sum();
    println!("{sum}");
}
