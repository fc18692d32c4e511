//! Runs over a range by hand, on threads that take equal parts. A first number above a limit is looked for behind a cut word that
//! is asked after each 1,024 numbers; with the word `turns` the threads draw blocks of 65,536 numbers in order from one counter instead.
use std::env;
use std::hint::black_box;
use std::io::{self, BufRead};
use std::sync::atomic::{AtomicI64, Ordering};
use std::thread;
use std::time::Instant;

const BLOCK: i64 = 65_536;
const STRETCH: i64 = 1024;

fn sum(workers: i64, numbers: i64, part_sum: impl Fn(i64, i64) -> i64 + Sync) -> i64 {
    thread::scope(|scope| {
        let part_sum = &part_sum;
        let parts: Vec<_> = (1..workers)
            .map(|worker| scope.spawn(move || part_sum(worker * numbers / workers, (worker + 1) * numbers / workers)))
            .collect();
        let first = part_sum(0, numbers / workers);
        parts.into_iter().fold(first, |sum, part| sum.wrapping_add(part.join().unwrap()))
    })
}

/// Looks for the first number above the limit in a part, as long as none left of it was found. Says whether to go on behind it.
fn search(from: i64, to: i64, cut: &AtomicI64, limit: i64) -> bool {
    for start in (from..to).step_by(STRETCH as usize) {
        if cut.load(Ordering::SeqCst) < start {
            return false;
        }
        if let Some(hit) = (start..to.min(start + STRETCH)).find(|&number| limit < black_box(number)) {
            cut.fetch_min(hit, Ordering::SeqCst);
            return false;
        }
    }
    true
}

fn search_in_turns(next: &AtomicI64, cut: &AtomicI64, numbers: i64, limit: i64) {
    loop {
        let from = next.fetch_add(BLOCK, Ordering::SeqCst);
        if from >= numbers || !search(from, numbers.min(from + BLOCK), cut, limit) {
            return;
        }
    }
}

fn first(workers: i64, numbers: i64, limit: i64, turns: bool) -> i64 {
    let (next, cut) = (AtomicI64::new(0), AtomicI64::new(i64::MAX));
    let work = |worker: i64| {
        if turns {
            search_in_turns(&next, &cut, numbers, limit);
        } else {
            search(worker * numbers / workers, (worker + 1) * numbers / workers, &cut, limit);
        }
    };
    thread::scope(|scope| {
        for worker in 1..workers {
            let work = &work;
            scope.spawn(move || work(worker));
        }
        work(0);
    });
    cut.into_inner()
}

/// Runs each line `CASE WORKERS NUMBERS` of standard input, where CASE is `sum` or `first`, and prints its nanoseconds and its answer. A
/// thread sums its part of the numbers by `part_sum`.
pub fn run_cases(part_sum: impl Fn(i64, i64) -> i64 + Sync) {
    let turns = env::args().nth(1).is_some_and(|word| word == "turns");
    for line in io::stdin().lock().lines() {
        let line = line.unwrap();
        let words: Vec<&str> = line.split(' ').collect();
        let (workers, numbers): (i64, i64) = (words[1].parse().unwrap(), words[2].parse().unwrap());
        let start = Instant::now();
        let answer = match words[0] {
            "sum" => sum(workers, numbers, &part_sum),
            _ => first(workers, numbers, numbers / 10 * 4, turns),
        };
        println!("{}-{workers}x{numbers} {} {answer}", words[0], start.elapsed().as_nanos());
    }
}
