//! The same calls by rayon, in pools of so many threads that live on; with the word `loop` by a loop of one thread.
use rayon::prelude::*;
use std::hint::black_box;
use std::io;
use std::time::Instant;

fn by_rayon(case: &str, numbers: i64) -> i64 {
    let items = (0..numbers).into_par_iter().filter(|x| x % 2 == 0).map(|x| x.wrapping_mul(3));
    match case {
        "sum" => items.reduce(|| 0, |a: i64, b| a.wrapping_add(b)),
        "none" => items.any(|x| x > i64::MAX - 1) as i64,
        _ => items.collect::<Vec<_>>().len() as i64,
    }
}

fn by_loop(case: &str, numbers: i64) -> i64 {
    let mut items = (0..numbers).filter(|x| x % 2 == 0).map(|x| black_box(x).wrapping_mul(3));
    match case {
        "sum" => items.fold(0, |a: i64, b| a.wrapping_add(b)),
        "none" => items.any(|x| x > i64::MAX - 1) as i64,
        _ => items.collect::<Vec<_>>().len() as i64,
    }
}

fn main() {
    let way = std::env::args().nth(1).unwrap_or_default();
    for line in io::stdin().lines() {
        let line = line.unwrap();
        let words: Vec<&str> = line.split(' ').collect();
        let (case, workers) = (words[0], words[1].parse().unwrap());
        let (numbers, calls): (i64, u32) = (words[2].parse().unwrap(), words[3].parse().unwrap());
        let pool = rayon::ThreadPoolBuilder::new().num_threads(workers).build().unwrap();
        let (mut least, mut answer) = (u128::MAX, 0);
        for _ in 0..calls {
            let start = Instant::now();
            answer = match way.as_str() {
                "loop" => by_loop(case, black_box(numbers)),
                _ => pool.install(|| by_rayon(case, black_box(numbers))),
            };
            least = least.min(start.elapsed().as_nanos());
        }
        println!("{case}-{workers}x{numbers} {least} {answer}");
    }
}
