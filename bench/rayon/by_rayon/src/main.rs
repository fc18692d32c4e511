//! The forty tasks by rayon, and with the word `loop` by std's iterators on one thread. Words: FOLDER [loop]. For each line
//! `TASK WORKERS` of standard input it prints the nanoseconds, and a number that depends on the answer.
mod by_loop;
mod by_rayon;
mod data;

use data::{Answer, Data, Lists};
use std::io;
use std::time::Instant;

fn main() {
    let words: Vec<String> = std::env::args().collect();
    let is_loop = words.get(2).is_some_and(|word| word == "loop");
    let data = Data::read(&words[1]);
    let lists = Lists::of(&data);
    for line in io::stdin().lines() {
        let line = line.unwrap();
        let (task, workers) = line.split_once(' ').unwrap();
        let pool = rayon::ThreadPoolBuilder::new().num_threads(workers.parse().unwrap()).build().unwrap();
        let run = || if is_loop { by_loop::run(&lists, task) } else { pool.install(|| by_rayon::run(&lists, task)) };
        let calls = data::calls(task);
        let (mut least, mut answer) = (u128::MAX, Answer::Number(0));
        for _ in 0..calls {
            let start = Instant::now();
            answer = run();
            least = least.min(start.elapsed().as_nanos());
        }
        println!("{task}-{workers} {least} {}", answer.mixed());
    }
}
