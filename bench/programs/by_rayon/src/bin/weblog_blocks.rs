//! The answers of `weblog` in the way of ours, by hand: each worker has a block of its own, while the caller's thread reads the next one and merges the
//! first one's answers.
use by_rayon::{blocks_of, Answers};
use std::collections::VecDeque;
use std::thread;

fn main() {
    let workers = std::env::var("RAYON_NUM_THREADS").expect("how many workers").parse().expect("a number");
    let blocks = blocks_of(std::env::args().nth(1), 2 << 20).enumerate();
    let answers = thread::scope(|scope| {
        let (mut whole, mut working) = (Answers::default(), VecDeque::new());
        for (block, text) in blocks {
            if working.len() == workers {
                let first: thread::ScopedJoinHandle<Answers> = working.pop_front().expect("a worker");
                whole = whole.merge(first.join().expect("answers"));
            }
            working.push_back(scope.spawn(move || Answers::default().take((block, &text))));
        }
        working.into_iter().map(|worker| worker.join().expect("answers")).fold(whole, Answers::merge)
    });
    answers.tell();
}
