//! The answers of `weblog` by rayon: blocks of whole lines through a bridge, a fold in each thread, and maps that are merged at the end.
use by_rayon::{blocks_of, Answers};
use rayon::prelude::*;

fn main() {
    let blocks = blocks_of(std::env::args().nth(1), 2 << 20).enumerate().par_bridge();
    let answers = blocks.fold(Answers::default, |answers, (block, text)| answers.take((block, &text)));
    answers.reduce(Answers::default, Answers::merge).tell();
}
