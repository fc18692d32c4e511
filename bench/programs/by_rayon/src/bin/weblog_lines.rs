//! The answers of `weblog` by rayon in the fewest lines: lines through a bridge.
use by_rayon::Answers;
use rayon::prelude::*;
use std::fs::File;
use std::io::{stdin, BufRead, BufReader, Read};

fn main() {
    let reader: Box<dyn Read + Send> = match std::env::args().nth(1) {
        Some(name) => Box::new(File::open(name).expect("a log")),
        None => Box::new(stdin()),
    };
    let lines = BufReader::new(reader).lines().map(|line| line.expect("UTF-8") + "\n").enumerate().par_bridge();
    let answers = lines.fold(Answers::default, |answers, (number, line)| answers.take((number, &line)));
    answers.reduce(Answers::default, Answers::merge).tell();
}
