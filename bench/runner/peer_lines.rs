//! A pipeline file of lines grouped by length, as one would write it by hand: the file is read, its lines are cut, each thread counts
//! its share, and the lengths are written in the order of their first lines. Words: the file, the threads.

use std::collections::HashMap;
use std::{env, fs, thread};

/// Lengths and how many lines have them, in the order of their first lines.
#[derive(Default)]
struct Counts {
    numbers: Vec<(usize, u64)>,
    places: HashMap<usize, usize>,
}

impl Counts {
    fn of(lines: &[&str]) -> Counts {
        let mut counts = Counts::default();
        for line in lines {
            counts.add(line.len(), 1);
        }
        counts
    }

    fn add(&mut self, length: usize, number: u64) {
        let place = *self.places.entry(length).or_insert(self.numbers.len());
        match self.numbers.get_mut(place) {
            Some((_, sum)) => *sum += number,
            None => self.numbers.push((length, number)),
        }
    }
}

/// The texts of a pipeline file: as many as its second line says, from its third line on.
fn texts(file: &str) -> Vec<&str> {
    let mut lines = file.lines().skip(1);
    let count = lines.next().unwrap().split(' ').nth(1).unwrap().parse().unwrap();
    let mut texts = Vec::with_capacity(count);
    texts.extend(lines.take(count));
    texts
}

fn main() {
    let words: Vec<String> = env::args().collect();
    let threads: usize = words[2].parse().unwrap();
    let file = fs::read_to_string(&words[1]).unwrap();
    let texts = texts(&file);
    let counts = thread::scope(|scope| {
        let mut shares = texts.chunks(texts.len().div_ceil(threads).max(1));
        let first = shares.next().unwrap_or_default();
        let others: Vec<_> = shares.map(|share| scope.spawn(move || Counts::of(share))).collect();
        let mut counts = Counts::of(first);
        for other in others {
            for (length, number) in other.join().unwrap().numbers {
                counts.add(length, number);
            }
        }
        counts
    });
    let entries: Vec<String> = counts.numbers.iter().map(|(length, number)| format!("{length}={number}")).collect();
    println!("{{{}}}", entries.join(", "));
}
