//! The same by plain Rust: loops, `Vec::push`, std's `HashMap`, and a map in insertion order written by hand.
use std::collections::HashMap;
use std::hint::black_box;
use std::io::{self, BufRead};
use std::time::Instant;

const ROUNDS: usize = 20;

fn measure(name: &str, mut fold: impl FnMut() -> i64) {
    for _ in 0..ROUNDS {
        let start = Instant::now();
        let value = fold();
        println!("{name} {} {value}", start.elapsed().as_nanos());
    }
}

/// Entries in insertion order behind a table of their places, by open addressing, that doubles at seven eighths.
struct Ordered {
    entries: Vec<(i64, i64)>,
    places: Vec<u32>,
}

const FREE: u32 = u32::MAX;

fn hashed(key: i64) -> usize {
    let product = u128::from(0x243f_6a88_85a3_08d3 ^ key as u64) * 0x9e37_79b9_7f4a_7c15;
    (product as u64 ^ (product >> 64) as u64) as usize
}

impl Ordered {
    fn new() -> Ordered {
        Ordered { entries: Vec::new(), places: vec![FREE; 8] }
    }

    fn place(&self, key: i64) -> usize {
        let mask = self.places.len() - 1;
        let mut at = hashed(key) & mask;
        while self.places[at] != FREE && self.entries[self.places[at] as usize].0 != key {
            at = (at + 1) & mask;
        }
        at
    }

    fn value(&mut self, key: i64) -> &mut i64 {
        let mut at = self.place(key);
        if self.places[at] == FREE {
            if (self.entries.len() + 1) * 8 > self.places.len() * 7 {
                self.grow();
                at = self.place(key);
            }
            self.places[at] = self.entries.len() as u32;
            self.entries.push((key, 0));
        }
        &mut self.entries[self.places[at] as usize].1
    }

    fn grow(&mut self) {
        self.places = vec![FREE; self.places.len() * 2];
        for number in 0..self.entries.len() {
            let at = self.place(self.entries[number].0);
            self.places[at] = number as u32;
        }
    }
}

fn group(numbers: &[i64]) -> i64 {
    let mut counts: HashMap<i64, i64> = HashMap::new();
    for x in numbers {
        *counts.entry(x.rem_euclid(1000)).or_insert(0) += 1;
    }
    counts[&numbers[0].rem_euclid(1000)]
}

fn group_by_hand(numbers: &[i64]) -> i64 {
    let mut counts = Ordered::new();
    for x in numbers {
        *counts.value(x.rem_euclid(1000)) += 1;
    }
    counts.entries[0].1
}

fn group_words(texts: &[&str]) -> i64 {
    let mut counts: HashMap<&str, i64> = HashMap::new();
    for text in texts {
        *counts.entry(text).or_insert(0) += 1;
    }
    counts[texts[0]]
}

fn sum(numbers: &[i64]) -> i64 {
    let mut sum: i64 = 0;
    for x in numbers {
        sum = sum.wrapping_add(*x);
    }
    sum
}

fn count(numbers: &[i64]) -> i64 {
    let mut count = 0;
    for x in numbers {
        if *x > 0 {
            count += 1;
        }
    }
    count
}

fn list(numbers: &[i64]) -> i64 {
    let mut list = Vec::new();
    for x in numbers {
        list.push(*x);
    }
    *black_box(list).last().unwrap()
}

fn main() {
    for line in io::stdin().lock().lines() {
        let length: u32 = line.unwrap().parse().unwrap();
        let mut number: i64 = 1;
        let mut numbers = Vec::new();
        for _ in 0..length {
            number = number
                .wrapping_mul(6364136223846793005)
                .wrapping_add(1442695040888963407);
            numbers.push(number >> 16);
        }
        measure("count", || count(black_box(&numbers)));
        measure("sum", || sum(black_box(&numbers)));
        measure("list", || list(black_box(&numbers)));
        measure("group", || group(black_box(&numbers)));
        measure("group_by_hand", || group_by_hand(black_box(&numbers)));
        measure("group_random", || group(black_box(&numbers)));
        let words: Vec<String> = (0..1000).map(|number| format!("word number {number}")).collect();
        let texts: Vec<&str> = numbers
            .iter()
            .map(|x| words[x.rem_euclid(1000) as usize].as_str())
            .collect();
        measure("words", || group_words(black_box(&texts)));
        measure("words_random", || group_words(black_box(&texts)));
    }
}
