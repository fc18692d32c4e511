//! The same by std's stable sort, of which threads by hand each sort a part: two halves at a time are sorted and merged, and a merge is cut in two at
//! the middle of its longer side, until each thread has one piece of the work.
use std::collections::BinaryHeap;
use std::io::{self, BufRead};
use std::thread;
use std::time::Instant;

fn scattered(count: usize) -> Vec<i64> {
    let mut number: i64 = 1;
    let mut numbers = Vec::new();
    for _ in 0..count {
        number = number.wrapping_mul(6364136223846793005).wrapping_add(1442695040888963407);
        numbers.push(number >> 16);
    }
    numbers
}

fn mixed(numbers: impl Iterator<Item = i64>) -> i64 {
    numbers.fold(0, |mixed: i64, number| mixed.wrapping_mul(31).wrapping_add(number))
}

fn both(threads: usize, left: impl FnOnce() + Send, right: impl FnOnce() + Send) {
    if threads == 1 {
        left();
        right();
    } else {
        thread::scope(|scope| {
            scope.spawn(right);
            left();
        });
    }
}

/// Merges two sorted lists; of equal keys those of the left one come first.
fn merge<K: Fn(&i64) -> i64 + Sync>(key: &K, threads: usize, left: &[i64], right: &[i64], out: &mut [i64]) {
    if threads == 1 {
        let (mut l, mut r) = (left.iter().peekable(), right.iter().peekable());
        for place in out {
            let is_left = match (l.peek(), r.peek()) {
                (Some(x), Some(y)) => key(x) <= key(y),
                (x, _) => x.is_some(),
            };
            *place = *if is_left { l.next() } else { r.next() }.unwrap();
        }
        return;
    }
    let (i, j) = if left.len() >= right.len() {
        let i = left.len() / 2;
        (i, right.partition_point(|x| key(x) < key(&left[i])))
    } else {
        let j = right.len() / 2;
        (left.partition_point(|x| key(x) <= key(&right[j])), j)
    };
    let (front, back) = out.split_at_mut(i + j);
    both(
        threads,
        || merge(key, threads / 2, &left[..i], &right[..j], front),
        || merge(key, threads / 2, &left[i..], &right[j..], back),
    );
}

fn sort<K: Fn(&i64) -> i64 + Sync>(key: &K, threads: usize, list: &mut [i64], room: &mut [i64]) {
    if threads == 1 {
        list.sort_by_key(key);
        return;
    }
    let half = list.len() / 2;
    let (left, right) = list.split_at_mut(half);
    let (front, back) = room.split_at_mut(half);
    both(threads, || sort(key, threads / 2, left, front), || sort(key, threads / 2, right, back));
    merge(key, threads, left, right, room);
    list.copy_from_slice(room);
}

fn sorted<K: Fn(&i64) -> i64 + Sync>(key: K, threads: usize, numbers: &[i64]) -> Vec<i64> {
    let mut list = numbers.to_vec();
    let mut room = if threads == 1 { Vec::new() } else { vec![0; list.len()] };
    sort(&key, threads, &mut list, &mut room);
    list
}

/// The hundred least, of which each thread keeps its own in a heap.
fn first(threads: usize, numbers: &[i64]) -> Vec<i64> {
    let least = |part: &[i64]| {
        let mut heap = BinaryHeap::new();
        for &number in part {
            if heap.len() < 100 {
                heap.push(number);
            } else if heap.peek().is_some_and(|&greatest| number < greatest) {
                *heap.peek_mut().unwrap() = number;
            }
        }
        heap.into_vec()
    };
    let mut all: Vec<i64> = thread::scope(|scope| {
        let parts: Vec<_> = numbers.chunks(numbers.len().div_ceil(threads)).map(|part| scope.spawn(move || least(part))).collect();
        parts.into_iter().flat_map(|part| part.join().unwrap()).collect()
    });
    all.sort();
    all.truncate(100);
    all
}

fn main() {
    for line in io::stdin().lock().lines() {
        let line = line.unwrap();
        let words: Vec<&str> = line.split(' ').collect();
        let (workers, count): (usize, usize) = (words[1].parse().unwrap(), words[2].parse().unwrap());
        let numbers = scattered(count);
        let start = Instant::now();
        let is_by_key = words[0] == "by_key";
        let list = match words[0] {
            "by_key" => sorted(|x| x.rem_euclid(1000), workers, &numbers),
            "first" => first(workers, &numbers),
            _ => sorted(|x| *x, workers, &numbers),
        };
        let time = start.elapsed().as_nanos();
        let mixed = mixed(list.into_iter().map(|x| if is_by_key { x.rem_euclid(1000) } else { x }));
        println!("{}-{workers}x{count} {time} {mixed}", words[0]);
    }
}
