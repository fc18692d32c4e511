//! A difference, and a sum from 1, over 0 to 999: what rayon's `reduce` answers, and the sequential fold.

use rayon::prelude::*;

fn answers(name: &str, identity: i64, operator: impl Fn(i64, i64) -> i64 + Sync + Send) {
    let parallel = (0..1000).into_par_iter().reduce(|| identity, &operator);
    let sequential = (0..1000).fold(identity, &operator);
    println!("{name}: {parallel}, sequential: {sequential}");
}

fn main() {
    answers("difference", 0, |a, b| a - b);
    answers("sum from 1", 1, |a, b| a + b);
}
