//! What the plain loops over numbers share: the clock, the numbers of a line, and the loop that both measure.
use std::io::{self, BufRead};
use std::time::Instant;

pub fn measure(name: &str, feed: impl FnOnce() -> i64) {
    let start = Instant::now();
    let value = feed();
    println!("{name} {} {value} true", start.elapsed().as_nanos());
}

/// Reports each line of standard input by its first three numbers; a missing one is 0.
pub fn report_lines(report: impl Fn(i64, i64, i64)) {
    for line in io::stdin().lock().lines() {
        let line = line.unwrap();
        let mut words = line.split(' ').map(|word| word.parse().unwrap_or(0));
        let mut next = || words.next().unwrap_or(0);
        report(next(), next(), next());
    }
}

/// The sum of the multiples that lie below the count.
pub fn sum_below(count: i64, factor: i64) -> i64 {
    let mut sum: i64 = 0;
    for number in 0..count {
        let image = number.wrapping_mul(factor);
        if image < count {
            sum = sum.wrapping_add(image);
        }
    }
    sum
}
