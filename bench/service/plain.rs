//! The same by plain loops, on one thread whatever the workers are.
use std::collections::HashMap;
use std::io::{self, BufRead};
use std::time::Instant;

#[derive(Clone)]
struct Order {
    customer: String,
    cents: i64,
}

fn scattered(i: u32) -> u32 {
    i.wrapping_mul(2_654_435_761) >> 8
}

fn orders(count: u32) -> Vec<Order> {
    let made = |i| Order {
        customer: format!("customer {}", scattered(i) % 1000),
        cents: i64::from(scattered(i) / 1000 % 10_000),
    };
    (0..count).map(made).collect()
}

fn pairs(count: u32) -> Vec<(i64, i64)> {
    (0..count).map(|i| (i64::from(scattered(i) % 1000), i64::from(scattered(i) / 1000 % 10_000))).collect()
}

fn log(count: u32) -> String {
    let mut log = String::new();
    for i in 0..count {
        if i >= count / 5 * 2 && i % 100 == 0 {
            log.push_str(&format!("ERROR request {i} failed\n"));
        } else {
            log.push_str(&format!("INFO request {i} took {} ms\n", scattered(i) % 1000));
        }
    }
    log
}

fn numbers(count: u32) -> Vec<i64> {
    (0..count).map(|i| if i < count / 5 * 2 { i64::from(scattered(i) % 3) } else { 5 }).collect()
}

/// The nanoseconds that a task took, and what is told of its answer.
fn timed<T>(task: impl FnOnce() -> T, told: impl FnOnce(&T) -> String) -> (u128, String) {
    let start = Instant::now();
    let answer = task();
    let time = start.elapsed().as_nanos();
    (time, told(&answer))
}

fn best_five(orders: &[Order]) -> Vec<(i64, String)> {
    let mut sums: HashMap<&str, i64> = HashMap::new();
    for order in orders {
        if order.cents > 1000 {
            *sums.entry(&order.customer).or_insert(0) += order.cents;
        }
    }
    let mut rows: Vec<_> = sums.into_iter().map(|(customer, cents)| (cents, customer.to_string())).collect();
    rows.sort();
    rows.reverse();
    rows.truncate(5);
    rows
}

fn words_by_length(log: &str) -> HashMap<usize, i64> {
    let mut counts = HashMap::new();
    for line in log.lines() {
        for word in line.split(' ') {
            *counts.entry(word.len()).or_insert(0) += 1;
        }
    }
    counts
}

fn errors(log: &str) -> String {
    let mut text = String::from("<");
    for line in log.lines() {
        if line.starts_with("ERROR") {
            if text.len() > 1 {
                text.push_str(" | ");
            }
            text.push_str(line);
        }
    }
    text.push('>');
    text
}

fn even_squares(count: i64) -> i64 {
    let mut sum = 0i64;
    for x in 0..count {
        if x % 2 == 0 {
            sum = sum.wrapping_add(x.wrapping_mul(x));
        }
    }
    sum
}

fn run_case(case: &str, count: u32) -> (u128, String) {
    let told = |list: &Vec<&Order>| format!("{} {}", list.len(), list.iter().map(|order| order.cents).sum::<i64>());
    let told_clones = |list: &Vec<Order>| format!("{} {}", list.len(), list.iter().map(|order| order.cents).sum::<i64>());
    let told_pairs = |list: &Vec<(i64, i64)>| format!("{} {}", list.len(), list.iter().map(|pair| pair.1).sum::<i64>());
    match case {
        "orders" => {
            let list = orders(count);
            timed(|| best_five(&list), |rows| rows.iter().map(|(cents, customer)| format!("{cents}:{customer};")).collect())
        }
        "all" => {
            let list = orders(count);
            timed(|| list.iter().collect(), told)
        }
        "dear" => {
            let list = orders(count);
            timed(|| list.iter().filter(|order| order.cents > 1000).collect(), told)
        }
        "clones" => {
            let list = orders(count);
            timed(|| list.clone(), told_clones)
        }
        "dear-clones" => {
            let list = orders(count);
            timed(|| list.iter().filter(|order| order.cents > 1000).cloned().collect(), told_clones)
        }
        "pairs" => {
            let list = pairs(count);
            timed(|| list.to_vec(), told_pairs)
        }
        "dear-pairs" => {
            let list = pairs(count);
            timed(|| list.iter().filter(|pair| pair.1 > 1000).copied().collect(), told_pairs)
        }
        "words" => {
            let log = log(count);
            let bytes = |counts: &HashMap<usize, i64>| counts.iter().map(|(length, words)| *length as i64 * words).sum::<i64>();
            timed(|| words_by_length(&log), |counts| format!("{} {}", counts.len(), bytes(counts)))
        }
        "first-error" => {
            let log = log(count);
            timed(|| log.lines().find(|line| line.starts_with("ERROR")), |line| line.unwrap_or("").to_string())
        }
        "errors" => {
            let log = log(count);
            timed(|| errors(&log), |text| text.len().to_string())
        }
        "squares" => timed(|| even_squares(i64::from(count)), |sum| sum.to_string()),
        _ => {
            let list = numbers(count);
            timed(|| list.iter().copied().take_while(|x| *x < 3).collect::<Vec<i64>>(), |front| front.len().to_string())
        }
    }
}

fn main() {
    for line in io::stdin().lock().lines() {
        let line = line.unwrap();
        let words: Vec<&str> = line.split(' ').collect();
        let (time, answer) = run_case(words[0], words[2].parse().unwrap());
        println!("{}-{}x{} {time} {answer}", words[0], words[1], words[2]);
    }
}
