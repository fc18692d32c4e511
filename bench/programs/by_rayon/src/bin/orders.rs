//! The answers of `orders` by rayon: the rows of a CSV file in a list, a fold in each thread, and maps that are merged.
use rayon::prelude::*;
use serde::{Deserialize, Serialize};
use std::collections::HashMap;
use std::fs::File;
use std::io::Read;

#[derive(Deserialize)]
struct Order {
    customer: String,
    cents: i64,
}

#[derive(Serialize)]
struct Spent<'a> {
    customer: &'a str,
    cents: i64,
}

/// The place of each customer's first order, and what all of them come to.
type Sums<'a> = HashMap<&'a str, (usize, i64)>;

fn add<'a>(sums: &mut Sums<'a>, customer: &'a str, place: usize, cents: i64) {
    let sum = sums.entry(customer).or_insert((place, 0));
    *sum = (sum.0.min(place), sum.1.checked_add(cents).expect("a sum of 64 bits"));
}

fn main() {
    let reader: Box<dyn Read> = match std::env::args().nth(1) {
        Some(name) => Box::new(File::open(name).expect("a file")),
        None => Box::new(std::io::stdin()),
    };
    let orders: Vec<Order> = csv::Reader::from_reader(reader).deserialize().collect::<Result<_, _>>().expect("orders");
    let dear = orders.par_iter().enumerate().filter(|(_, order)| order.cents > 1000);
    let sums = dear.fold(Sums::new, |mut sums, (place, order)| {
        add(&mut sums, &order.customer, place, order.cents);
        sums
    });
    let sums = sums.reduce(Sums::new, |mut sums, others| {
        others.into_iter().for_each(|(customer, (place, cents))| add(&mut sums, customer, place, cents));
        sums
    });
    let mut spent: Vec<_> = sums.into_iter().collect();
    spent.sort_unstable_by_key(|(_, (place, cents))| (std::cmp::Reverse(*cents), *place));
    let spent: Vec<_> = spent.iter().take(10).map(|(customer, (_, cents))| Spent { customer, cents: *cents }).collect();
    println!("{}", serde_json::to_string(&spent).expect("JSON"));
}
