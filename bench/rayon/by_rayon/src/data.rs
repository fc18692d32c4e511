//! What the tasks run over, and one number of each answer.

use std::collections::HashMap;
use std::fs;

pub const COUNT: usize = 10_000_000;

pub struct Order {
    pub id: i64,
    pub customer: i64,
    pub country: String,
    pub amount: i64,
}

pub struct Data {
    pub xs: Vec<i64>,
    pub ds: Vec<i64>,
    pub text: String,
    pub others: String,
    pub orders: Vec<Order>,
}

/// Numbers of forty bits, half of them negative.
fn scattered() -> Vec<i64> {
    let mut state = 42i64;
    let mut next = || {
        state = state.wrapping_mul(6364136223846793005).wrapping_add(1442695040888963407);
        state >> 24
    };
    (0..COUNT).map(|_| next()).collect()
}

/// Numbers that all differ.
fn different() -> Vec<i64> {
    let mixed = |place: u64| {
        let z = place.wrapping_mul(0x9e37_79b9_7f4a_7c15);
        let z = (z ^ (z >> 30)).wrapping_mul(0xbf58_476d_1ce4_e5b9);
        let z = (z ^ (z >> 27)).wrapping_mul(0x94d0_49bb_1331_11eb);
        ((z ^ (z >> 31)) >> 1) as i64
    };
    (0..COUNT as u64).map(mixed).collect()
}

fn order(line: &str) -> Order {
    let mut words = line.split(' ');
    let mut next = || words.next().unwrap();
    let (id, customer) = (next().parse().unwrap(), next().parse().unwrap());
    let country = next().to_string();
    let amount = next().parse().unwrap();
    Order { id, customer, country, amount }
}

impl Data {
    pub fn read(folder: &str) -> Data {
        let read = |name: &str| fs::read_to_string(format!("{folder}/{name}")).unwrap();
        let orders = read("orders").lines().map(order).collect();
        Data { xs: scattered(), ds: different(), text: read("words"), others: read("others"), orders }
    }

}

/// The lists that the tasks run over, the words of two texts among them.
pub struct Lists<'a> {
    pub xs: &'a [i64],
    pub ds: &'a [i64],
    pub text: &'a str,
    pub words: Vec<&'a str>,
    pub others: Vec<&'a str>,
    pub orders: &'a [Order],
}

impl<'a> Lists<'a> {
    pub fn of(data: &'a Data) -> Lists<'a> {
        let words = |text: &'a str| text.lines().flat_map(|line| line.split(' ')).collect();
        Lists { xs: &data.xs, ds: &data.ds, text: &data.text, words: words(&data.text), others: words(&data.others), orders: &data.orders }
    }

    /// The number at a share of the list, in thousandths.
    pub fn hit(&self, share: usize) -> i64 {
        self.xs[COUNT / 1000 * share]
    }
}

/// Whether the number that comes of a thousand steps, some ten microseconds of work, is one of the lower half.
pub fn is_dear(x: i64) -> bool {
    (0..1000).fold(x, |y: i64, _| y.wrapping_mul(31).wrapping_add(7).rem_euclid(1_000_003)) < 500_001
}

/// How often a task is called; its shortest call counts.
pub fn calls(task: &str) -> u32 {
    match task {
        "small-10" | "small-100" | "small-1000" => 20_000,
        "small-10000" | "small-100000" => 1_000,
        "dear-1000" | "dear-100" | "uneven" => 20,
        _ => 3,
    }
}

fn text_number(text: &str) -> i64 {
    text.bytes().fold(0i64, |h, byte| h.wrapping_mul(31).wrapping_add(i64::from(byte)))
}

/// Of a list a number that depends on its order.
fn list_number(list: impl Iterator<Item = i64>) -> i64 {
    list.fold(0i64, |h, x| h.wrapping_mul(31).wrapping_add(x))
}

/// Of a map a number that doesn't depend on its order.
fn map_number(entries: impl Iterator<Item = (i64, i64)>) -> i64 {
    let entry = |(key, value): (i64, i64)| (key.wrapping_mul(0x9e3_779b_97f4_a7c1) ^ value).wrapping_mul(0xbf58_476d_1ce4_e5);
    entries.fold(0i64, |sum, it| sum.wrapping_add(entry(it)))
}

pub enum Answer<'a> {
    Number(i64),
    Numbers(Vec<i64>),
    Sides(Vec<i64>, Vec<i64>),
    Counts(HashMap<i64, i64>),
    Lists(HashMap<i64, Vec<i64>>),
    Nested(HashMap<i64, HashMap<i64, i64>>),
    Text(String),
    Words(Vec<&'a str>),
    WordCounts(HashMap<&'a str, i64>),
    Best(Vec<(i64, i64)>),
    Orders(Vec<&'a Order>),
}

impl Answer<'_> {
    pub fn mixed(&self) -> i64 {
        let of_list = |list: &Vec<i64>| list_number(list.iter().copied());
        let of_counts = |map: &HashMap<i64, i64>| map_number(map.iter().map(|(key, count)| (*key, *count)));
        match self {
            Answer::Number(number) => *number,
            Answer::Numbers(list) => of_list(list),
            Answer::Sides(no, yes) => of_list(no) ^ of_list(yes),
            Answer::Counts(map) => of_counts(map),
            Answer::Lists(map) => map_number(map.iter().map(|(key, list)| (*key, of_list(list)))),
            Answer::Nested(map) => map_number(map.iter().map(|(key, inner)| (*key, of_counts(inner)))),
            Answer::Text(text) => text_number(text),
            Answer::Words(words) => list_number(words.iter().map(|word| text_number(word))),
            Answer::WordCounts(map) => map_number(map.iter().map(|(word, count)| (text_number(word), *count))),
            Answer::Best(pairs) => list_number(pairs.iter().map(|(_, sum)| *sum)),
            Answer::Orders(orders) => list_number(orders.iter().map(|order| order.id)),
        }
    }
}
