//! Each task by rayon.

use crate::by_loop::{best_five, even, FRONT};
use crate::data::{is_dear, Answer, Lists};
use rayon::prelude::*;
use std::cmp::Reverse;
use std::collections::{BinaryHeap, HashMap, HashSet};
use std::hash::Hash;

pub fn run<'a>(lists: &Lists<'a>, task: &str) -> Answer<'a> {
    let xs = lists.xs;
    match task {
        "squares" => Answer::Number(squares(xs)),
        "summary" => summary(xs),
        "greatest" => Answer::Number(xs.par_iter().map(|x| x.wrapping_mul(7).rem_euclid(1000)).max().unwrap()),
        "copies" => Answer::Number(xs.par_iter().flat_map_iter(|x| [*x; 2]).sum()),
        "limit" => Answer::Number(xs[..front(xs, even, FRONT)].par_iter().filter(|x| even(x)).sum()),
        "skip" => Answer::Number(xs[front(xs, even, FRONT)..].par_iter().filter(|x| even(x)).sum()),
        "takewhile" | "dropwhile" => whiles(lists, task),
        "distinct-few" => Answer::Number(set(xs.par_iter().map(|x| x.rem_euclid(1000))).len() as i64),
        "distinct-list" => Answer::Numbers(firsts(xs.par_iter().map(|x| x.rem_euclid(100_000)))),
        "distinct-all" => distinct_all(lists.ds),
        "sorted" | "sorted-by-key" | "best-by-sort" => sorted(xs, task),
        "best" => best(xs),
        "list" => Answer::Numbers(xs.par_iter().map(|x| x.wrapping_mul(3)).collect()),
        "list-half" => Answer::Numbers(xs.par_iter().copied().filter(even).collect()),
        "parts-counts" => parts_counts(xs),
        "parts-lists" => parts_lists(xs),
        "groups-10" => Answer::Counts(counts(xs.par_iter().map(|x| x.rem_euclid(10)))),
        "groups-1000" => Answer::Counts(sums(xs.par_iter().map(|x| (x.rem_euclid(1000), *x)))),
        "groups-lists" => groups_lists(xs),
        "groups-all" => Answer::Counts(counts(lists.ds.par_iter().copied())),
        "groups-groups" => groups_groups(xs),
        "hit-early" => hit(xs, lists.hit(1)),
        "hit-tenth" => hit(xs, lists.hit(100)),
        "hit-late" => hit(xs, lists.hit(600)),
        "hit-none" => hit(xs, i64::MAX),
        "matches" => matches(xs, lists.hit(600)),
        "dear-1000" => Answer::Number(xs[..1000].par_iter().filter(|x| is_dear(**x)).sum()),
        "dear-100" => Answer::Number(xs[..100].par_iter().filter(|x| is_dear(**x)).sum()),
        "uneven" => Answer::Number(xs[..FRONT].par_iter().filter(|x| **x % 1000 != 0 || is_dear(**x)).sum()),
        _ => match task.strip_prefix("small-") {
            Some(number) => Answer::Number(squares(&xs[..number.parse().unwrap()])),
            None => texts(lists, task),
        },
    }
}

/// The place behind the item with which so many meet a test, since rayon has no `take` behind a filter.
fn front(xs: &[i64], test: impl Fn(&i64) -> bool + Sync, wanted: usize) -> usize {
    const CHUNK: usize = 1 << 14;
    let counts: Vec<usize> = xs.par_chunks(CHUNK).map(|chunk| chunk.iter().filter(|x| test(x)).count()).collect();
    let mut left = wanted;
    for (number, count) in counts.iter().enumerate() {
        if *count >= left {
            let places = xs.iter().enumerate().skip(number * CHUNK).filter(|(_, x)| test(x));
            return places.map(|(place, _)| place + 1).nth(left - 1).unwrap_or(xs.len());
        }
        left -= count;
    }
    xs.len()
}

fn set<K: Eq + Hash + Send>(keys: impl ParallelIterator<Item = K>) -> HashSet<K> {
    let put = |mut set: HashSet<K>, key| {
        set.insert(key);
        set
    };
    let join = |a: HashSet<K>, b: HashSet<K>| {
        let (mut greater, smaller) = if a.len() < b.len() { (b, a) } else { (a, b) };
        greater.extend(smaller);
        greater
    };
    keys.fold(HashSet::new, put).reduce(HashSet::new, join)
}

/// The distinct ones in order: by their first places, since rayon's sets have no order.
fn firsts<K: Eq + Hash + Send + Copy>(keys: impl IndexedParallelIterator<Item = K>) -> Vec<K> {
    let put = |mut map: HashMap<K, usize>, (place, key)| {
        map.entry(key).or_insert(place);
        map
    };
    let join = |mut a: HashMap<K, usize>, b: HashMap<K, usize>| {
        for (key, place) in b {
            a.entry(key).and_modify(|at| *at = place.min(*at)).or_insert(place);
        }
        a
    };
    let places = keys.enumerate().fold(HashMap::new, put).reduce(HashMap::new, join);
    let mut list: Vec<_> = places.into_iter().collect();
    list.par_sort_unstable_by_key(|(_, place)| *place);
    list.into_iter().map(|(key, _)| key).collect()
}

fn counts<K: Eq + Hash + Send>(keys: impl ParallelIterator<Item = K>) -> HashMap<K, i64> {
    sums(keys.map(|key| (key, 1)))
}

fn sums<K: Eq + Hash + Send>(pairs: impl ParallelIterator<Item = (K, i64)>) -> HashMap<K, i64> {
    let put = |mut map: HashMap<K, i64>, (key, number)| {
        *map.entry(key).or_insert(0) += number;
        map
    };
    let join = |a: HashMap<K, i64>, b: HashMap<K, i64>| {
        let (greater, smaller) = if a.len() < b.len() { (b, a) } else { (a, b) };
        smaller.into_iter().fold(greater, put)
    };
    pairs.fold(HashMap::new, put).reduce(HashMap::new, join)
}

fn squares(xs: &[i64]) -> i64 {
    xs.par_iter().filter(|x| even(x)).map(|x| x.wrapping_mul(*x)).reduce(|| 0, i64::wrapping_add)
}

fn summary(xs: &[i64]) -> Answer<'static> {
    type Summary = (i64, i64, i64, i64);
    let none = || (0, 0, i64::MAX, i64::MIN);
    let with = |(count, sum, least, greatest): Summary, x: &i64| (count + 1, sum + x, least.min(*x), greatest.max(*x));
    let and = |a: Summary, b: Summary| (a.0 + b.0, a.1 + b.1, a.2.min(b.2), a.3.max(b.3));
    let all = xs.par_iter().fold(none, with).reduce(none, and);
    Answer::Numbers(vec![all.0, all.1, all.2, all.3])
}

fn whiles(lists: &Lists, task: &str) -> Answer<'static> {
    let (xs, hit) = (lists.xs, lists.hit(600));
    let place = xs.par_iter().position_first(|x| *x == hit).unwrap_or(xs.len());
    let part = if task == "takewhile" { &xs[..place] } else { &xs[place..] };
    Answer::Number(part.par_iter().sum())
}

fn distinct_all(ds: &[i64]) -> Answer<'static> {
    let mut list = ds.to_vec();
    list.par_sort_unstable();
    list.dedup();
    Answer::Number(list.len() as i64)
}

fn sorted(xs: &[i64], task: &str) -> Answer<'static> {
    let mut list = xs.to_vec();
    match task {
        "sorted" => list.par_sort_unstable(),
        "sorted-by-key" => list.par_sort_by_key(|x| x.rem_euclid(1000)),
        _ => {
            list.par_sort_unstable_by(|a, b| b.cmp(a));
            list.truncate(100);
        }
    }
    Answer::Numbers(list)
}

fn best(xs: &[i64]) -> Answer<'static> {
    let put = |mut heap: BinaryHeap<Reverse<i64>>, x: Reverse<i64>| {
        if heap.len() < 100 {
            heap.push(x);
        } else if x < *heap.peek().unwrap() {
            *heap.peek_mut().unwrap() = x;
        }
        heap
    };
    let heap = xs.par_iter().map(|x| Reverse(*x)).fold(BinaryHeap::new, put).reduce(BinaryHeap::new, |a, b| b.into_iter().fold(a, put));
    Answer::Numbers(heap.into_sorted_vec().into_iter().map(|x| x.0).collect())
}

fn parts_counts(xs: &[i64]) -> Answer<'static> {
    let tell = |(no, yes), x: &i64| if even(x) { (no, yes + 1) } else { (no + 1, yes) };
    let parts = xs.par_iter().fold(|| (0, 0), tell).reduce(|| (0, 0), |a, b| (a.0 + b.0, a.1 + b.1));
    Answer::Numbers(vec![parts.0, parts.1])
}

fn parts_lists(xs: &[i64]) -> Answer<'static> {
    let (yes, no) = xs.par_iter().copied().partition(even);
    Answer::Sides(no, yes)
}

fn groups_lists(xs: &[i64]) -> Answer<'static> {
    let put = |mut map: HashMap<i64, Vec<i64>>, x: &i64| {
        map.entry(x.rem_euclid(100_000)).or_default().push(*x);
        map
    };
    let join = |mut a: HashMap<i64, Vec<i64>>, b: HashMap<i64, Vec<i64>>| {
        b.into_iter().for_each(|(key, mut list)| a.entry(key).or_default().append(&mut list));
        a
    };
    Answer::Lists(xs.par_iter().fold(HashMap::new, put).reduce(HashMap::new, join))
}

fn groups_groups(xs: &[i64]) -> Answer<'static> {
    type Nested = HashMap<i64, HashMap<i64, i64>>;
    let put = |mut map: Nested, x: &i64| {
        *map.entry(x.rem_euclid(10)).or_default().entry(x.rem_euclid(100)).or_insert(0) += 1;
        map
    };
    let join = |mut a: Nested, b: Nested| {
        for (key, inner) in b {
            let to = a.entry(key).or_default();
            inner.into_iter().for_each(|(key, number)| *to.entry(key).or_insert(0) += number);
        }
        a
    };
    let map = xs.par_iter().fold(Nested::new, put).reduce(Nested::new, join);
    Answer::Nested(map)
}

fn hit(xs: &[i64], wanted: i64) -> Answer<'static> {
    Answer::Number(xs.par_iter().copied().find_first(|x| *x == wanted).unwrap_or(-1))
}

fn matches(xs: &[i64], wanted: i64) -> Answer<'static> {
    let any = xs.par_iter().any(|x| *x == wanted);
    let none = !xs.par_iter().any(|x| *x == wanted);
    let all = xs.par_iter().all(|x| *x != wanted);
    Answer::Numbers(vec![i64::from(any), i64::from(none), i64::from(all)])
}

fn texts<'a>(lists: &Lists<'a>, task: &str) -> Answer<'a> {
    match task {
        "joining" => joining(&lists.words),
        "words-by-length" => {
            let words = lists.text.par_lines().flat_map_iter(|line| line.split(' '));
            Answer::Counts(counts(words.map(|word| word.len() as i64)))
        }
        "words" => Answer::WordCounts(counts(lists.words.par_iter().copied())),
        "words-all" => Answer::WordCounts(counts(lists.others.par_iter().copied())),
        "distinct-words" => Answer::Words(firsts(lists.words.par_iter().copied())),
        "sorted-words" => sorted_words(&lists.words),
        "orders-best" => {
            let german = lists.orders.par_iter().filter(|order| order.country == "DE");
            best_five(sums(german.map(|order| (order.customer, order.amount))))
        }
        _ => orders_sorted(lists),
    }
}

fn joining(words: &[&str]) -> Answer<'static> {
    let long: Vec<&str> = words.par_iter().copied().filter(|word| word.len() > 5).collect();
    Answer::Text(long.join(", "))
}

fn sorted_words<'a>(words: &[&'a str]) -> Answer<'a> {
    let mut list = words.to_vec();
    list.par_sort();
    Answer::Words(list)
}

fn orders_sorted<'a>(lists: &Lists<'a>) -> Answer<'a> {
    let mut list: Vec<_> = lists.orders.par_iter().collect();
    list.par_sort_by_key(|order| (order.country.as_str(), Reverse(order.amount)));
    Answer::Orders(list)
}
