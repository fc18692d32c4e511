//! Each task by std's iterators on one thread: its definition.

use crate::data::{is_dear, Answer, Lists};
use std::cmp::Reverse;
use std::collections::{HashMap, HashSet};

pub fn even(x: &i64) -> bool {
    x % 2 == 0
}

pub const FRONT: usize = 1_000_000;

pub fn run<'a>(lists: &Lists<'a>, task: &str) -> Answer<'a> {
    let xs = lists.xs;
    match task {
        "squares" => Answer::Number(squares(xs)),
        "summary" => summary(xs),
        "greatest" => Answer::Number(xs.iter().map(|x| x.wrapping_mul(7).rem_euclid(1000)).max().unwrap()),
        "copies" => Answer::Number(xs.iter().flat_map(|x| [*x; 2]).sum()),
        "limit" => Answer::Number(xs.iter().filter(|x| even(x)).take(FRONT).sum()),
        "skip" => Answer::Number(xs.iter().filter(|x| even(x)).skip(FRONT).sum()),
        "takewhile" | "dropwhile" => whiles(lists, task),
        "distinct-few" => Answer::Number(xs.iter().map(|x| x.rem_euclid(1000)).collect::<HashSet<_>>().len() as i64),
        "distinct-list" => distinct_list(xs),
        "distinct-all" => Answer::Number(lists.ds.iter().collect::<HashSet<_>>().len() as i64),
        "sorted" | "sorted-by-key" | "best-by-sort" | "best" => sorted(xs, task),
        "list" => Answer::Numbers(xs.iter().map(|x| x.wrapping_mul(3)).collect()),
        "list-half" => Answer::Numbers(xs.iter().copied().filter(even).collect()),
        "parts-counts" => parts_counts(xs),
        "parts-lists" => parts_lists(xs),
        "groups-10" => counts(xs.iter().map(|x| x.rem_euclid(10))),
        "groups-1000" => sums(xs),
        "groups-lists" => groups_lists(xs),
        "groups-all" => counts(lists.ds.iter().copied()),
        "groups-groups" => groups_groups(xs),
        "hit-early" => hit(xs, lists.hit(1)),
        "hit-tenth" => hit(xs, lists.hit(100)),
        "hit-late" => hit(xs, lists.hit(600)),
        "hit-none" => hit(xs, i64::MAX),
        "matches" => matches(xs, lists.hit(600)),
        "dear-1000" => Answer::Number(xs[..1000].iter().filter(|x| is_dear(**x)).sum()),
        "dear-100" => Answer::Number(xs[..100].iter().filter(|x| is_dear(**x)).sum()),
        "uneven" => Answer::Number(xs[..FRONT].iter().filter(|x| **x % 1000 != 0 || is_dear(**x)).sum()),
        _ => match task.strip_prefix("small-") {
            Some(number) => Answer::Number(squares(&xs[..number.parse().unwrap()])),
            None => texts(lists, task),
        },
    }
}

pub fn squares(xs: &[i64]) -> i64 {
    xs.iter().filter(|x| even(x)).map(|x| x.wrapping_mul(*x)).fold(0, i64::wrapping_add)
}

fn summary(xs: &[i64]) -> Answer<'static> {
    let all = xs.iter().fold((0, 0, i64::MAX, i64::MIN), |(count, sum, least, greatest), x| (count + 1, sum + x, least.min(*x), greatest.max(*x)));
    Answer::Numbers(vec![all.0, all.1, all.2, all.3])
}

fn whiles(lists: &Lists, task: &str) -> Answer<'static> {
    let (xs, hit) = (lists.xs, lists.hit(600));
    Answer::Number(match task {
        "takewhile" => xs.iter().take_while(|x| **x != hit).sum(),
        _ => xs.iter().skip_while(|x| **x != hit).sum(),
    })
}

fn distinct_list(xs: &[i64]) -> Answer<'static> {
    let mut seen = HashSet::new();
    Answer::Numbers(xs.iter().map(|x| x.rem_euclid(100_000)).filter(|x| seen.insert(*x)).collect())
}

fn sorted(xs: &[i64], task: &str) -> Answer<'static> {
    let mut list = xs.to_vec();
    match task {
        "sorted" => list.sort(),
        "sorted-by-key" => list.sort_by_key(|x| x.rem_euclid(1000)),
        _ => {
            list.sort_by(|a, b| b.cmp(a));
            list.truncate(100);
        }
    }
    Answer::Numbers(list)
}

fn parts_counts(xs: &[i64]) -> Answer<'static> {
    let yes = xs.iter().filter(|x| even(x)).count();
    Answer::Numbers(vec![(xs.len() - yes) as i64, yes as i64])
}

fn parts_lists(xs: &[i64]) -> Answer<'static> {
    let (yes, no) = xs.iter().copied().partition(even);
    Answer::Sides(no, yes)
}

fn counts(keys: impl Iterator<Item = i64>) -> Answer<'static> {
    let mut map = HashMap::new();
    keys.for_each(|key| *map.entry(key).or_insert(0) += 1);
    Answer::Counts(map)
}

fn sums(xs: &[i64]) -> Answer<'static> {
    let mut map = HashMap::new();
    xs.iter().for_each(|x| *map.entry(x.rem_euclid(1000)).or_insert(0) += x);
    Answer::Counts(map)
}

fn groups_lists(xs: &[i64]) -> Answer<'static> {
    let mut map: HashMap<i64, Vec<i64>> = HashMap::new();
    xs.iter().for_each(|x| map.entry(x.rem_euclid(100_000)).or_default().push(*x));
    Answer::Lists(map)
}

fn groups_groups(xs: &[i64]) -> Answer<'static> {
    let mut map: HashMap<i64, HashMap<i64, i64>> = HashMap::new();
    xs.iter().for_each(|x| *map.entry(x.rem_euclid(10)).or_default().entry(x.rem_euclid(100)).or_insert(0) += 1);
    Answer::Nested(map)
}

fn hit(xs: &[i64], wanted: i64) -> Answer<'static> {
    Answer::Number(xs.iter().copied().find(|x| *x == wanted).unwrap_or(-1))
}

fn matches(xs: &[i64], wanted: i64) -> Answer<'static> {
    let any = xs.iter().any(|x| *x == wanted);
    let none = !xs.iter().any(|x| *x == wanted);
    let all = xs.iter().all(|x| *x != wanted);
    Answer::Numbers(vec![i64::from(any), i64::from(none), i64::from(all)])
}

fn texts<'a>(lists: &Lists<'a>, task: &str) -> Answer<'a> {
    match task {
        "joining" => Answer::Text(lists.words.iter().copied().filter(|word| word.len() > 5).collect::<Vec<_>>().join(", ")),
        "words-by-length" => counts(lists.text.lines().flat_map(|line| line.split(' ')).map(|word| word.len() as i64)),
        "words" => word_counts(&lists.words),
        "words-all" => word_counts(&lists.others),
        "distinct-words" => distinct_words(&lists.words),
        "sorted-words" => sorted_words(&lists.words),
        "orders-best" => orders_best(lists),
        _ => orders_sorted(lists),
    }
}

fn word_counts<'a>(words: &[&'a str]) -> Answer<'a> {
    let mut map = HashMap::new();
    words.iter().for_each(|word| *map.entry(*word).or_insert(0) += 1);
    Answer::WordCounts(map)
}

fn distinct_words<'a>(words: &[&'a str]) -> Answer<'a> {
    let mut seen = HashSet::new();
    Answer::Words(words.iter().copied().filter(|word| seen.insert(*word)).collect())
}

fn sorted_words<'a>(words: &[&'a str]) -> Answer<'a> {
    let mut list = words.to_vec();
    list.sort();
    Answer::Words(list)
}

/// The five customers who spent most, of whom no two spent alike.
pub fn best_five(sums: HashMap<i64, i64>) -> Answer<'static> {
    let mut all: Vec<_> = sums.into_iter().collect();
    all.sort_by_key(|(customer, sum)| (Reverse(*sum), *customer));
    all.truncate(5);
    Answer::Best(all)
}

fn orders_best<'a>(lists: &Lists<'a>) -> Answer<'a> {
    let mut sums = HashMap::new();
    lists.orders.iter().filter(|order| order.country == "DE").for_each(|order| *sums.entry(order.customer).or_insert(0) += order.amount);
    best_five(sums)
}

fn orders_sorted<'a>(lists: &Lists<'a>) -> Answer<'a> {
    let mut list: Vec<_> = lists.orders.iter().collect();
    list.sort_by_key(|order| (order.country.as_str(), Reverse(order.amount)));
    Answer::Orders(list)
}
