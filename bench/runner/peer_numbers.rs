//! Number pipelines as one would write them by hand: a loop a thread over its share of a range, or of the numbers of a file. Every constant
//! is a word of the command line, so the compiler knows none. What cuts a list, and `distinct`, is one loop on one thread. Words: the
//! pipeline's name, the threads, the range's ends or `file` and the file's name, the constants.
//!
//! The sums of whole progressions are folded into formulas by the compiler; there each item passes a black box.

use std::collections::{HashMap, HashSet};
use std::hint::black_box;
use std::thread;

/// Where numbers come from.
#[derive(Clone, Copy)]
enum Numbers<'a> {
    Range(i64, i64),
    List(&'a [i64]),
}

impl<'a> Numbers<'a> {
    fn len(self) -> i64 {
        match self {
            Numbers::Range(start, end) => end - start,
            Numbers::List(list) => list.len() as i64,
        }
    }

    fn part(self, from: i64, to: i64) -> Numbers<'a> {
        match self {
            Numbers::Range(start, _) => Numbers::Range(start + from, start + to),
            Numbers::List(list) => Numbers::List(&list[from as usize..to as usize]),
        }
    }
}

/// The same loop over either.
macro_rules! over {
    ($numbers:expr, $items:ident, $value:expr) => {
        match $numbers {
            Numbers::Range(start, end) => {
                let $items = start..end;
                $value
            }
            Numbers::List(list) => {
                let $items = list.iter().copied();
                $value
            }
        }
    };
}

fn sum(numbers: Numbers<'_>, _: &[i64]) -> Option<i64> {
    over!(numbers, items, Some(items.fold(0, |total: i64, x| total.wrapping_add(black_box(x)))))
}

fn map_sum(numbers: Numbers<'_>, n: &[i64]) -> Option<i64> {
    let factor = n[0];
    over!(numbers, items, Some(items.fold(0, |total: i64, x| total.wrapping_add(black_box(x).wrapping_mul(factor)))))
}

fn filter_sum(numbers: Numbers<'_>, n: &[i64]) -> Option<i64> {
    let divisor = n[0];
    over!(numbers, items, Some(items.filter(|x| x % divisor == 0).fold(0, i64::wrapping_add)))
}

fn map_filter_sum(numbers: Numbers<'_>, n: &[i64]) -> Option<i64> {
    let (factor, bound) = (n[0], n[1]);
    over!(numbers, items, Some(items.map(|x| x.wrapping_mul(factor)).filter(|x| *x > bound).fold(0, i64::wrapping_add)))
}

fn mod_max(numbers: Numbers<'_>, n: &[i64]) -> Option<i64> {
    let divisor = n[0];
    over!(numbers, items, items.map(|x| x.rem_euclid(divisor)).max())
}

fn map_filter_max(numbers: Numbers<'_>, n: &[i64]) -> Option<i64> {
    let (factor, divisor) = (n[0], n[1]);
    over!(numbers, items, items.map(|x| x.wrapping_mul(factor)).filter(|x| x % divisor == 0).max())
}

fn mod_all(numbers: Numbers<'_>, n: &[i64]) -> bool {
    let (divisor, bound) = (n[0], n[1]);
    over!(numbers, items, items.map(|x| x.rem_euclid(divisor)).all(|x| x < bound))
}

fn divisible_none(numbers: Numbers<'_>, n: &[i64]) -> bool {
    let (divisor, number) = (n[0], n[1]);
    over!(numbers, items, !items.filter(|x| x.rem_euclid(divisor) == 0).any(|x| x == number))
}

fn repeat(numbers: Numbers<'_>, n: &[i64]) -> i64 {
    let (times, most, divisor) = (n[0] as usize, n[1] as usize, n[2]);
    over!(numbers, items, {
        let copies = items.flat_map(|x| std::iter::repeat(x).take(times)).take(most);
        copies.filter(|x| x % divisor == 0).fold(0, i64::wrapping_add)
    })
}

fn limit(numbers: Numbers<'_>, n: &[i64]) -> i64 {
    let (divisor, most) = (n[0], n[1] as usize);
    over!(numbers, items, items.filter(|x| x % divisor == 0).take(most).fold(0, i64::wrapping_add))
}

fn skip(numbers: Numbers<'_>, n: &[i64]) -> i64 {
    let (divisor, number) = (n[0], n[1] as usize);
    over!(numbers, items, items.filter(|x| x % divisor == 0).skip(number).fold(0, i64::wrapping_add))
}

fn take_while(numbers: Numbers<'_>, n: &[i64]) -> i64 {
    let (factor, bound, divisor) = (n[0], n[1], n[2]);
    over!(numbers, items, {
        let front = items.map(|x| x.wrapping_mul(factor)).take_while(|x| *x < bound);
        front.filter(|x| x % divisor == 0).fold(0, i64::wrapping_add)
    })
}

fn drop_while(numbers: Numbers<'_>, n: &[i64]) -> i64 {
    let (factor, bound, divisor) = (n[0], n[1], n[2]);
    over!(numbers, items, {
        let rest = items.map(|x| x.wrapping_mul(factor)).skip_while(|x| *x < bound);
        rest.filter(|x| x % divisor == 0).fold(0, i64::wrapping_add)
    })
}

fn distinct(numbers: Numbers<'_>, n: &[i64]) -> i64 {
    let divisor = n[0];
    let mut kept = HashSet::new();
    over!(numbers, items, items.map(|x| x.rem_euclid(divisor)).filter(|x| kept.insert(*x)).fold(0, i64::wrapping_add))
}

/// The sum of what a cut, or `distinct`, leaves.
fn cut(name: &str, numbers: Numbers<'_>, n: &[i64]) -> i64 {
    match name {
        "repeat" => repeat(numbers, n),
        "limit" => limit(numbers, n),
        "skip" => skip(numbers, n),
        "take-while" => take_while(numbers, n),
        "drop-while" => drop_while(numbers, n),
        "few-distinct" | "all-distinct" => distinct(numbers, n),
        _ => panic!("{name}"),
    }
}

/// The keys in the order of their first item, and what is kept of each.
fn groups(numbers: Numbers<'_>, divisor: i64, value: fn(i64) -> i64) -> (Vec<i64>, HashMap<i64, i64>) {
    let mut keys = Vec::new();
    let mut kept = HashMap::new();
    over!(numbers, items, for x in items {
        let key = x.rem_euclid(divisor);
        let total: &mut i64 = kept.entry(key).or_insert_with(|| {
            keys.push(key);
            0
        });
        *total = total.wrapping_add(value(x));
    });
    (keys, kept)
}

/// What threads make of their shares, in the order of the shares.
fn run<T: Send>(numbers: Numbers<'_>, threads: i64, share: impl Fn(Numbers<'_>) -> T + Sync) -> Vec<T> {
    let place = |i: i64| numbers.len() / threads * i + numbers.len() % threads * i / threads;
    let share = &share;
    thread::scope(|scope| {
        let shares: Vec<_> = (0..threads)
            .map(|i| scope.spawn(move || share(numbers.part(place(i), place(i + 1)))))
            .collect();
        shares.into_iter().map(|thread| thread.join().unwrap()).collect()
    })
}

fn print_groups(numbers: Numbers<'_>, threads: i64, divisor: i64, value: fn(i64) -> i64) {
    let mut keys = Vec::new();
    let mut totals = HashMap::new();
    for (new, kept) in run(numbers, threads, |share| groups(share, divisor, value)) {
        for key in new {
            let total: &mut i64 = totals.entry(key).or_insert_with(|| {
                keys.push(key);
                0
            });
            *total = total.wrapping_add(kept[&key]);
        }
    }
    let entries: Vec<_> = keys.iter().map(|key| format!("{key}={}", totals[key])).collect();
    println!("{{{}}}", entries.join(", "));
}

fn main() {
    let words: Vec<String> = std::env::args().skip(1).collect();
    let threads: i64 = words[1].parse().unwrap();
    let list: Vec<i64>;
    let numbers = if words[2] == "file" {
        let text = std::fs::read_to_string(&words[3]).unwrap();
        let line = text.lines().nth(1).unwrap();
        list = line.split(' ').skip(1).map(|word| word.parse().unwrap()).collect();
        Numbers::List(&list)
    } else {
        Numbers::Range(words[2].parse().unwrap(), words[3].parse().unwrap())
    };
    let constants: Vec<i64> = words[4..].iter().map(|word| word.parse().unwrap()).collect();
    let n = constants.as_slice();
    let total = |share: fn(Numbers<'_>, &[i64]) -> Option<i64>| {
        let values = run(numbers, threads, |part| share(part, n));
        println!("{}", values.into_iter().flatten().fold(0, i64::wrapping_add));
    };
    let greatest = |share: fn(Numbers<'_>, &[i64]) -> Option<i64>| {
        match run(numbers, threads, |part| share(part, n)).into_iter().flatten().max() {
            Some(value) => println!("Optional[{value}]"),
            None => println!("Optional.empty"),
        }
    };
    let all = |share: fn(Numbers<'_>, &[i64]) -> bool| {
        println!("{}", run(numbers, threads, |part| share(part, n)).into_iter().all(|holds| holds));
    };
    match words[0].as_str() {
        "sum" => total(sum),
        "map-sum" => total(map_sum),
        "filter-sum" => total(filter_sum),
        "map-filter-sum" => total(map_filter_sum),
        "mod-max" => greatest(mod_max),
        "map-filter-max" => greatest(map_filter_max),
        "mod-all" => all(mod_all),
        "divisible-none" => all(divisible_none),
        "group-count" => print_groups(numbers, threads, n[0], |_| 1),
        "group-sum" => print_groups(numbers, threads, n[0], |x| x),
        name => println!("{}", cut(name, numbers, n)),
    }
}
