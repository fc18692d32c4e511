//! The same sums by plain Rust loops.
#[path = "../loops.rs"]
mod loops;

use loops::{measure, report_lines, sum_below};

fn report(count: i64, factor: i64, summand: i64) {
    let half = count / 2;
    measure("map_filter_sum", || sum_below(count, factor));
    measure("four_stages_sum", || {
        let mut sum: i64 = 0;
        for number in 0..count {
            let image = number.wrapping_mul(factor);
            if image < count {
                let image = image.wrapping_add(summand);
                if image < half {
                    sum = sum.wrapping_add(image);
                }
            }
        }
        sum
    });
    measure("map_filter_mix", || {
        let mut mix: i64 = 0;
        for number in 0..count {
            let image = number.wrapping_mul(factor);
            if image < count {
                mix = (mix ^ image).rotate_left(7);
            }
        }
        mix
    });
    measure("four_stages_mix", || {
        let mut mix: i64 = 0;
        for number in 0..count {
            let image = number.wrapping_mul(factor);
            if image < count {
                let image = image.wrapping_add(summand);
                if image < half {
                    mix = (mix ^ image).rotate_left(7);
                }
            }
        }
        mix
    });
}

fn main() {
    report_lines(report);
}
