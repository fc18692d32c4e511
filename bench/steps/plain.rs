//! The same sums by plain Rust loops.
#[path = "../loops.rs"]
mod loops;

use loops::{measure, report_lines, sum_below};

fn report(count: i64, factor: i64, divisor: i64) {
    measure("times_below", || sum_below(count, factor));
    measure("times_divisible", || {
        let mut sum: i64 = 0;
        for number in 0..count {
            let image = number.wrapping_mul(factor);
            if image.rem_euclid(divisor) == 0 {
                sum = sum.wrapping_add(image);
            }
        }
        sum
    });
    measure("times_mod", || {
        let mut sum: i64 = 0;
        for number in 0..count {
            sum = sum.wrapping_add(number.wrapping_mul(factor).rem_euclid(divisor));
        }
        sum
    });
    measure("times_below_plus_divisible", || {
        let mut sum: i64 = 0;
        for number in 0..count {
            let image = number.wrapping_mul(factor);
            if image < count {
                let image = image.wrapping_add(factor);
                if image.rem_euclid(divisor) == 0 {
                    sum = sum.wrapping_add(image);
                }
            }
        }
        sum
    });
}

fn main() {
    report_lines(report);
}
