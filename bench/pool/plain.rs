//! The same runs by hand.
#[path = "../ranges.rs"]
mod ranges;

fn part_sum(from: i64, to: i64) -> i64 {
    let mut sum = 0i64;
    for number in from..to {
        let image = number.wrapping_mul(3);
        if 0 < image.wrapping_mul(0x9e37_79b9_7f4a_7c1) {
            sum = sum.wrapping_add(image);
        }
    }
    sum
}

fn main() {
    ranges::run_cases(part_sum);
}
