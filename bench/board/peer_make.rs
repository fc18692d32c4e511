//! Allocates and fills as many words as a board of 65,536 leaves and 64 seats has. One such list is kept, as one board is.

use std::hint::black_box;

const WORDS: usize = 8 * 65 + 65536;

fn filled() -> Vec<u64> {
    (0..WORDS as u64).map(black_box).collect()
}

fn main() {
    let rounds: u64 = std::env::args().nth(2).and_then(|word| word.parse().ok()).unwrap_or(0);
    let kept = black_box(filled());
    let mut total: u64 = 0;
    for _round in 0..rounds {
        total = total.wrapping_add(black_box(filled()).len() as u64 / WORDS as u64 * 64);
    }
    drop(black_box(kept));
    println!("{total}");
}
