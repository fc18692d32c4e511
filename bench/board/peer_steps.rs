//! The bare atomic steps of a board's draw, skip and publish: one `fetch_add`, one `load` and one `swap` a leaf.

use std::hint::black_box;
use std::sync::atomic::{AtomicU64, Ordering::SeqCst};

const LEAVES: u64 = 65536;

fn main() {
    let rounds: u64 = std::env::args().nth(2).and_then(|word| word.parse().ok()).unwrap_or(0);
    let mut total: u64 = 0;
    for _round in 0..rounds {
        let words: Vec<AtomicU64> = (0..LEAVES).map(|_| AtomicU64::new(0)).collect();
        let words = black_box(words);
        let ticket = black_box(AtomicU64::new(0));
        let cut = black_box(AtomicU64::new(LEAVES));
        loop {
            let leaf = ticket.fetch_add(1, SeqCst);
            if leaf >= LEAVES {
                break;
            }
            total = total.wrapping_add(leaf);
            if cut.load(SeqCst) >= leaf {
                words[leaf as usize].swap(1, SeqCst);
            }
        }
        black_box(&words);
    }
    println!("{total}");
}
