//! What reading costs, for comparison: reads all over a file, none of which
//! waits for another.

use std::hint::black_box;

use crate::clock::now;

const READS: u64 = 4_000_000;
const ROUNDS: usize = 3;

/// Nanoseconds of one such read, the best round's.
pub fn random_read(bytes: &[u8]) -> f64 {
    (0..ROUNDS).map(|_| round(bytes)).fold(f64::MAX, f64::min)
}

fn round(bytes: &[u8]) -> f64 {
    let started = now();
    let mut sum = 0u64;
    for i in 0..READS {
        // Spread by multiplication, so that next to nothing but the read is timed.
        let spread = i.wrapping_mul(0x9e37_79b9_7f4a_7c15) >> 32;
        sum += bytes[(spread * bytes.len() as u64 >> 32) as usize] as u64;
    }
    black_box(sum);
    (now() - started) * 1e9 / READS as f64
}
