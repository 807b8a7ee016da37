//! The speed of the two hashes: on many short texts, and on a file's bytes as one
//! text. Each round asks every loader once; the best round counts.

use maker::rng::Rng;
use maker::text::{letters, to_bytes};

use crate::subject::{Subject, Texts};

const ROUNDS: usize = 9;
/// Short texts: so many, of so many characters each.
const SHORT: usize = 100_000;
const CHARACTERS: usize = 16;

/// Seconds of one loader for the string hashes and for the value hashes.
#[derive(Clone, Copy)]
pub struct Seconds {
    pub hash: f64,
    pub value: f64,
}

pub fn measure(subjects: &[Box<dyn Subject>], texts: Texts) -> Vec<Seconds> {
    let mut best = vec![Seconds { hash: f64::MAX, value: f64::MAX }; subjects.len()];
    for _ in 0..ROUNDS {
        for (subject, best) in subjects.iter().zip(&mut best) {
            best.hash = best.hash.min(subject.hashes(texts));
            best.value = best.value.min(subject.value_hashes(texts));
        }
    }
    best
}

/// Nanoseconds a call on short texts of letters, all different.
pub fn print_short(subjects: &[Box<dyn Subject>]) {
    let mut rng = Rng::new(5);
    let text = |_| to_bytes(&letters(&mut rng, CHARACTERS, CHARACTERS));
    let bytes: Vec<u8> = (0..SHORT).flat_map(text).collect();
    let all = measure(subjects, Texts { bytes: &bytes, each: 2 * CHARACTERS });
    println!("hashes of {SHORT} texts of {CHARACTERS} characters, ns a call:");
    for (subject, seconds) in subjects.iter().zip(&all) {
        let call = |seconds: f64| seconds * 1e9 / SHORT as f64;
        println!(
            "  {:18} hash {:7.2} ({:5.2}x)  value hash {:7.2} ({:5.2}x)",
            subject.title(),
            call(seconds.hash),
            seconds.hash / all[0].hash,
            call(seconds.value),
            seconds.value / all[0].value,
        );
    }
}
