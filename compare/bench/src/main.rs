//! The benchmark: both loaders on made files of 8, 64 and 256 MB, whose texts
//! stand in the order of their first use, as builders write them; then the cost
//! of a byte as files grow, on such files, on files whose texts are shuffled, and on
//! files in which the last text of each segment has no stored 0.
//!
//! Before each measurement the workspace is zeroed and every page of the file
//! has been touched; the best of several rounds counts, in processor time of the
//! thread. Lookups of the proved library go in one batch question, whose
//! acceptance (measured in the same run) is taken off; the second loader's go to
//! a held view. The hashes are measured on short texts, and on each file's bytes
//! as one text, beside its acceptance.
//!
//! `bench traps` measures files that are made to be slow instead, `bench buckets` look-ups
//! in crowded buckets, and `bench collided` look-ups by their kind.

mod buckets;
mod clock;
mod collided;
mod growth;
mod hashing;
mod memory;
mod pages;
mod subject;
mod traps;

use std::process::ExitCode;

use maker::large::{large, Large, Order};
use maker::rng::Rng;
use maker::text::{to_bytes, Text};
use second::{Marked, Plain, Right, Which};

use pages::Size;
use subject::{Batch, Exported, Held, Subject, Texts};

const SIZES: [usize; 3] = [8, 64, 256];
/// Enough lookups to weigh more than the acceptance that is taken off.
const NAMES: usize = 8_000_000;
const VALUES: usize = 4_000_000;
const ACCEPT_ROUNDS: usize = 9;
const LOOKUP_ROUNDS: usize = 8;

/// One loader's numbers on one file.
struct Numbers {
    accept: f64,
    names: f64,
    values: f64,
    path: f64,
    held_path: Option<f64>,
    hash: f64,
    value_hash: f64,
}

impl Numbers {
    fn none() -> Numbers {
        Numbers {
            accept: f64::MAX,
            names: f64::MAX,
            values: f64::MAX,
            path: f64::MAX,
            held_path: None,
            hash: f64::MAX,
            value_hash: f64::MAX,
        }
    }
}

fn subjects() -> Vec<Box<dyn Subject>> {
    let marked: Held<Marked> =
        Held { title: "second, indexed", loader: second::Loader::new(Right) };
    vec![plain(), Box::new(marked), proved()]
}

fn plain() -> Box<dyn Subject> {
    let held: Held<Plain> = Held { title: "second, plain", loader: second::Loader::new(Right) };
    Box::new(held)
}

#[cfg(feature = "rattle")]
fn proved() -> Box<dyn Subject> {
    let loader = compare::rattle::Rattle::default();
    Box::new(Exported { title: "proved library", loader })
}

/// Without the proved library the exported questions of the second loader are
/// measured in its place, in the same way.
#[cfg(not(feature = "rattle"))]
fn proved() -> Box<dyn Subject> {
    let loader: compare::loader::Second<Right, Plain> =
        compare::loader::Second::new("second", Right);
    Box::new(Exported { title: "second, exported", loader })
}

/// Texts picked at random, one in ten absent.
fn batch(rng: &mut Rng, from: &[Text], count: usize) -> Batch {
    let mut texts = Vec::new();
    let bytes: Vec<Vec<u8>> = from.iter().map(|text| to_bytes(text)).collect();
    for _ in 0..count {
        let mut text = rng.pick(&bytes).clone();
        if rng.one_in(10) {
            text.extend([0x21, 0]);
        }
        texts.extend(text);
        texts.extend([0, 0]);
    }
    Batch { texts, count }
}

/// A path of two names that many nodes bear: the first sheet's name and the
/// name of its first child.
fn path(file: &Large) -> Vec<u8> {
    let mut path = to_bytes(&file.names[60]);
    path.extend([0, 0]);
    path.extend(to_bytes(&file.names[299]));
    path.extend([0, 0]);
    path
}

/// Acceptance by all loaders, in rounds: each round asks every loader once, so
/// that a slow spell of the machine meets them all. The best round counts.
fn accept(subjects: &[Box<dyn Subject>], file: &Large) -> Vec<f64> {
    let mut workspace = vec![0; file.nodes];
    let mut best = vec![f64::MAX; subjects.len()];
    for _ in 0..ACCEPT_ROUNDS {
        for (subject, best) in subjects.iter().zip(&mut best) {
            workspace.fill(0);
            *best = best.min(subject.accept(&file.bytes, &mut workspace));
        }
    }
    best
}

/// All questions to all loaders on one file, in such rounds.
fn measure(subjects: &[Box<dyn Subject>], file: &Large) -> Vec<Numbers> {
    let mut workspace = vec![0; file.nodes];
    let bytes = &file.bytes;
    let mut rng = Rng::new(3);
    let (names, values) =
        (batch(&mut rng, &file.names, NAMES), batch(&mut rng, &file.values, VALUES));
    let path = path(file);
    let mut all: Vec<Numbers> = subjects.iter().map(|_| Numbers::none()).collect();
    for (numbers, seconds) in all.iter_mut().zip(accept(subjects, file)) {
        numbers.accept = seconds;
    }
    let one = Texts { bytes, each: bytes.len() };
    for (numbers, seconds) in all.iter_mut().zip(hashing::measure(subjects, one)) {
        (numbers.hash, numbers.value_hash) = (seconds.hash, seconds.value);
    }
    for _ in 0..LOOKUP_ROUNDS {
        for (subject, numbers) in subjects.iter().zip(&mut all) {
            let off = if subject.accepts_again() { numbers.accept } else { 0.0 };
            let mut lookups =
                |which, batch| subject.lookups(bytes, &mut workspace, which, batch) - off;
            numbers.names = numbers.names.min(lookups(Which::Names, &names));
            numbers.values = numbers.values.min(lookups(Which::Values, &values));
            numbers.path = numbers.path.min(subject.path(bytes, &mut workspace, &path));
            let held = subject.held_path(bytes, &mut workspace, &path);
            numbers.held_path = match (numbers.held_path, held) {
                (Some(before), Some(now)) => Some(before.min(now)),
                (before, now) => before.or(now),
            };
        }
    }
    all
}

fn print(title: &str, file: &Large, numbers: &Numbers, first: &Numbers) {
    let megabytes = file.bytes.len() as f64 / 1e6;
    let millions = |count: usize, seconds: f64| count as f64 / seconds / 1e6;
    println!(
        "  {title:18} accept {:7.1} MB/s ({:5.2}x)  names {:6.2} M/s ({:5.2}x)  values {:6.2} M/s ({:5.2}x)",
        megabytes / numbers.accept,
        numbers.accept / first.accept,
        millions(NAMES, numbers.names),
        numbers.names / first.names,
        millions(VALUES, numbers.values),
        numbers.values / first.values,
    );
    let held = numbers.held_path.map(|seconds| format!(", held {:.2} us", seconds * 1e6));
    println!(
        "  {:18} path with acceptance {:.2} ms ({:.2}x){}",
        "",
        numbers.path * 1e3,
        numbers.path / first.path,
        held.unwrap_or_default(),
    );
    println!(
        "  {:18} file as one text: hash {:7.1} MB/s ({:5.2}x)  value hash {:7.1} MB/s ({:5.2}x)",
        "",
        megabytes / numbers.hash,
        numbers.hash / first.hash,
        megabytes / numbers.value_hash,
        numbers.value_hash / first.value_hash,
    );
}

fn main() -> ExitCode {
    let words: Vec<String> = std::env::args().skip(1).collect();
    match words.first().map(String::as_str) {
        Some("traps") => match traps::run(words.into_iter().skip(1)) {
            Ok(()) => return ExitCode::SUCCESS,
            Err(error) => {
                eprintln!("{error}");
                return ExitCode::FAILURE;
            }
        },
        Some(traps::CHILD) => {
            return traps::child(&words[1..]).map_or(ExitCode::from(2), |()| ExitCode::SUCCESS)
        }
        Some("buckets") => buckets::run(&[proved(), plain()]),
        Some("collided") => collided::run(&[proved(), plain()]),
        first => ordinary(first.and_then(|word| word.parse().ok()).unwrap_or(256)),
    }
    ExitCode::SUCCESS
}

/// Ordinary files of up to so many megabytes.
fn ordinary(most: usize) {
    let sizes: Vec<usize> = SIZES.into_iter().filter(|&size| size <= most).collect();
    let subjects = subjects();
    println!("workspace zeroed, file pages touched; times as multiples of the first line's");
    hashing::print_short(&subjects);
    let mut reads = Vec::new();
    for &size in &sizes {
        let file = large(size, Order::AsUsed);
        println!(
            "{size} MB: {} bytes, {} nodes, {} attributes, {} values",
            file.bytes.len(),
            file.nodes,
            file.attributes,
            file.values.len()
        );
        let all = measure(&subjects, &file);
        reads.push(memory::random_read(&file.bytes));
        for (subject, numbers) in subjects.iter().zip(&all) {
            print(subject.title(), &file, numbers, &all[0]);
        }
    }
    let cases = [
        ("texts in the order of their first use", Order::AsUsed, Size::Small),
        ("the same in huge pages", Order::AsUsed, Size::Huge),
        ("texts shuffled", Order::Shuffled, Size::Small),
        ("the last text of a segment without its 0", Order::Dropped, Size::Small),
    ];
    for (title, order, pages) in cases {
        println!("acceptance of as many bytes in larger files, ns a byte, {title}:");
        let costs = growth::costs(&subjects, &sizes, order, pages);
        for (subject, costs) in subjects.iter().zip(&costs) {
            growth::print(subject.title(), costs);
        }
    }
    println!("one read at random in such a file, ns, none waiting for another:");
    growth::print("memory", &reads);
}
