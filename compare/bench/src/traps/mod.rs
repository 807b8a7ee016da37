//! Files that are made to be slow: `bench traps [MEGABYTES] [NAME …]`.
//!
//! Every class of `maker::traps` is made in three sizes a factor of four apart,
//! and each loader answers the class's question. A question cannot be stopped, so
//! each is asked in a process of its own, which ends when it has used as much
//! processor time as the limit. That loader is not asked on the larger sizes.

mod child;
mod measure;
mod order;

use std::io::Write;
use std::path::PathBuf;

use maker::traps::{all, Class, Trap};

pub use child::run as child;
pub use measure::CHILD;
use measure::{measure, Measured};
use order::Order;

/// Seconds of processor time that a question may take.
const LIMIT: f64 = 20.0;
/// Sizes, as multiples of a class's smallest.
const TIMES: [usize; 3] = [1, 4, 16];

/// The loaders by the words a child is told them with.
const LIBRARY: &str = "library";
const SECOND: &str = "second";

/// What is asked for on the command line.
struct Wanted {
    /// Bytes of the largest file.
    most: usize,
    limit: f64,
    /// Beginnings of class names; all classes where there are none.
    names: Vec<String>,
}

impl Wanted {
    fn new(words: impl Iterator<Item = String>) -> Wanted {
        let mut wanted = Wanted { most: usize::MAX, limit: LIMIT, names: Vec::new() };
        for word in words {
            match (word.parse::<usize>(), word.strip_prefix("limit=")) {
                (Ok(megabytes), _) => wanted.most = megabytes * 1_000_000,
                (_, Some(seconds)) => wanted.limit = seconds.parse().unwrap_or(LIMIT),
                _ => wanted.names.push(word),
            }
        }
        wanted
    }

    fn wants(&self, class: &Class) -> bool {
        self.names.is_empty() || self.names.iter().any(|name| class.name.starts_with(name))
    }
}

/// A directory of our own that goes when we do.
struct Scratch(PathBuf);

impl Scratch {
    fn new() -> std::io::Result<Scratch> {
        let path = std::env::temp_dir().join(format!("bench-traps-{}", std::process::id()));
        std::fs::create_dir_all(&path)?;
        Ok(Scratch(path))
    }
}

impl Drop for Scratch {
    fn drop(&mut self) {
        let _ = std::fs::remove_dir_all(&self.0);
    }
}

pub fn run(words: impl Iterator<Item = String>) -> std::io::Result<()> {
    let wanted = Wanted::new(words);
    let scratch = Scratch::new()?;
    let loaders: &[&str] = if cfg!(feature = "rattle") { &[LIBRARY, SECOND] } else { &[SECOND] };
    println!("seconds of the question; growth is 1.0 where the time grows as the size does");
    print!("{:28} {:>10}", "class", "bytes");
    for loader in loaders {
        print!("  {:>10} {:>9} {:>6}", format!("{loader} s"), "ns/byte", "growth");
    }
    println!("{}", if loaders.len() == 2 { "  library/second" } else { "" });
    let mut differ = 0;
    for class in all().iter().filter(|class| wanted.wants(class)) {
        differ += measure_class(class, loaders, &wanted, &scratch)?;
    }
    match differ {
        0 => Ok(()),
        _ => Err(std::io::Error::other(format!("{differ} answers are not as they should be"))),
    }
}

/// The lines of one class, and how many of its answers are wrong.
fn measure_class(
    class: &Class,
    loaders: &[&str],
    wanted: &Wanted,
    scratch: &Scratch,
) -> std::io::Result<usize> {
    let mut before: Vec<Option<(usize, Measured)>> = vec![None; loaders.len()];
    let mut differ = 0;
    for size in TIMES.map(|times| times * class.smallest) {
        if size > wanted.most {
            break;
        }
        let trap = class.make(size);
        let order = Order::write(&scratch.0, &trap)?;
        let bytes = order.bytes;
        print!("{:28} {bytes:>10}", class.name);
        let mut now = Vec::new();
        for (loader, before) in loaders.iter().zip(&before) {
            let measured = match before {
                Some((_, Measured::TooLong | Measured::NotRun)) => Measured::NotRun,
                _ => measure(loader, &order, wanted.limit)?,
            };
            print_loader(&measured, bytes, before, wanted.limit);
            std::io::stdout().flush()?;
            now.push(measured);
        }
        print_ratio(&now, wanted.limit);
        println!();
        differ += wrong_answers(&trap, &now);
        before = now.into_iter().map(|measured| Some((bytes, measured))).collect();
    }
    Ok(differ)
}

fn print_loader(measured: &Measured, bytes: usize, before: &Option<(usize, Measured)>, limit: f64) {
    match measured {
        Measured::TooLong => print!("  {:>10} {:>9} {:>6}", format!("> {limit} s"), "", ""),
        Measured::NotRun => print!("  {:>10} {:>9} {:>6}", "not run", "", ""),
        Measured::Took(seconds, _) => {
            let growth = match before {
                Some((less, Measured::Took(earlier, _))) => {
                    format!("{:.2}", seconds / earlier / (bytes as f64 / *less as f64))
                }
                _ => String::new(),
            };
            let cost = seconds * 1e9 / bytes as f64;
            print!("  {seconds:>10.5} {cost:>9.2} {growth:>6}");
        }
    }
}

fn print_ratio(now: &[Measured], limit: f64) {
    match now {
        [Measured::Took(library, _), Measured::Took(second, _)] => {
            print!("  {:>14.2}", library / second);
        }
        [Measured::TooLong, Measured::Took(second, _)] => {
            print!("  {:>14}", format!("> {:.0}", limit / second));
        }
        _ => {}
    }
}

/// Loaders have to give the refusal that the class is made for, and to agree in
/// everything else.
fn wrong_answers(trap: &Trap, now: &[Measured]) -> usize {
    let answers = now.iter().filter_map(|measured| match measured {
        Measured::Took(_, answer) => Some(*answer),
        _ => None,
    });
    let answers: Vec<_> = answers.collect();
    let wrong = answers
        .iter()
        .filter(|answer| answer.refusal != trap.refusal || **answer != answers[0])
        .count();
    if wrong > 0 {
        println!("  WRONG: {} was expected, and the answers are {answers:?}", trap.refusal);
    }
    wrong
}
