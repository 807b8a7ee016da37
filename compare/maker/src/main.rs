//! Writes made files: `maker samples DIRECTORY`, `maker large MEGABYTES FILE`,
//! with the word `shuffled` behind it for texts that stand anywhere or `dropped` for
//! segments whose last text has no stored 0, or `maker trap NAME KILOBYTES FILE`. Prints
//! texts with 0151 that both folds give one value hash: `maker alike`.

use std::path::Path;
use std::process::ExitCode;

use maker::large::{large, Order};
use maker::letter::alike::phrases;
use maker::letter::rule::Rule;
use maker::text::text;

fn run(words: &[&str]) -> std::io::Result<bool> {
    match words {
        ["samples", directory] => {
            std::fs::create_dir_all(directory)?;
            for sample in maker::samples::all() {
                let path = Path::new(directory).join(sample.name);
                std::fs::write(&path, &sample.bytes)?;
                println!("{}: {} bytes", path.display(), sample.bytes.len());
            }
        }
        ["large", megabytes, file, rest @ ..] => {
            let order = match rest {
                [] => Order::AsUsed,
                ["shuffled"] => Order::Shuffled,
                ["dropped"] => Order::Dropped,
                _ => return Ok(false),
            };
            let Ok(megabytes) = megabytes.parse() else {
                return Ok(false);
            };
            let made = large(megabytes, order);
            std::fs::write(file, &made.bytes)?;
            println!("{file}: {} bytes, {} nodes", made.bytes.len(), made.nodes);
        }
        ["trap", name, kilobytes, file] => {
            let class = maker::traps::all().into_iter().find(|class| class.name == *name);
            let (Some(class), Ok(kilobytes)) = (class, kilobytes.parse::<usize>()) else {
                return Ok(false);
            };
            let trap = class.make(1_000 * kilobytes);
            let bytes = trap.model.bytes();
            std::fs::write(file, &bytes)?;
            println!("{file}: {} bytes, refusal {}", bytes.len(), trap.refusal);
        }
        ["alike"] => phrases().iter().for_each(|phrase| alike(phrase)),
        _ => return Ok(false),
    }
    Ok(true)
}

/// A phrase, its value hash, and the hashes of its folded characters by both folds.
fn alike(phrase: &str) {
    let [now, before] = [Rule::Now, Rule::Before].map(|rule| rule.hash(&text(phrase)));
    let (length, kept) = (phrase.chars().count(), now & 0x3fff);
    println!("{length} {phrase}: {kept}, of {now:08x} and of {before:08x}");
}

fn main() -> ExitCode {
    let words: Vec<String> = std::env::args().skip(1).collect();
    let words: Vec<&str> = words.iter().map(String::as_str).collect();
    match run(&words) {
        Ok(true) => ExitCode::SUCCESS,
        Ok(false) => {
            eprintln!("maker samples DIRECTORY | maker large MEGABYTES FILE [shuffled|dropped]");
            eprintln!("maker trap NAME KILOBYTES FILE, with the names of `bench traps`");
            eprintln!("maker alike");
            ExitCode::from(2)
        }
        Err(error) => {
            eprintln!("{error}");
            ExitCode::FAILURE
        }
    }
}
