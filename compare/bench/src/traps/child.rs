//! The process that asks one question of one loader and tells how long it took.

use std::time::Duration;

use compare::loader::{Loader, Second};
use maker::traps::Ask;
use second::{Answer, Plain, Right, Which};

use super::measure::TOO_LONG;
use super::{order, SECOND};
use crate::clock::{now, of_process};

/// A quick question is asked again, up to so often and for about so long; the
/// best time counts.
const ROUNDS: usize = 25;
const ENOUGH: f64 = 0.4;

fn loader(word: &str) -> Option<Box<dyn Loader>> {
    match word {
        SECOND => Some(Box::new(Second::<Right, Plain>::new(SECOND, Right))),
        #[cfg(feature = "rattle")]
        super::LIBRARY => Some(Box::new(compare::rattle::Rattle::default())),
        _ => None,
    }
}

/// Buffers that a question fills.
struct Lent {
    workspace: Vec<u8>,
    out: Vec<u8>,
}

impl Lent {
    fn new(ask: &Ask, nodes: usize) -> Lent {
        let out = match ask {
            // A text has at least two bytes with its 0, an answer eight.
            Ask::Batch(texts) => 4 * texts.len(),
            Ask::Path(_) => 4 * nodes,
            Ask::Outline(room) => *room,
            _ => 0,
        };
        let short = matches!(ask, Ask::AcceptShort) as usize;
        Lent { workspace: vec![0; nodes - short], out: vec![0; out] }
    }

    /// A number that tells what they hold.
    fn digest(&self) -> u64 {
        let eights = self.workspace.chunks(8).chain(self.out.chunks(8));
        eights.fold(0, |digest, eight| {
            let mut word = [0; 8];
            word[..eight.len()].copy_from_slice(eight);
            (digest ^ u64::from_le_bytes(word)).wrapping_mul(0x9e37_79b9_7f4a_7c15).rotate_left(29)
        })
    }
}

fn ask(loader: &dyn Loader, file: &[u8], ask: &Ask, lent: &mut Lent) -> Answer {
    let Lent { workspace, out } = lent;
    match ask {
        Ask::Accept | Ask::AcceptShort => loader.accept(file, workspace),
        Ask::Batch(texts) => loader.batch(Which::Values, file, workspace, texts, out),
        Ask::Singles(texts) => singles(loader, file, texts, workspace),
        Ask::Path(path) => loader.path(file, workspace, path, out),
        Ask::Outline(_) | Ask::OutlineLength => loader.outline(file, workspace, out),
    }
}

/// A question for each text; the answers' values are added up.
fn singles(loader: &dyn Loader, file: &[u8], mut texts: &[u8], workspace: &mut [u8]) -> Answer {
    let mut sum = Answer { refusal: 0, kind: 0, value: 0 };
    while let Some(length) = texts.chunks_exact(2).position(|pair| pair == [0, 0]) {
        let (text, rest) = texts.split_at(2 * length);
        let answer = loader.single(Which::Values, file, workspace, text);
        sum.refusal = sum.refusal.max(answer.refusal);
        sum.kind += answer.kind;
        sum.value = sum.value.wrapping_add(answer.value);
        texts = &rest[2..];
    }
    sum
}

/// Ends this process when it has used so many seconds more.
fn end_after(limit: f64) {
    let end = of_process() + limit;
    std::thread::spawn(move || {
        while of_process() < end {
            std::thread::sleep(Duration::from_millis(20));
        }
        println!("{TOO_LONG}");
        std::process::exit(0);
    });
}

/// The words are the loader, the file, the question's file, the number of used
/// nodes and the limit. Says the time and the answer, or that it took too long.
pub fn run(words: &[String]) -> Option<()> {
    let [word, file, ask_file, nodes, limit] = words else {
        return None;
    };
    let loader = loader(word)?;
    let file = std::fs::read(file).ok()?;
    let question = order::from_bytes(&std::fs::read(ask_file).ok()?)?;
    let mut lent = Lent::new(&question, nodes.parse().ok()?);
    end_after(limit.parse().ok()?);
    let (mut best, mut all) = (f64::MAX, 0.0);
    let mut answer = Answer { refusal: 0, kind: 0, value: 0 };
    for _ in 0..ROUNDS {
        lent.workspace.fill(0);
        let started = now();
        answer = ask(loader.as_ref(), &file, &question, &mut lent);
        let seconds = now() - started;
        best = best.min(seconds);
        all += seconds;
        if all > ENOUGH {
            break;
        }
    }
    println!("{best} {} {} {} {}", answer.refusal, answer.kind, answer.value, lent.digest());
    Some(())
}
