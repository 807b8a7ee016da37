//! Look-ups that find a text, that find none, and that collide: `bench collided`.
//!
//! In a list they are measured as the others are: the library's acceptance is taken off,
//! and the second program holds a view. One by one, the library accepts a small file for
//! each text, and that is not taken off.

use maker::collided::speed::Asked;
use maker::rng::Rng;
use maker::text::{to_bytes, Text};
use second::Which;

use crate::subject::{Batch, Subject};

/// The library and the second program, in this order.
type Subjects = [Box<dyn Subject>; 2];

const TABLES: [Which; 2] = [Which::Values, Which::Names];
/// Entries that have one hash.
const OF_HASH: [usize; 4] = [1, 2, 10, 100];
const KINDS: [&str; 3] = ["found", "absent", "collided"];

/// Texts of the file that lists ask about, and of the small one.
const TEXTS: usize = 50_000;
const FEW: usize = 100;
const LISTED: usize = 500_000;
const SINGLES: usize = 1_000;
const ROUNDS: usize = 12;

/// A file, the texts of each kind to ask for, and each loader's best times.
struct Measured {
    bytes: Vec<u8>,
    workspace: Vec<u8>,
    texts: [Vec<Vec<u8>>; 3],
    accept: [f64; 2],
    /// By kind, then by loader.
    times: [[f64; 2]; 3],
}

impl Measured {
    /// So many texts of each kind, picked at random.
    fn new(which: Which, texts: usize, of_hash: usize, asked: usize) -> Measured {
        let file = Asked::new(which, texts, of_hash);
        let mut rng = Rng::new(6);
        let mut pick = |from: &[Text]| -> Vec<Vec<u8>> {
            (0..asked).map(|_| to_bytes(rng.pick::<Text>(from))).collect()
        };
        Measured {
            bytes: file.model.bytes(),
            workspace: vec![0; file.model.used_nodes()],
            texts: [pick(&file.found), pick(&file.absent), pick(&file.collided)],
            accept: [f64::MAX; 2],
            times: [[f64::MAX; 2]; 3],
        }
    }

    fn accept(&mut self, subjects: &Subjects) {
        for (subject, best) in subjects.iter().zip(&mut self.accept) {
            self.workspace.fill(0);
            *best = best.min(subject.accept(&self.bytes, &mut self.workspace));
        }
    }

    /// All texts of each kind in one question, which takes turns with acceptance.
    fn lists(&mut self, subjects: &Subjects, which: Which) {
        let ended = |texts: &Vec<Vec<u8>>| Batch {
            texts: texts.iter().flat_map(|text| [&text[..], &[0, 0]].concat()).collect(),
            count: texts.len(),
        };
        let batches = self.texts.each_ref().map(ended);
        for _ in 0..ROUNDS {
            self.accept(subjects);
            let Measured { bytes, workspace, times, .. } = &mut *self;
            for (batch, times) in batches.iter().zip(times) {
                for (subject, best) in subjects.iter().zip(times) {
                    *best = best.min(subject.lookups(bytes, workspace, which, batch));
                }
            }
        }
    }

    /// A question for each text.
    fn singles(&mut self, subjects: &Subjects, which: Which) {
        for _ in 0..ROUNDS {
            let Measured { bytes, workspace, texts, times, .. } = &mut *self;
            for (texts, times) in texts.iter().zip(times) {
                for (subject, best) in subjects.iter().zip(times) {
                    *best = best.min(subject.singles(bytes, workspace, which, texts));
                }
            }
        }
    }
}

pub fn run(subjects: &Subjects) {
    println!("loaders: {} and {}", subjects[0].title(), subjects[1].title());
    println!("list: {LISTED} look-ups of a kind in one question, million a second, in a file");
    println!("of {TEXTS} texts; one by one: {SINGLES} questions in a file of {FEW} texts,");
    println!("thousand a second, with acceptance where the loader holds no view. Best of");
    println!("{ROUNDS} rounds.");
    print!("{:7} {:>8} {:9}", "table", "of hash", "kind");
    for title in ["list: 1st", "2nd", "one: 1st", "2nd"] {
        print!("{title:>9} ");
    }
    println!();
    for which in TABLES {
        for of_hash in OF_HASH {
            let mut many = Measured::new(which, TEXTS, of_hash, LISTED);
            many.lists(subjects, which);
            let mut few = Measured::new(which, FEW, of_hash, SINGLES);
            few.singles(subjects, which);
            print(subjects, which, of_hash, [&many, &few]);
        }
    }
}

fn print(subjects: &Subjects, which: Which, of_hash: usize, [many, few]: [&Measured; 2]) {
    for (kind, words) in KINDS.iter().enumerate() {
        print!("{:7} {of_hash:>8} {words:9}", format!("{which:?}"));
        for (i, subject) in subjects.iter().enumerate() {
            let off = if subject.accepts_again() { many.accept[i] } else { 0.0 };
            print!("{:>9.2} ", LISTED as f64 / (many.times[kind][i] - off) / 1e6);
        }
        for i in 0..subjects.len() {
            print!("{:>9.1} ", SINGLES as f64 / few.times[kind][i] / 1e3);
        }
        println!();
    }
}
