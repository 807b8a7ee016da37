//! Single look-ups: the names of a path are looked up one by one, after one acceptance.
//!
//! A path of 63 names and the empty path are asked in turns, and the difference of their
//! times is told. Most of each time is the acceptance, which is the same for both but
//! does not always take as long. So the median of many differences counts, and its error
//! is told too.

use maker::buckets::speed::{Crowds, Spread, Table};
use maker::rng::Rng;
use maker::text::{to_bytes, Text};

use super::{words, Subjects, ENTRIES};
use crate::clock::now;
use crate::subject::Subject;

/// Names of a path, as many as there are levels below the root.
const NAMES: usize = 63;
/// Different paths, so that a processor cannot learn the turns of all look-ups.
const PATHS: usize = 200;
/// A loader has so many rounds in a row, after some questions that do not count: what the
/// other loader left behind in the processor wears off slowly.
const ROUNDS: usize = 50;
const UNCOUNTED: usize = 8;
/// So often, or until a line has taken so many seconds.
const TURNS: usize = 20;
const ENOUGH: f64 = 8.0;
const SPREADS: [Spread; 3] = [Spread::Even, Spread::Clustered, Spread::AllButOneEqual];

/// A file, and paths of names that its crowded bucket has. No node bears them.
struct File {
    bytes: Vec<u8>,
    workspace: Vec<u8>,
    paths: Vec<Vec<u8>>,
}

/// Times of one loader in nanoseconds: of a look-up by each round, and of the empty path.
#[derive(Default)]
struct Times {
    look_ups: Vec<f64>,
    empty: Vec<f64>,
}

impl File {
    fn new(entries: usize, spread: Spread) -> File {
        let crowds = Crowds::one(Table::Names, entries, spread);
        let mut rng = Rng::new(5);
        let mut path = || {
            let name = |_| {
                let name: &Text = rng.pick(&crowds.present);
                [to_bytes(name), vec![0, 0]].concat()
            };
            (0..NAMES).flat_map(name).collect()
        };
        File {
            bytes: crowds.model.bytes(),
            workspace: vec![0; crowds.model.used_nodes()],
            paths: (0..PATHS).map(|_| path()).collect(),
        }
    }

    /// Rounds of two questions of each sort. The ones in the middle are of one sort, so
    /// that a change of speed meets both alike.
    fn rounds(&mut self, subject: &dyn Subject, times: &mut Times) {
        let File { bytes, workspace, paths } = self;
        let mut ask = |path: &[u8]| {
            workspace.fill(0);
            subject.path_into(bytes, workspace, path, &mut [0; 4]) * 1e9
        };
        (0..UNCOUNTED).for_each(|_| {
            ask(&[]);
        });
        for _ in 0..ROUNDS {
            let round = times.look_ups.len();
            let path = |number: usize| &paths[number % PATHS][..];
            let asked = [&[], path(2 * round), path(2 * round + 1), &[]];
            let [first, one, other, last] = asked.map(&mut ask);
            times.look_ups.push((one + other - first - last) / 2.0 / NAMES as f64);
            times.empty.extend([first, last]);
        }
    }
}

/// The median of some numbers, and its standard error, as the quartiles tell it for
/// normally distributed numbers.
fn median(mut numbers: Vec<f64>) -> (f64, f64) {
    numbers.sort_by(f64::total_cmp);
    let quarter = |i: usize| numbers[(numbers.len() - 1) * i / 4];
    (quarter(2), 0.93 * (quarter(3) - quarter(1)) / (numbers.len() as f64).sqrt())
}

fn measure(subjects: &Subjects, entries: usize, spread: Spread) -> [Times; 2] {
    let mut file = File::new(entries, spread);
    let mut all = [Times::default(), Times::default()];
    let started = now();
    for _ in 0..TURNS {
        for (subject, times) in subjects.iter().zip(&mut all) {
            file.rounds(subject.as_ref(), times);
        }
        if now() - started > ENOUGH {
            break;
        }
    }
    all
}

pub fn run(subjects: &Subjects) {
    println!("one look-up of a path's {NAMES}, in a file with one crowded bucket of names:");
    println!("ns, the median of up to {} differences to the empty path, and its", TURNS * ROUNDS);
    println!("standard error; accept: microseconds of the empty path, most of them acceptance.");
    print!("{:>7}  {:21}", "entries", "hashes");
    println!("  {:>15} {:>8}  {:>15} {:>8}", "library", "accept", "second", "accept");
    for entries in ENTRIES {
        for spread in SPREADS {
            print!("{entries:>7}  {:21}", words(spread));
            for Times { look_ups, empty } in measure(subjects, entries, spread) {
                let ((time, off), (empty, _)) = (median(look_ups), median(empty));
                // Within the error it may be nothing at all.
                let told = time > 3.0 * off;
                let time = if told { format!("{time:.1}") } else { "not told".to_string() };
                print!("  {time:>8} ± {off:>4.1} {:>8.1}", empty / 1e3);
            }
            println!();
        }
    }
}
