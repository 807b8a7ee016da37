//! Many look-ups in one question: the library's in a batch, whose acceptance is taken
//! off, and the second program's on a held view.

use maker::buckets::speed::{Crowds, Spread, Table, SPREADS};
use maker::rng::Rng;
use maker::text::{to_bytes, Text};
use second::Which;

use super::{words, Subjects, ENTRIES};
use crate::subject::Batch;

const LOOKUPS: usize = 1_000_000;
const ROUNDS: usize = 12;
const TABLES: [(Table, Which); 2] = [(Table::Values, Which::Values), (Table::Names, Which::Names)];

/// A file of one spread, what is asked about it, and each loader's best times.
struct Measured {
    bytes: Vec<u8>,
    workspace: Vec<u8>,
    batch: Batch,
    accept: [f64; 2],
    lookups: [f64; 2],
}

impl Measured {
    fn new(table: Table, entries: usize, spread: Spread) -> Measured {
        let crowds = Crowds::new(table, entries, spread);
        Measured {
            bytes: crowds.model.bytes(),
            workspace: vec![0; crowds.model.used_nodes()],
            batch: batch(&crowds),
            accept: [f64::MAX; 2],
            lookups: [f64::MAX; 2],
        }
    }

    /// One question of each sort to each loader.
    fn round(&mut self, subjects: &Subjects, which: Which) {
        let Measured { bytes, workspace, batch, accept, lookups } = self;
        for (i, subject) in subjects.iter().enumerate() {
            workspace.fill(0);
            accept[i] = accept[i].min(subject.accept(bytes, workspace));
            lookups[i] = lookups[i].min(subject.lookups(bytes, workspace, which, batch));
        }
    }

    /// Million look-ups a second.
    fn rates(&self, subjects: &Subjects) -> [f64; 2] {
        std::array::from_fn(|i| {
            let off = if subjects[i].accepts_again() { self.accept[i] } else { 0.0 };
            LOOKUPS as f64 / (self.lookups[i] - off) / 1e6
        })
    }
}

/// Texts picked at random, one in ten absent.
fn batch(crowds: &Crowds) -> Batch {
    let bytes = |texts: &[Text]| -> Vec<Vec<u8>> {
        texts.iter().map(|text| [to_bytes(text), vec![0, 0]].concat()).collect()
    };
    let (present, absent) = (bytes(&crowds.present), bytes(&crowds.absent));
    let mut rng = Rng::new(4);
    let mut texts = Vec::new();
    for _ in 0..LOOKUPS {
        let from = if rng.one_in(10) { &absent } else { &present };
        let text: &Vec<u8> = rng.pick(from);
        texts.extend_from_slice(text);
    }
    Batch { texts, count: LOOKUPS }
}

/// Rates of all spreads, which take turns in each round.
fn measure(subjects: &Subjects, table: Table, which: Which, entries: usize) -> Vec<[f64; 2]> {
    let mut files = SPREADS.map(|spread| Measured::new(table, entries, spread));
    for _ in 0..ROUNDS {
        files.iter_mut().for_each(|file| file.round(subjects, which));
    }
    files.iter().map(|file| file.rates(subjects)).collect()
}

/// The smallest ratio of a loader, and where it was.
struct Worst {
    ratio: f64,
    words: String,
}

pub fn run(subjects: &Subjects) {
    println!("{LOOKUPS} look-ups in one question, million a second, best of {ROUNDS} rounds.");
    println!("ratio: the rate divided by that of the even hashes of as many entries.");
    print!("{:>7}  {:21}", "entries", "hashes");
    for table in ["values", "names"] {
        print!(
            "  {:>15} {:>5} {:>7} {:>5}",
            format!("{table}: library"),
            "ratio",
            "second",
            "ratio"
        );
    }
    println!();
    let mut worst = [(); 4].map(|()| Worst { ratio: f64::MAX, words: String::new() });
    for entries in ENTRIES {
        let rates = TABLES.map(|(table, which)| measure(subjects, table, which, entries));
        for (i, &spread) in SPREADS.iter().enumerate() {
            print!("{entries:>7}  {:21}", words(spread));
            for ((table, _), rates) in TABLES.iter().zip(&rates) {
                print_rates(rates[i], rates[0]);
                let words = format!("{table:?}, {entries} entries, {}", words(spread));
                note(&mut worst[..2], rates[i], rates[0], &words);
                if spread == Spread::AllButOneEqual {
                    note(&mut worst[2..], rates[i], rates[i - 1], &words);
                }
            }
            println!();
        }
    }
    print_worst(subjects, &worst);
}

fn print_rates(rates: [f64; 2], even: [f64; 2]) {
    let [library, second] = rates;
    let ratio = |i: usize| rates[i] / even[i];
    print!("  {library:>15.2} {:>5.2} {second:>7.2} {:>5.2}", ratio(0), ratio(1));
}

fn note(worst: &mut [Worst], rates: [f64; 2], even: [f64; 2], words: &str) {
    for (i, worst) in worst.iter_mut().enumerate() {
        if rates[i] / even[i] < worst.ratio {
            *worst = Worst { ratio: rates[i] / even[i], words: words.to_string() };
        }
    }
}

fn print_worst(subjects: &Subjects, worst: &[Worst; 4]) {
    for (i, subject) in subjects.iter().enumerate() {
        let title = subject.title();
        println!("worst ratio, {title}: {:.2} ({})", worst[i].ratio, worst[i].words);
        let Worst { ratio, words } = &worst[2 + i];
        println!("  to even hashes asked at the same ends: {ratio:.2} ({words})");
    }
}
