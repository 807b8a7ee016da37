//! Shows that the comparison's questions tell wrong readings of document 01
//! from the right one: each mutant of the second loader has to differ in an
//! answer or a buffer somewhere. Those of the hashes have to differ in a hash
//! of a text by itself too, whatever files show.

mod suspects;

use std::process::ExitCode;
use std::time::{Duration, Instant};

use compare::asks::{asks, every};
use compare::buckets;
use compare::case::{random, Case};
use compare::collisions;
use compare::directed;
use compare::guard::Edge;
use compare::hashes;
use compare::letter;
use compare::question::Question;
use compare::run::PLAIN;
use compare::sparse::Largest;
use compare::sweep::{cut_counts, cuts, limits};
use compare::texts;
use maker::rng::Rng;
use second::Mutant;

use suspects::Suspects;

/// After so long whoever is left has survived.
const BUDGET: Duration = Duration::from_secs(300);

fn case(suspects: &mut Suspects, rng: &mut Rng, case: &Case) {
    ask(suspects, case, &asks(rng, case));
}

fn ask(suspects: &mut Suspects, case: &Case, questions: &[Question]) {
    for edge in [Edge::End, Edge::Start] {
        suspects.pages.put_file(&case.bytes, edge);
        for question in questions.iter().filter(|question| question.edge == edge) {
            suspects.question(&case.bytes, question);
        }
    }
}

/// Random files first, then those whose texts end with the used part, and the sweeps and
/// limits that random ones rarely hit.
fn files(suspects: &mut Suspects, seed: u64) {
    let started = Instant::now();
    let done = |suspects: &Suspects| suspects.all_caught() || started.elapsed() > BUDGET;
    let mut rng = Rng::new(seed);
    for _ in 0..1_500 {
        let made = random(&mut rng);
        case(suspects, &mut rng, &made);
    }
    for made in directed::cases(seed) {
        ask(suspects, &made, &every(&mut rng, &made));
    }
    for make in limits() {
        let made = make(&mut rng);
        case(suspects, &mut rng, &made);
    }
    let mut largest = Largest::new();
    suspects.question_on(largest.bytes(0), &Question { workspace: 1, ..PLAIN });
    for made in cut_counts(&mut rng).chain(cuts(&mut rng.clone())) {
        if done(suspects) {
            return;
        }
        case(suspects, &mut rng, &made);
    }
    while !done(suspects) {
        let made = random(&mut rng);
        case(suspects, &mut rng, &made);
    }
}

/// The files with the letter 0151, for the wrong readings of request T-10.
fn letters(suspects: &mut Suspects, seed: u64) {
    let mut rng = Rng::new(seed);
    for (made, _) in letter::cases(seed) {
        if suspects.all_caught() {
            return;
        }
        ask(suspects, &made, &letter::questions(&mut rng, &made));
    }
}

/// The files with crowded buckets, for the wrong readings of request T-03.
fn crowds(suspects: &mut Suspects, seed: u64) {
    for (made, all) in buckets::cases(seed) {
        if suspects.all_caught() {
            return;
        }
        let questions: Vec<Question> = all.into_iter().map(|due| due.question).collect();
        ask(suspects, &made, &questions);
    }
}

/// The files in which texts have the hash of others, for the wrong readings of request T-05.
fn collided(suspects: &mut Suspects, seed: u64) {
    for (made, all) in collisions::cases(seed) {
        if suspects.all_caught() {
            return;
        }
        let questions: Vec<Question> = all.into_iter().map(|due| due.question).collect();
        ask(suspects, &made, &questions);
    }
}

/// The texts that every comparison hashes, and long ones with the letter.
fn texts_alone(suspects: &mut Suspects, seed: u64) {
    let mut rng = Rng::new(seed);
    let ordinary = texts::ordinary(&mut rng);
    for text in [ordinary, texts::letters(&mut rng), texts::long_letters(&mut rng)].concat() {
        for question in hashes::questions(&mut rng, &text) {
            suspects.hash(&text, &question);
        }
        if suspects.all_caught() {
            return;
        }
    }
}

fn main() -> ExitCode {
    let seed = std::env::args().nth(1).and_then(|word| word.parse().ok()).unwrap_or(1);
    // A mutant may run into its own mistake and panic; that is a difference
    // too, and needs no words of its own.
    std::panic::set_hook(Box::new(|_| {}));
    let of_letter = [Mutant::LETTER_HASHES, Mutant::LETTER_FILES].concat();
    let mut by_letter = Suspects::new(of_letter.iter().copied());
    letters(&mut by_letter, seed);
    let mut by_crowds = Suspects::new(Mutant::SEARCHES.iter().copied());
    crowds(&mut by_crowds, seed);
    let of_collisions = [Mutant::COLLISIONS, Mutant::COLLISION_LISTS].concat();
    let mut by_collisions = Suspects::new(of_collisions.iter().copied());
    collided(&mut by_collisions, seed);
    let elsewhere = [Mutant::HASHES_ALONE, Mutant::SEARCHES, &of_letter, &of_collisions].concat();
    let shown = Mutant::ALL.iter().copied().filter(|mutant| !elsewhere.contains(mutant));
    let mut by_files = Suspects::new(shown);
    files(&mut by_files, seed);
    let hashes = [Mutant::HASHES, Mutant::HASHES_ALONE, Mutant::LETTER_HASHES].concat();
    let mut by_texts = Suspects::new(hashes.into_iter());
    texts_alone(&mut by_texts, seed);
    print!("files:\n{by_files}files with 0151:\n{by_letter}");
    print!("files with crowded buckets:\n{by_crowds}");
    print!("files with collided texts:\n{by_collisions}texts by themselves:\n{by_texts}");
    let all = [by_files, by_letter, by_crowds, by_collisions, by_texts];
    if all.iter().all(Suspects::all_caught) {
        ExitCode::SUCCESS
    } else {
        ExitCode::FAILURE
    }
}
