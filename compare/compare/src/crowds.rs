//! Questions about a file with crowded buckets, and their answers.

use maker::buckets::file::Crowded;
use maker::buckets::shape::Shape;
use maker::buckets::strings::Strings;
use maker::rng::Rng;
use maker::text::{to_bytes, Text};
use second::{Answer, Which};

use crate::due::{list, places, told, Due};
use crate::question::Ask;

/// Collects questions.
struct Asker<'a> {
    rng: &'a mut Rng,
    file: &'a Crowded,
    workspace: usize,
    all: Vec<Due>,
}

/// Crowds of so few entries are asked for whole, one by one. Of others some are, with
/// both ends among them; batches and paths ask for the rest. Larger files get fewer
/// questions, as each accepts the file first.
const FEW: usize = 17;
pub const MIDDLING: usize = 65;
const LARGE: usize = 257;
const CHAINS: usize = 5;

/// Places among so many: the ends, those about halves and thirds, and others.
fn sample(rng: &mut Rng, count: usize) -> Vec<usize> {
    if count <= FEW {
        return (0..count).collect();
    }
    let wished = match () {
        _ if count <= MIDDLING => 12,
        _ if count <= LARGE => 8,
        _ => 5,
    };
    let (half, third) = (count / 2, count / 3);
    let mut all = vec![1, count - 2, half - 1, half, half + 1, third - 1, third, 2 * third];
    rng.shuffle(&mut all);
    all.truncate(wished - 3);
    all.extend([0, count - 1, rng.below(count)]);
    all
}

/// All questions about a file that is accepted.
pub fn questions(rng: &mut Rng, shape: Shape, file: &Crowded) -> Vec<Due> {
    let workspace = file.model.used_nodes();
    let mut asker = Asker { rng, file, workspace, all: Vec::new() };
    let accepted = Answer { refusal: 0, kind: 0, value: workspace as u64 };
    asker.ask(Ask::Accept, accepted, Vec::new());
    for which in [Which::Names, Which::Values] {
        // Only batches estimate where a hash stands.
        if !matches!(shape, Shape::Shifted(_)) {
            asker.singles(which);
        }
        asker.batches(which);
    }
    asker.paths();
    asker.all
}

impl Asker<'_> {
    fn ask(&mut self, ask: Ask, answer: Answer, out: Vec<u8>) {
        self.all.push(Due::new(self.rng, self.workspace, ask, answer, out));
    }

    fn strings(&self, which: Which) -> &Strings {
        match which {
            Which::Names => &self.file.names,
            Which::Values => &self.file.values,
        }
    }

    fn singles(&mut self, which: Which) {
        let (crowd, absent) = (self.strings(which).crowd.len(), self.strings(which).absent.len());
        let (present, missing) = (sample(self.rng, crowd), sample(self.rng, absent));
        let strings = self.strings(which);
        let present = present.into_iter().map(|i| strings.in_crowd(i).clone());
        let missing = missing.into_iter().map(|i| strings.absent[i].clone());
        for text in present.chain(missing).collect::<Vec<_>>() {
            let answer = told(self.file.look_up(which, &text));
            self.ask(Ask::Single(which, to_bytes(&text)), answer, Vec::new());
        }
    }

    /// All texts and all absent ones, mixed, and some of them: one, and about as many as a
    /// program may look up at once.
    fn batches(&mut self, which: Which) {
        let strings = self.strings(which);
        let large = strings.crowd.len() > MIDDLING;
        let mut pool: Vec<Text> = strings.texts.iter().chain(&strings.absent).cloned().collect();
        self.rng.shuffle(&mut pool);
        let mut counts = vec![1, 1, 63, 64, 65];
        if large {
            self.rng.shuffle(&mut counts);
            counts.truncate(2);
        }
        for count in counts {
            let texts: Vec<Text> = (0..count).map(|_| self.rng.pick(&pool).clone()).collect();
            self.batch(which, &texts);
        }
        self.batch(which, &pool);
    }

    fn batch(&mut self, which: Which, texts: &[Text]) {
        let out = places(texts.iter().map(|text| self.file.look_up(which, text)));
        let answer = Answer { refusal: 0, kind: 0, value: texts.len() as u64 };
        self.ask(Ask::Batch(which, list(texts)), answer, out);
    }

    /// Whole chains, which ask for every name of the crowd; parts of them; and parts whose
    /// last name is an absent one. Of a large crowd some chains are asked for.
    fn paths(&mut self) {
        let mut chains: Vec<Vec<Text>> = self.file.chains().collect();
        if chains.len() > CHAINS {
            self.rng.shuffle(&mut chains);
            chains.truncate(CHAINS);
        }
        for (i, chain) in chains.iter().enumerate() {
            self.path(chain);
            if i > 1 {
                continue;
            }
            let length = 1 + self.rng.below(chain.len());
            let mut part = chain[..length].to_vec();
            self.path(&part);
            part[length - 1] = self.rng.pick(&self.file.names.absent).clone();
            self.path(&part);
        }
        let ends = [self.file.names.absent.first(), self.file.names.absent.last()];
        for absent in ends.into_iter().flatten().cloned().collect::<Vec<_>>() {
            self.path(&[absent]);
        }
    }

    fn path(&mut self, names: &[Text]) {
        let matches = self.file.matches(names);
        let answer = Answer { refusal: 0, kind: 0, value: matches.len() as u64 };
        let out = matches.iter().flat_map(|place| place.to_le_bytes()).collect();
        self.ask(Ask::Path(list(names)), answer, out);
    }
}
