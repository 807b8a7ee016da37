//! A question with the buffers it lends, and what comes of it.

use maker::rng::Rng;
use second::{Answer, HeaderReport, Which};

use crate::guard::{Edge, Guarded};
use crate::hashes::{HashAsk, HashQuestion};
use crate::loader::Loader;

#[derive(Clone, Debug)]
pub enum Ask {
    Accept,
    Header,
    Single(Which, Vec<u8>),
    Path(Vec<u8>),
    Outline,
    Batch(Which, Vec<u8>),
}

#[derive(Clone, Debug)]
pub struct Question {
    pub ask: Ask,
    /// Length of the workspace.
    pub workspace: usize,
    /// Length of the listing, outline or answers buffer.
    pub out: usize,
    /// Decides what the buffers hold before.
    pub fill: u64,
    /// Which edge of the buffers touches an unmapped page.
    pub edge: Edge,
    /// Empty buffers are lent as null pointers.
    pub null: bool,
}

#[derive(Clone, Copy, Debug, PartialEq)]
pub enum Reply {
    Answer(Answer),
    Header(HeaderReport),
}

impl Reply {
    pub fn refusal(self) -> u32 {
        match self {
            Reply::Answer(answer) => answer.refusal,
            Reply::Header(report) => report.refusal,
        }
    }
}

/// The answer and what the lent buffers hold after it.
#[derive(Clone, Debug, PartialEq)]
pub struct Outcome {
    pub reply: Reply,
    pub workspace: Vec<u8>,
    pub out: Vec<u8>,
}

/// The pages buffers are lent from.
pub struct Pages {
    pub file: Guarded,
    workspace: Guarded,
    out: Guarded,
    text: Guarded,
}

impl Default for Pages {
    fn default() -> Pages {
        Pages {
            file: Guarded::new(1 << 20),
            workspace: Guarded::new(1 << 16),
            out: Guarded::new(1 << 18),
            text: Guarded::new(1 << 14),
        }
    }
}

fn fill(rng: &mut Rng, bytes: &mut [u8]) {
    for eight in bytes.chunks_mut(8) {
        let random = rng.draw().to_le_bytes();
        eight.copy_from_slice(&random[..eight.len()]);
    }
}

impl Pages {
    /// Asks on a file that is a slice of its own.
    pub fn ask(&mut self, loader: &dyn Loader, file: &[u8], question: &Question) -> Outcome {
        let Pages { workspace, out, text, .. } = self;
        ask(loader, file, question, [workspace, out, text])
    }

    /// Puts a file into the guarded pages.
    pub fn put_file(&mut self, bytes: &[u8], edge: Edge) {
        self.file.lend(bytes.len(), edge).copy_from_slice(bytes);
    }

    /// Asks on the file that was put; none where the file is changed after.
    pub fn ask_put(
        &mut self,
        loader: &dyn Loader,
        bytes: &[u8],
        question: &Question,
    ) -> Option<Outcome> {
        let Pages { file, workspace, out, text } = self;
        let file = file.lend(bytes.len(), question.edge);
        let outcome = ask(loader, file, question, [workspace, out, text]);
        (file == bytes).then_some(outcome)
    }

    /// The hashes that are asked for, in order. None where a text is changed
    /// after.
    pub fn ask_hash(
        &mut self,
        loader: &dyn Loader,
        text: &[u8],
        question: &HashQuestion,
    ) -> Option<Vec<u32>> {
        loader.empty_as_null(question.null);
        let mut put = |part: &[u8], ask: &dyn Fn(&[u8]) -> u32| {
            let lent = self.text.lend(part.len(), question.edge);
            lent.copy_from_slice(part);
            let hash = ask(lent);
            (lent == part).then_some(hash)
        };
        match &question.ask {
            HashAsk::Value(bytes) => {
                Some(vec![put(&text[..*bytes], &|text| loader.value_hash(text))?])
            }
            HashAsk::Parts(start, cuts) => {
                let mut all = Vec::with_capacity(cuts.len() + 2);
                let (mut hash, mut from) = (*start, 0);
                for to in cuts.iter().copied().chain([text.len()]) {
                    hash = put(&text[from..to], &|part| loader.hash(hash, part))?;
                    from = to;
                    all.push(hash);
                }
                all.push(put(text, &|text| loader.hash(*start, text))?);
                Some(all)
            }
        }
    }
}

fn ask(
    loader: &dyn Loader,
    file: &[u8],
    question: &Question,
    [workspace, out, text]: [&mut Guarded; 3],
) -> Outcome {
    let mut rng = Rng::new(question.fill);
    let workspace = workspace.lend(question.workspace, question.edge);
    let out = out.lend(question.out, question.edge);
    fill(&mut rng, workspace);
    fill(&mut rng, out);
    let asked: &[u8] = match &question.ask {
        Ask::Single(_, bytes) | Ask::Path(bytes) | Ask::Batch(_, bytes) => bytes,
        _ => &[],
    };
    let lent = text.lend(asked.len(), question.edge);
    lent.copy_from_slice(asked);
    loader.empty_as_null(question.null);
    let reply = match question.ask {
        Ask::Accept => Reply::Answer(loader.accept(file, workspace)),
        Ask::Header => Reply::Header(loader.header(file, workspace)),
        Ask::Outline => Reply::Answer(loader.outline(file, workspace, out)),
        Ask::Single(which, _) => Reply::Answer(loader.single(which, file, workspace, lent)),
        Ask::Path(_) => Reply::Answer(loader.path(file, workspace, lent, out)),
        Ask::Batch(which, _) => Reply::Answer(loader.batch(which, file, workspace, lent, out)),
    };
    Outcome { reply, workspace: workspace.to_vec(), out: out.to_vec() }
}
