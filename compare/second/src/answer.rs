//! What a question answers.

/// A refusal: document 01's number and its place.
#[derive(Clone, Copy, Debug, PartialEq, Eq)]
pub struct Refusal {
    pub number: u32,
    pub place: u64,
}

/// A refusal at a file offset, ready to be returned by a check.
pub fn refuse<T, E: From<Refusal>>(number: u32, place: usize) -> Result<T, E> {
    Err(Refusal { number, place: place as u64 }.into())
}

/// The answer of every question but the header report, laid out as the C
/// interface lays it out. `refusal` 0 means answered. `kind` is 0 save for lookups:
/// 1 for an absent text, and 2 for a collided one, with the number of entries that
/// have its hash.
#[repr(C)]
#[derive(Clone, Copy, Debug, PartialEq, Eq)]
pub struct Answer {
    pub refusal: u32,
    pub kind: u32,
    pub value: u64,
}

pub const ABSENT: Answer = Answer { refusal: 0, kind: 1, value: 0 };

impl Answer {
    pub fn of(value: u64) -> Answer {
        Answer { refusal: 0, kind: 0, value }
    }

    /// So many entries have the text's hash, and none has the text.
    pub fn collided(entries: u32) -> Answer {
        Answer { refusal: 0, kind: 2, value: entries as u64 }
    }
}

impl From<Refusal> for Answer {
    fn from(refusal: Refusal) -> Answer {
        Answer { refusal: refusal.number, kind: 0, value: refusal.place }
    }
}

/// The header report of the C interface. The timestamp's bits travel beside
/// the float because a NaN may lose its payload on the way.
#[repr(C)]
#[derive(Clone, Copy, Debug, Default)]
pub struct HeaderReport {
    pub refusal: u32,
    pub version: u32,
    pub place: u64,
    pub timestamp: f64,
    pub timestamp_bits: u64,
    pub has_revision: u32,
    pub revision: u32,
}

/// Reports are compared by the timestamp's bits; the floats have to agree on
/// being a NaN, and on their bits when they are not.
impl PartialEq for HeaderReport {
    fn eq(&self, other: &HeaderReport) -> bool {
        let floats = if self.timestamp.is_nan() {
            other.timestamp.is_nan()
        } else {
            self.timestamp.to_bits() == other.timestamp.to_bits()
        };
        floats
            && self.refusal == other.refusal
            && self.version == other.version
            && self.place == other.place
            && self.timestamp_bits == other.timestamp_bits
            && self.has_revision == other.has_revision
            && self.revision == other.revision
    }
}
