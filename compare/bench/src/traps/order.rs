//! What a child is to do, in files: the trap's bytes, and beside them its
//! question with the texts or the path that go with it.

use std::path::{Path, PathBuf};

use maker::traps::{Ask, Trap};

/// Where a trap was written.
pub struct Order {
    pub file: PathBuf,
    pub ask: PathBuf,
    /// The file's length and its used nodes.
    pub bytes: usize,
    pub nodes: usize,
}

const TRAP: &str = "trap.dc";
const ASK: &str = "ask";

impl Order {
    pub fn write(directory: &Path, trap: &Trap) -> std::io::Result<Order> {
        let (file, ask) = (directory.join(TRAP), directory.join(ASK));
        let bytes = trap.model.bytes();
        std::fs::write(&file, &bytes)?;
        std::fs::write(&ask, to_bytes(&trap.ask))?;
        Ok(Order { file, ask, bytes: bytes.len(), nodes: trap.model.used_nodes() })
    }
}

/// A letter, and what belongs to the question.
fn to_bytes(ask: &Ask) -> Vec<u8> {
    let (letter, rest): (u8, &[u8]) = match ask {
        Ask::Accept => (b'a', &[]),
        Ask::AcceptShort => (b's', &[]),
        Ask::Batch(texts) => (b'b', texts),
        Ask::Singles(texts) => (b'o', texts),
        Ask::Path(path) => (b'p', path),
        Ask::Outline(room) => return [&[b'w'][..], &room.to_le_bytes()].concat(),
        Ask::OutlineLength => (b'l', &[]),
    };
    [&[letter][..], rest].concat()
}

pub fn from_bytes(bytes: &[u8]) -> Option<Ask> {
    let (letter, rest) = bytes.split_first()?;
    Some(match letter {
        b'a' => Ask::Accept,
        b's' => Ask::AcceptShort,
        b'b' => Ask::Batch(rest.to_vec()),
        b'o' => Ask::Singles(rest.to_vec()),
        b'p' => Ask::Path(rest.to_vec()),
        b'w' => Ask::Outline(usize::from_le_bytes(rest.try_into().ok()?)),
        b'l' => Ask::OutlineLength,
        _ => return None,
    })
}

#[cfg(test)]
mod tests {
    use super::*;

    #[test]
    fn questions_come_back() {
        let asks = [
            Ask::Accept,
            Ask::AcceptShort,
            Ask::Batch(vec![1, 2, 0, 0]),
            Ask::Singles(vec![]),
            Ask::Path(vec![7, 0, 0, 0]),
            Ask::Outline(1 << 33),
            Ask::OutlineLength,
        ];
        for ask in asks {
            assert_eq!(from_bytes(&to_bytes(&ask)), Some(ask));
        }
    }
}
