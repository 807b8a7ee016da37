//! Escaped text and hex digits of the outline.

use crate::reading::{Mutant, Reading};

/// Takes the bytes of an outline in order.
pub trait Sink {
    fn put(&mut self, bytes: &[u8]);
}

/// 0021..007e except `\`, `=` and `"` stand as themselves.
fn stands<R: Reading>(reading: R, character: u16) -> bool {
    match character {
        0x20 => reading.wrong(Mutant::SpaceStands),
        0x22 => reading.wrong(Mutant::QuoteStands),
        0x7e => !reading.wrong(Mutant::TildeEscaped),
        0x3d | 0x5c => false,
        0x21..=0x7d => true,
        _ => false,
    }
}

pub fn put_text<R: Reading>(reading: R, text: &[u8], sink: &mut impl Sink) {
    for pair in text.chunks_exact(2) {
        let character = u16::from_le_bytes([pair[0], pair[1]]);
        if stands(reading, character) {
            sink.put(&pair[..1]);
        } else {
            let capital = character == 0x0151 && reading.wrong(Mutant::Outline0151);
            sink.put(b"\\");
            put_hex(reading, character as u32 - capital as u32, 4, sink);
        }
    }
}

/// The low `digits` hex digits of a number, highest first.
pub fn put_hex<R: Reading>(reading: R, number: u32, digits: u32, sink: &mut impl Sink) {
    let set =
        if reading.wrong(Mutant::HexUpperCase) { b"0123456789ABCDEF" } else { b"0123456789abcdef" };
    let mut shown = [0; 8];
    for place in 0..digits {
        let digit = number >> (4 * (digits - 1 - place)) & 15;
        shown[place as usize] = set[digit as usize];
    }
    sink.put(&shown[..digits as usize]);
}
