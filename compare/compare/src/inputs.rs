//! Inputs for the program: frames of small files, and bad lines of every sort.

use maker::rich::rich;
use maker::rng::Rng;
use maker::samples;
use maker::shapes::{long_segment, smallest, smallest_stored, Part};
use second::program::{to_frames, FILE_BYTES};

use crate::case::random;
use crate::directed;
use crate::letter;

/// A file as lines of random lengths.
fn uneven_frames(rng: &mut Rng, file: &[u8]) -> Vec<u8> {
    let mut input = Vec::new();
    let mut at = 0;
    while at < file.len() {
        let count = rng.between(1, 32).min(file.len() - at);
        input.extend(format!("{at:08x} ").bytes());
        for byte in &file[at..at + count] {
            input.extend(format!("{byte:02x}").bytes());
        }
        input.push(b'\n');
        at += count;
    }
    input
}

/// The smallest file with slack enough to be `length` bytes long, which is even.
fn stretched(length: usize) -> Vec<u8> {
    let slack = (length - 6_332 - 8) / 2;
    let mut bytes = long_segment(Part::ValueChars, slack).model.bytes();
    bytes.truncate(length);
    bytes
}

/// Lines with something to say by themselves.
const LINES: [&[u8]; 19] = [
    b"\n",
    b"00000000 06",
    b"00000000 06\n\n",
    b"00000000 \n",
    b"00000000\n",
    b"00000000",
    b"00000001 06\n",
    b"00000000 06\n00000001 00\n00000002 0\n",
    b"00000000 06\r\n",
    b"00000000  06\n",
    b"00000000\t06\n",
    b"0000000 06\n",
    b"000000000 06\n",
    b"00000000 0A\n",
    b"00000000 06 \n",
    b" 00000000 06\n",
    b"00000000 06\0\n",
    b"ffffffff 06\n",
    b"100000000 06\n",
];

/// Of the files whose texts end with the used part, and of those with the letter 0151, one
/// in so many.
const DIRECTED: usize = 16;

/// Files that have to come as they are: the smallest with its last 0 and without, a byte
/// less and a byte more; texts that end with the used part; texts with the letter 0151;
/// and the samples.
fn files() -> Vec<Vec<u8>> {
    let mut all = vec![Vec::new(), stretched(FILE_BYTES)];
    for file in [smallest(), smallest_stored()].map(|made| made.model.bytes()) {
        all.push(file[..file.len() - 1].to_vec());
        all.push([&file[..], &[0]].concat());
        all.push(file);
    }
    all.extend(directed::cases(1).step_by(DIRECTED).map(|case| case.bytes));
    all.extend(letter::cases(1).step_by(DIRECTED).map(|(case, _)| case.bytes));
    all.extend(samples::all().into_iter().map(|sample| sample.bytes));
    all.retain(|file| file.len() <= FILE_BYTES);
    all
}

/// Inputs with something to say by themselves.
pub fn fixed() -> Vec<Vec<u8>> {
    let mut all: Vec<Vec<u8>> = files().iter().map(|file| to_frames(file)).collect();
    all.extend(LINES.map(<[u8]>::to_vec));
    all.extend([31, 32, 33, 64].map(|count| {
        let digits = "00".repeat(count);
        format!("00000000 {digits}\n").into_bytes()
    }));
    // One byte past the room: on a line of its own, and at the end of one.
    let mut past = to_frames(&vec![6; FILE_BYTES]);
    all.push(past.clone());
    past.extend(b"00008000 00\n");
    all.push(past);
    let mut over = to_frames(&vec![6; FILE_BYTES - 1]);
    over.extend(b"00007fff 0000\n");
    all.push(over);
    all
}

/// A random input, sometimes spoilt at a line or a byte.
pub fn input(rng: &mut Rng) -> Vec<u8> {
    let file = loop {
        let bytes = if rng.one_in(2) { rich(rng, 40).model.bytes() } else { random(rng).bytes };
        if bytes.len() <= FILE_BYTES {
            break bytes;
        }
    };
    let mut input = if rng.one_in(2) { to_frames(&file) } else { uneven_frames(rng, &file) };
    if input.is_empty() || rng.one_in(2) {
        return input;
    }
    for _ in 0..rng.between(1, 2) {
        let at = rng.below(input.len());
        match rng.below(8) {
            0 => input[at] = input[at].to_ascii_uppercase(),
            1 => input[at] = rng.half() as u8,
            2 => input.insert(at, b'\n'),
            3 => {
                input.remove(at);
            }
            4 => input.truncate(at.max(1)),
            5 => input.insert(at, *rng.pick(b"0 af\r\n")),
            6 => {
                input.pop();
            }
            _ => input[at] = *rng.pick(b"09afgAF/:`@ \n"),
        }
        if input.is_empty() {
            break;
        }
    }
    input
}
