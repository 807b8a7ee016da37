//! The program of document 01: frames in, an outline or a refusal out.

use crate::answer::Answer;
use crate::index::Plain;
use crate::questions::Loader;
use crate::reading::Right;

pub const FILE_BYTES: usize = 32_768;
const WORKSPACE_BYTES: usize = 2_048;
const OUTLINE_BYTES: usize = 65_536;
const FRAME_BYTES: usize = 32;

/// What the program writes for what it reads.
pub fn dump(input: &[u8]) -> Vec<u8> {
    let file = match frames(input) {
        Ok(file) => file,
        Err(line) => return format!("bad line {line}\n").into_bytes(),
    };
    let mut workspace = [0; WORKSPACE_BYTES];
    let mut outline = vec![0; OUTLINE_BYTES];
    let loader: Loader<Right, Plain> = Loader::new(Right);
    match loader.outline(&file, &mut workspace, &mut outline) {
        Answer { refusal: 0, value, .. } => {
            let mut output = format!("accepted {}\n", file.len()).into_bytes();
            output.extend_from_slice(&outline[..value as usize]);
            output
        }
        Answer { refusal, value, .. } => format!("refused {refusal} at {value}\n").into_bytes(),
    }
}

/// The file's bytes, or the number of the first bad line, counted from 1.
fn frames(input: &[u8]) -> Result<Vec<u8>, usize> {
    let mut file = Vec::new();
    for (i, line) in input.split_inclusive(|&byte| byte == b'\n').enumerate() {
        frame(line, &mut file).ok_or(i + 1)?;
    }
    Ok(file)
}

/// Takes one line, its newline included; none where the line is bad.
fn frame(line: &[u8], file: &mut Vec<u8>) -> Option<()> {
    let line = line.strip_suffix(b"\n")?;
    let (offset, data) = (line.get(..8)?, line.get(9..)?);
    if line[8] != b' ' || data.is_empty() || data.len() % 2 == 1 {
        return None;
    }
    let mut number = 0;
    for &byte in offset {
        number = number << 4 | digit(byte)? as usize;
    }
    let count = data.len() / 2;
    if number != file.len() || count > FRAME_BYTES || file.len() + count > FILE_BYTES {
        return None;
    }
    for pair in data.chunks_exact(2) {
        file.push(digit(pair[0])? << 4 | digit(pair[1])?);
    }
    Some(())
}

/// A lower-case hex digit.
fn digit(byte: u8) -> Option<u8> {
    match byte {
        b'0'..=b'9' => Some(byte - b'0'),
        b'a'..=b'f' => Some(byte - b'a' + 10),
        _ => None,
    }
}

/// A file as the program's input lines.
pub fn to_frames(file: &[u8]) -> Vec<u8> {
    let mut input = Vec::new();
    for (i, bytes) in file.chunks(FRAME_BYTES).enumerate() {
        input.extend_from_slice(format!("{:08x} ", i * FRAME_BYTES).as_bytes());
        for byte in bytes {
            input.extend_from_slice(format!("{byte:02x}").as_bytes());
        }
        input.push(b'\n');
    }
    input
}
