//! Comparing a program's output with the second loader's.

use std::io::{Read, Write};
use std::path::Path;
use std::process::{Command, Stdio};
use std::time::{Duration, Instant};

use maker::rng::Rng;
use second::program::dump;

use crate::inputs::{fixed, input};

/// What came of it.
#[derive(Default)]
pub struct Outputs {
    pub inputs: u64,
    pub accepted: u64,
    pub refused: u64,
    pub bad_lines: u64,
    pub differences: u64,
}

/// Runs the program on fixed inputs and then on random ones.
pub fn compare(program: &Path, seed: u64, budget: Duration) -> std::io::Result<Outputs> {
    let started = Instant::now();
    let mut outputs = Outputs::default();
    for bytes in fixed() {
        one(program, &bytes, &mut outputs)?;
    }
    let mut rng = Rng::new(seed);
    while started.elapsed() < budget {
        one(program, &input(&mut rng), &mut outputs)?;
    }
    Ok(outputs)
}

fn one(program: &Path, input: &[u8], outputs: &mut Outputs) -> std::io::Result<()> {
    let right = dump(input);
    let output = output_of(program, input)?;
    outputs.inputs += 1;
    match right.first() {
        Some(b'a') => outputs.accepted += 1,
        Some(b'r') => outputs.refused += 1,
        _ => outputs.bad_lines += 1,
    }
    if output != right {
        outputs.differences += 1;
        if outputs.differences == 1 {
            let start =
                |bytes: &[u8]| String::from_utf8_lossy(&bytes[..bytes.len().min(400)]).into_owned();
            println!("input:\n{}\nsecond:\n{}", start(input), start(&right));
            println!("program:\n{}", start(&output));
        }
    }
    Ok(())
}

fn output_of(program: &Path, input: &[u8]) -> std::io::Result<Vec<u8>> {
    let mut child = Command::new(program).stdin(Stdio::piped()).stdout(Stdio::piped()).spawn()?;
    let mut output = Vec::new();
    std::thread::scope(|scope| {
        if let Some(mut stdin) = child.stdin.take() {
            // A program may stop at a bad line before it has read all.
            scope.spawn(move || stdin.write_all(input).ok());
        }
        match child.stdout.take() {
            Some(mut stdout) => stdout.read_to_end(&mut output),
            None => Ok(0),
        }
    })?;
    child.wait()?;
    Ok(output)
}
