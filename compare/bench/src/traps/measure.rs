//! A question asked in a process of its own, and stopped when it takes too long.

use std::io::{BufRead, BufReader, Error, Result};
use std::process::{Child, Command, Stdio};
use std::sync::mpsc::{channel, Receiver, RecvTimeoutError};
use std::time::Duration;

use super::order::Order;

/// An answer, with a number that tells what stands in the buffers after it.
#[derive(Clone, Copy, Debug, PartialEq, Eq)]
pub struct Outcome {
    pub refusal: u32,
    kind: u32,
    value: u64,
    digest: u64,
}

#[derive(Clone, Debug)]
pub enum Measured {
    Took(f64, Outcome),
    TooLong,
    NotRun,
}

/// The word that makes this program a child.
pub const CHILD: &str = "trap-child";

/// What a child says that has used the limit.
pub const TOO_LONG: &str = "too long";

/// A child ends itself when it has used the limit. If the machine has no time for
/// it, it is ended after so many times the limit, and after this time to read its
/// file.
const PATIENCE: f64 = 10.0;
const LOADING: f64 = 60.0;

/// Ends with whoever holds it.
struct Running(Child);

impl Drop for Running {
    fn drop(&mut self) {
        // It may have ended by itself.
        let _ = self.0.kill();
        let _ = self.0.wait();
    }
}

pub fn measure(loader: &str, order: &Order, limit: f64) -> Result<Measured> {
    let mut child = Command::new(std::env::current_exe()?)
        .args([CHILD, loader])
        .args([&order.file, &order.ask])
        .args([order.nodes.to_string(), limit.to_string()])
        .stdin(Stdio::null())
        .stdout(Stdio::piped())
        .spawn()?;
    let lines = lines_of(&mut child)?;
    let _running = Running(child);
    let failed = || Error::other(format!("the process that asks {loader} has failed"));
    match lines.recv_timeout(Duration::from_secs_f64(PATIENCE * limit + LOADING)) {
        Ok(line) if line == TOO_LONG => Ok(Measured::TooLong),
        Ok(line) => parse(&line).ok_or_else(failed),
        Err(RecvTimeoutError::Timeout) => Ok(Measured::TooLong),
        Err(RecvTimeoutError::Disconnected) => Err(failed()),
    }
}

/// The child's lines as they come.
fn lines_of(child: &mut Child) -> Result<Receiver<String>> {
    let output = child.stdout.take().ok_or_else(|| Error::other("no output"))?;
    let (sender, receiver) = channel();
    std::thread::spawn(move || {
        for line in BufReader::new(output).lines().map_while(Result::ok) {
            if sender.send(line).is_err() {
                break;
            }
        }
    });
    Ok(receiver)
}

fn parse(line: &str) -> Option<Measured> {
    let mut words = line.split(' ');
    let seconds = words.next()?.parse().ok()?;
    let outcome = Outcome {
        refusal: words.next()?.parse().ok()?,
        kind: words.next()?.parse().ok()?,
        value: words.next()?.parse().ok()?,
        digest: words.next()?.parse().ok()?,
    };
    Some(Measured::Took(seconds, outcome))
}
