//! The outline on a held view.

use std::ops::Range;

use crate::answer::{Answer, Refusal};
use crate::bytes::Address;
use crate::effort::Effort;
use crate::escape::{put_hex, put_text, Sink};
use crate::index::Index;
use crate::node::{Attribute, Node, ATTRIBUTE, NODE};
use crate::reading::{Mutant, Reading};
use crate::table::Reader;
use crate::tally::Tally;
use crate::view::View;

/// What an attribute holds.
#[derive(Clone, Copy)]
pub enum Value {
    Whole(i32),
    Truth(bool),
    /// The float's bits: a NaN keeps its own only so.
    Float(u32),
    Text(Address),
}

impl Value {
    pub fn of(attribute: Attribute) -> Value {
        match (attribute.kind(), attribute.extended()) {
            (1, 1) => Value::Truth(attribute.word != 0),
            (2, _) => Value::Float(attribute.word),
            (3, _) => Value::Text(Address::from_word(attribute.word)),
            _ => Value::Whole(attribute.word as i32),
        }
    }
}

/// Writes an outline to the start of a buffer that has room for it.
struct Fill<'a> {
    out: &'a mut [u8],
    at: usize,
}

impl Sink for Fill<'_> {
    fn put(&mut self, bytes: &[u8]) {
        let room = self.out.len() - self.at;
        let taken = bytes.len().min(room);
        self.out[self.at..self.at + taken].copy_from_slice(&bytes[..taken]);
        self.at += taken;
    }
}

impl Lines for Fill<'_> {
    fn name<R: Reading, I: Index>(&mut self, view: &View<R, I>, name: u16) {
        view.put_name(name, self);
    }

    fn attributes<R: Reading, I: Index>(&mut self, view: &View<R, I>, range: Range<usize>) {
        range.step_by(ATTRIBUTE).for_each(|at| view.put_attribute(at, self));
    }
}

/// Counts the bytes of an outline, and no longer where that takes too much effort.
struct Count {
    length: u64,
    effort: Effort,
}

impl Sink for Count {
    fn put(&mut self, bytes: &[u8]) {
        self.length += bytes.len() as u64;
        self.effort.spend(bytes.len());
    }
}

impl Lines for Count {
    fn name<R: Reading, I: Index>(&mut self, view: &View<R, I>, name: u16) {
        if self.effort.check().is_ok() {
            view.put_name(name, self);
        }
    }

    fn attributes<R: Reading, I: Index>(&mut self, view: &View<R, I>, range: Range<usize>) {
        for at in range.step_by(ATTRIBUTE) {
            if self.effort.check().is_err() {
                break;
            }
            view.put_attribute(at, self);
        }
    }
}

/// Takes an outline line by line. Whoever only counts need not see every byte.
pub trait Lines: Sink {
    /// A node's name.
    fn name<R: Reading, I: Index>(&mut self, view: &View<R, I>, name: u16);

    /// A node's attributes, which stand at these offsets.
    fn attributes<R: Reading, I: Index>(&mut self, view: &View<R, I>, range: Range<usize>);
}

impl<R: Reading, I: Index> View<'_, R, I> {
    /// The length is counted first: a refusal may not touch the buffer.
    pub fn outline(&self, out: &mut [u8]) -> Answer {
        let root = Node::at(self.file, self.layout.nodes.count_at + 12);
        let mut needed = self.outline_length(root);
        if self.reading.wrong(Mutant::NoLastNewline) {
            needed -= 1;
        }
        let room = out.len() as u64;
        let strict = self.reading.wrong(Mutant::OutlineRoomStrict) && needed == room;
        let refused = needed > room || strict;
        if !refused || self.reading.wrong(Mutant::OutlineFilledBefore26) {
            let end = needed.min(room) as usize;
            let mut fill = Fill { out: &mut out[..end], at: 0 };
            self.block(root, 0, &mut fill);
        }
        if refused {
            return Answer::from(Refusal { number: 26, place: needed });
        }
        Answer::of(needed)
    }

    fn outline_length(&self, root: Node) -> u64 {
        let effort = Effort::new(I::ALLOWANCE, self.file.len());
        let mut count = Count { length: 0, effort };
        self.block(root, 0, &mut count);
        match count.effort.check() {
            Ok(()) => count.length,
            Err(_) => self.outline_length_carefully(root),
        }
    }

    /// The tables for that are on the stack, and only here.
    #[inline(never)]
    fn outline_length_carefully(&self, root: Node) -> u64 {
        let mut tally = Tally::new(self);
        self.block(root, 0, &mut tally);
        tally.length
    }

    /// A node's line and then its children's blocks. Goes down by level.
    fn block(&self, node: Node, level: usize, lines: &mut impl Lines) {
        self.line(node, level, lines);
        let nodes = &self.layout.nodes;
        let address = node.child_address;
        let Some(segment) = nodes.segment(self.file, address.segment) else {
            return;
        };
        let first = nodes.element_at(segment, address.element);
        for at in (0..node.children as usize).map(|i| first + i * NODE) {
            let child = Node::at(self.file, at);
            if child.name != 0 {
                self.block(child, level + 1, lines);
            } else if self.reading.wrong(Mutant::StopAtNameless) {
                break;
            }
        }
    }

    fn line(&self, node: Node, level: usize, lines: &mut impl Lines) {
        for _ in 0..level {
            lines.put(b"  ");
        }
        lines.name(self, node.name);
        let region = &self.layout.attributes;
        let address = node.attribute_address;
        if node.attributes > 0 {
            if let Some(segment) = region.segment(self.file, address.segment) {
                let first = region.element_at(segment, address.element);
                lines.attributes(self, first..first + ATTRIBUTE * node.attributes as usize);
            }
        }
        lines.put(b"\n");
    }

    /// A space and then the attribute at an offset.
    fn put_attribute(&self, at: usize, sink: &mut impl Sink) {
        let attribute = Attribute::at(self.file, at);
        sink.put(b" ");
        self.put_name(attribute.name, sink);
        sink.put(b"=");
        self.put_value(Value::of(attribute), sink);
    }

    pub(crate) fn put_name(&self, name: u16, sink: &mut impl Sink) {
        let names = &self.layout.names;
        let text = names.listed_text(self.reading, Reader::Outline, self.file, name as u32);
        if self.reading.wrong(Mutant::NamesNotEscaped) {
            text.chunks_exact(2).for_each(|pair| sink.put(&pair[..1]));
        } else {
            put_text(self.reading, text, sink);
        }
    }

    pub(crate) fn put_value(&self, value: Value, sink: &mut impl Sink) {
        match value {
            Value::Whole(number) => {
                sink.put(b"i:");
                if self.reading.wrong(Mutant::NegativeAsUnsigned) {
                    sink.put((number as u32).to_string().as_bytes());
                } else {
                    put_decimal(number, sink);
                }
            }
            Value::Truth(true) => sink.put(b"b:true"),
            Value::Truth(false) => sink.put(b"b:false"),
            Value::Float(bits) => {
                sink.put(b"f:");
                let plain =
                    f32::from_bits(bits).is_nan() && self.reading.wrong(Mutant::NanMadePlain);
                let shown = match () {
                    _ if plain => 0x7fc0_0000,
                    _ if self.reading.wrong(Mutant::FloatBitsAsStored) => bits.swap_bytes(),
                    _ => bits,
                };
                put_hex(self.reading, shown, 8, sink);
            }
            Value::Text(address) => {
                sink.put(b"s:");
                let values = &self.layout.values;
                let text = values.text_at(self.reading, Reader::Outline, self.file, address);
                put_text(self.reading, text.unwrap_or(&[]), sink);
            }
        }
    }
}

/// Signed decimal without an allocation.
fn put_decimal(number: i32, sink: &mut impl Sink) {
    let mut digits = [0; 11];
    let mut at = digits.len();
    let mut left = number.unsigned_abs();
    loop {
        at -= 1;
        digits[at] = b'0' + (left % 10) as u8;
        left /= 10;
        if left == 0 {
            break;
        }
    }
    if number < 0 {
        at -= 1;
        digits[at] = b'-';
    }
    sink.put(&digits[at..]);
}
