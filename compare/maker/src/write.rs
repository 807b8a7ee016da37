//! A model's bytes, and where its fields stand in them.

use crate::model::{Addr, Attr, Model, Node, Region, Table};

/// Offset of every field and array of a written file, in file order. The last
/// is the footer's.
#[derive(Clone, Default)]
pub struct Places(pub Vec<usize>);

struct Writer {
    bytes: Vec<u8>,
    places: Vec<usize>,
}

impl Writer {
    fn place(&mut self) {
        self.places.push(self.bytes.len());
    }

    fn half(&mut self, value: u16) {
        self.bytes.extend_from_slice(&value.to_le_bytes());
    }

    fn word(&mut self, value: u32) {
        self.bytes.extend_from_slice(&value.to_le_bytes());
    }

    fn field(&mut self, value: u32) {
        self.place();
        self.word(value);
    }

    fn address(&mut self, address: Addr) {
        self.half(address.0);
        self.half(address.1);
    }

    fn region<T>(&mut self, region: &Region<T>, element: impl Fn(&mut Writer, &T)) {
        self.field(region.count_is.unwrap_or(region.segments.len() as u32));
        for segment in &region.segments {
            let full = segment.used.len() + segment.slack.len();
            self.field(segment.full_is.unwrap_or(full as u32));
            self.field(segment.used_is.unwrap_or(segment.used.len() as u32));
            self.place();
            for item in segment.used.iter().chain(&segment.slack) {
                element(self, item);
            }
        }
    }

    fn attribute(&mut self, attribute: &Attr) {
        self.half(attribute.name);
        self.half(attribute.type_word);
        self.word(attribute.word);
        self.word(attribute.ignored);
    }

    fn node(&mut self, node: &Node) {
        self.half(node.name);
        self.half(node.key_word);
        self.half(node.attrs);
        self.half(node.children);
        self.address(node.attr_addr);
        self.word(node.ignored[0]);
        self.address(node.child_addr);
        self.word(node.ignored[1]);
    }

    fn table(&mut self, table: &Table) {
        self.region(&table.chars, |writer, &character| writer.half(character));
        for bucket in &table.buckets {
            self.field(bucket.count_is.unwrap_or(bucket.entries.len() as u32));
            self.place();
            for entry in &bucket.entries {
                self.word(entry.hash);
                self.word(entry.length);
                self.word(entry.index);
                self.address(entry.address);
            }
        }
        self.field(table.count_is.unwrap_or(table.list.len() as u32 + 1));
        self.place();
        for &address in &table.list {
            self.address(address);
        }
    }
}

impl Model {
    pub fn write(&self) -> (Vec<u8>, Places) {
        let mut writer = Writer { bytes: Vec::new(), places: Vec::new() };
        writer.field(self.version);
        writer.place();
        writer.bytes.extend_from_slice(&self.timestamp.to_le_bytes());
        writer.field(self.revision);
        for zero in self.zeros {
            writer.field(zero);
        }
        writer.field(self.key_count_is.unwrap_or(self.keys.len() as u32));
        writer.place();
        for key in &self.keys {
            key.iter().for_each(|&name| writer.half(name));
        }
        writer.region(&self.attributes, Writer::attribute);
        writer.region(&self.nodes, Writer::node);
        writer.table(&self.values);
        writer.table(&self.names);
        writer.field(self.footer);
        writer.bytes.extend_from_slice(&self.tail);
        (writer.bytes, Places(writer.places))
    }

    pub fn bytes(&self) -> Vec<u8> {
        self.write().0
    }
}
