//! Nodes and attributes as they stand in the file.

use crate::bytes::{u16_at, u32_at, Address};

pub const NODE: usize = 24;
pub const ATTRIBUTE: usize = 12;

#[derive(Clone, Copy)]
pub struct Node {
    /// 0 means nameless.
    pub name: u16,
    pub key_word: u16,
    pub attributes: u16,
    pub children: u16,
    pub attribute_address: Address,
    pub child_address: Address,
}

impl Node {
    #[inline(always)]
    pub fn at(file: &[u8], at: usize) -> Node {
        let bytes = &file[at..at + NODE];
        Node {
            name: u16_at(bytes, 0),
            key_word: u16_at(bytes, 2),
            attributes: u16_at(bytes, 4),
            children: u16_at(bytes, 6),
            attribute_address: Address::at(bytes, 8),
            child_address: Address::at(bytes, 16),
        }
    }

    #[inline]
    pub fn flags(self) -> u16 {
        self.key_word & 15
    }

    #[inline]
    pub fn key_index(self) -> u16 {
        self.key_word >> 4
    }
}

#[derive(Clone, Copy)]
pub struct Attribute {
    pub name: u16,
    pub type_word: u16,
    pub word: u32,
}

impl Attribute {
    #[inline(always)]
    pub fn at(file: &[u8], at: usize) -> Attribute {
        let bytes = &file[at..at + ATTRIBUTE];
        Attribute { name: u16_at(bytes, 0), type_word: u16_at(bytes, 2), word: u32_at(bytes, 4) }
    }

    #[inline]
    pub fn kind(self) -> u16 {
        self.type_word & 3
    }

    #[inline]
    pub fn extended(self) -> u16 {
        self.type_word >> 2
    }
}

#[cfg(test)]
mod tests {
    use super::*;

    #[test]
    fn words_split() {
        let mut bytes = [0; NODE];
        bytes[2] = 0x12;
        let node = Node::at(&bytes, 0);
        assert_eq!((node.flags(), node.key_index()), (2, 1));
        let mut bytes = [0; ATTRIBUTE];
        bytes[2] = 5;
        let attribute = Attribute::at(&bytes, 0);
        assert_eq!((attribute.kind(), attribute.extended()), (1, 1));
    }
}
