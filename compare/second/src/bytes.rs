//! Little-endian reads at an offset, and addresses.

#[inline(always)]
pub fn u16_at(bytes: &[u8], at: usize) -> u16 {
    let two: [u8; 2] = bytes[at..at + 2].try_into().unwrap();
    u16::from_le_bytes(two)
}

#[inline(always)]
pub fn u32_at(bytes: &[u8], at: usize) -> u32 {
    let four: [u8; 4] = bytes[at..at + 4].try_into().unwrap();
    u32::from_le_bytes(four)
}

#[inline(always)]
pub fn u64_at(bytes: &[u8], at: usize) -> u64 {
    let eight: [u8; 8] = bytes[at..at + 8].try_into().unwrap();
    u64::from_le_bytes(eight)
}

/// Segment and element, both from zero.
#[derive(Clone, Copy, Debug, PartialEq, Eq)]
pub struct Address {
    pub segment: u16,
    pub element: u16,
}

impl Address {
    /// The four bytes of an address read as one word: segment in the low half.
    #[inline(always)]
    pub fn from_word(word: u32) -> Address {
        Address { segment: word as u16, element: (word >> 16) as u16 }
    }

    #[inline(always)]
    pub fn at(bytes: &[u8], at: usize) -> Address {
        Address::from_word(u32_at(bytes, at))
    }

    /// An address as a number in answers: segment * 65,536 + element.
    #[inline(always)]
    pub fn number(self) -> u32 {
        (self.segment as u32) << 16 | self.element as u32
    }
}
