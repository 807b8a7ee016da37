//! The special names (14) and the keys (15).

use crate::answer::{refuse, Refusal};
use crate::bytes::u16_at;
use crate::layout::Layout;
use crate::reading::{Mutant, Reading};
use crate::table::Reader;

/// The indices of the two special names.
#[derive(Clone, Copy)]
pub struct Special {
    pub root: u16,
    pub value: u16,
}

const ROOT: &[u8] = b"_\0_\0r\0o\0o\0t\0_\0_\0";
const VALUE: &[u8] = b"_\0_\0v\0a\0l\0u\0e\0_\0_\0";

/// 14: `__root__` and `__value__` are the two highest indices.
pub fn special_names<R: Reading>(
    reading: R,
    file: &[u8],
    layout: &Layout,
) -> Result<Special, Refusal> {
    let names = &layout.names;
    let listed = names.listed;
    let text = |index: u32| names.listed_text(reading, Reader::Special, file, index);
    if reading.wrong(Mutant::SpecialNamesAnywhere) {
        let index_of = |wanted: &[u8]| (1..=listed).find(|&index| text(index) == wanted);
        if let (Some(root), Some(value)) = (index_of(ROOT), index_of(VALUE)) {
            let (root, value) = (root as u16, value as u16);
            return Ok(Special { root, value });
        }
    }
    if listed >= 2 {
        let (last, last_but_one) = (text(listed), text(listed - 1));
        // At most 65,535 names are listed, so an index fits in 16 bits.
        let high = listed as u16;
        if last == VALUE && last_but_one == ROOT {
            return Ok(Special { root: high - 1, value: high });
        }
        let swapped = last == ROOT && last_but_one == VALUE;
        if swapped && !reading.wrong(Mutant::ValueNameLast) {
            return Ok(Special { root: high, value: high - 1 });
        }
    }
    refuse(14, names.count_at)
}

/// 15: key 0 is all zero, and no key names `__value__` or a name past the last.
pub fn check_keys<R: Reading>(
    reading: R,
    file: &[u8],
    layout: &Layout,
    special: Special,
) -> Result<(), Refusal> {
    for number in 0..layout.keys as usize {
        let at = layout.keys_at + 8 * number;
        for name in (0..4).map(|i| u16_at(file, at + 2 * i)) {
            let first_named = number == 0 && name != 0 && !reading.wrong(Mutant::FirstKeyFree);
            let value_named = name == special.value && !reading.wrong(Mutant::KeyMayNameValue);
            let root_named = name == special.root && reading.wrong(Mutant::KeyMayNotNameRoot);
            if first_named || value_named || root_named || name as u32 > layout.names.listed {
                return refuse(15, at);
            }
        }
    }
    Ok(())
}
