//! The layout along the file: refusals 1 to 6, and the places of all regions.

use crate::answer::{refuse, Refusal};
use crate::cursor::Cursor;
use crate::node::{ATTRIBUTE, NODE};
use crate::reading::{Mutant, Reading};
use crate::region::Region;
use crate::table::{Table, NAME_BUCKETS, VALUE_BUCKETS};

pub const FILE_LIMIT: usize = 1_073_741_824;

/// Segments of attributes and of nodes that are marked: most stand in the order in
/// which they are read.
const MARKS: usize = 1024;

#[derive(Clone, Copy, Debug, PartialEq, Eq)]
pub struct Header {
    pub version: u32,
    /// The timestamp's bits: a float would not keep every NaN.
    pub timestamp_bits: u64,
    pub revision: u32,
}

pub struct Layout {
    pub header: Header,
    /// Offset of the first key.
    pub keys_at: usize,
    pub keys: u32,
    pub attributes: Region<ATTRIBUTE, MARKS>,
    pub nodes: Region<NODE, MARKS, MARKS>,
    pub values: Table<VALUE_BUCKETS>,
    pub names: Table<NAME_BUCKETS>,
}

impl Layout {
    /// A layout still to be read.
    pub const UNREAD: Layout = Layout {
        header: Header { version: 0, timestamp_bits: 0, revision: 0 },
        keys_at: 0,
        keys: 0,
        attributes: Region::UNREAD,
        nodes: Region::UNREAD,
        values: Table::UNREAD,
        names: Table::UNREAD,
    };

    /// Reads in place: a layout is too large to be handed about.
    pub fn read<R: Reading>(&mut self, reading: R, file: &[u8]) -> Result<(), Refusal> {
        let exclusive = reading.wrong(Mutant::FileLimitExclusive);
        if file.len() > FILE_LIMIT - exclusive as usize {
            return refuse(1, 0);
        }
        let mut cursor = Cursor { file, at: 0 };
        self.header = read_header(reading, &mut cursor)?;
        (self.keys, self.keys_at) = read_keys(reading, &mut cursor)?;
        self.attributes.read(reading, &mut cursor)?;
        self.nodes.read(reading, &mut cursor)?;
        self.values.read(reading, &mut cursor)?;
        self.names.read(reading, &mut cursor)?;
        read_footer(reading, &mut cursor)
    }
}

fn read_header<R: Reading>(reading: R, cursor: &mut Cursor) -> Result<Header, Refusal> {
    if reading.wrong(Mutant::HeaderAsOne) && cursor.file.len() < 32 {
        return refuse(2, 0);
    }
    let version = cursor.word()?;
    if version != 6 {
        return refuse(3, 0);
    }
    let timestamp_bits = cursor.double_word()?;
    let revision = cursor.word()?;
    for _ in 0..4 {
        let at = cursor.at;
        if cursor.word()? != 0 && !(at == 24 && reading.wrong(Mutant::ThirdZeroWordIgnored)) {
            return refuse(4, at);
        }
    }
    Ok(Header { version, timestamp_bits, revision })
}

/// Number of keys, 1 to 4,096, and the offset of the first.
fn read_keys<R: Reading>(reading: R, cursor: &mut Cursor) -> Result<(u32, usize), Refusal> {
    let at = cursor.at;
    let count = cursor.word()?;
    let least = if reading.wrong(Mutant::NoKeysAllowed) { 0 } else { 1 };
    let most = if reading.wrong(Mutant::KeyLimit4095) { 4_095 } else { 4_096 };
    if count < least || count > most {
        return refuse(5, at);
    }
    Ok((count, cursor.array(reading, count, 8)?))
}

fn read_footer<R: Reading>(reading: R, cursor: &mut Cursor) -> Result<(), Refusal> {
    let at = cursor.at;
    let footer = cursor.word()?;
    let tail = cursor.at < cursor.file.len();
    if tail && reading.wrong(Mutant::TailBeforeFooter) {
        return refuse(6, cursor.at);
    }
    if footer != 0 {
        return refuse(6, at);
    }
    if tail {
        return refuse(6, cursor.at);
    }
    Ok(())
}
