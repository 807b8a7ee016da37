//! A file as its named parts. Every count can be told to lie, so that damage is
//! an edit of the model and not of bytes.

pub type Addr = (u16, u16);

#[derive(Clone, Default)]
pub struct Attr {
    pub name: u16,
    pub type_word: u16,
    pub word: u32,
    pub ignored: u32,
}

#[derive(Clone, Default)]
pub struct Node {
    pub name: u16,
    pub key_word: u16,
    pub attrs: u16,
    pub children: u16,
    pub attr_addr: Addr,
    pub ignored: [u32; 2],
    pub child_addr: Addr,
}

/// Used elements, then the slack up to the full count.
#[derive(Clone)]
pub struct Segment<T> {
    pub used: Vec<T>,
    pub slack: Vec<T>,
    /// Written in place of the right counts.
    pub full_is: Option<u32>,
    pub used_is: Option<u32>,
}

impl<T> Default for Segment<T> {
    fn default() -> Segment<T> {
        Segment { used: Vec::new(), slack: Vec::new(), full_is: None, used_is: None }
    }
}

#[derive(Clone)]
pub struct Region<T> {
    pub segments: Vec<Segment<T>>,
    pub count_is: Option<u32>,
}

impl<T> Default for Region<T> {
    fn default() -> Region<T> {
        Region { segments: Vec::new(), count_is: None }
    }
}

impl<T> Region<T> {
    /// Addresses of all used elements, in file order.
    pub fn addresses(&self) -> Vec<Addr> {
        let segments = self.segments.iter().enumerate();
        segments
            .flat_map(|(s, segment)| (0..segment.used.len()).map(move |e| (s as u16, e as u16)))
            .collect()
    }

    pub fn get(&self, address: Addr) -> Option<&T> {
        self.segments.get(address.0 as usize)?.used.get(address.1 as usize)
    }

    pub fn get_mut(&mut self, address: Addr) -> Option<&mut T> {
        self.segments.get_mut(address.0 as usize)?.used.get_mut(address.1 as usize)
    }
}

#[derive(Clone, Default)]
pub struct Entry {
    pub hash: u32,
    pub length: u32,
    pub index: u32,
    pub address: Addr,
}

#[derive(Clone, Default)]
pub struct Bucket {
    pub entries: Vec<Entry>,
    pub count_is: Option<u32>,
}

#[derive(Clone, Default)]
pub struct Table {
    pub chars: Region<u16>,
    pub buckets: Vec<Bucket>,
    pub list: Vec<Addr>,
    pub count_is: Option<u32>,
}

impl Table {
    /// Bucket and number of every entry.
    pub fn entries(&self) -> Vec<(usize, usize)> {
        let buckets = self.buckets.iter().enumerate();
        buckets.flat_map(|(b, bucket)| (0..bucket.entries.len()).map(move |e| (b, e))).collect()
    }

    /// The entry of an address that has one, by its bucket and number.
    pub fn entry_of(&self, address: Addr) -> (usize, usize) {
        let is_it = |&(b, e): &(usize, usize)| self.buckets[b].entries[e].address == address;
        self.entries().into_iter().find(is_it).expect("the address is an entry's")
    }

    /// The text at an address: the characters up to the next 0 or to the end of the used
    /// part. Empty where the address does not resolve.
    pub fn text(&self, address: Addr) -> Vec<u16> {
        let segment = self.chars.segments.get(address.0 as usize);
        let used = segment.and_then(|segment| segment.used.get(address.1 as usize..));
        used.unwrap_or(&[]).iter().copied().take_while(|&character| character != 0).collect()
    }

    /// Puts a text at the end of the last segment.
    pub fn append(&mut self, text: &[u16]) -> Addr {
        if self.chars.segments.is_empty() {
            self.chars.segments.push(Segment::default());
        }
        let number = self.chars.segments.len() - 1;
        let used = &mut self.chars.segments[number].used;
        // The last text there may have no stored 0.
        if used.last().is_some_and(|&character| character != 0) {
            used.push(0);
        }
        let address = (number as u16, used.len() as u16);
        used.extend_from_slice(text);
        used.push(0);
        address
    }
}

#[derive(Clone)]
pub struct Model {
    pub version: u32,
    pub timestamp: u64,
    pub revision: u32,
    pub zeros: [u32; 4],
    pub keys: Vec<[u16; 4]>,
    pub key_count_is: Option<u32>,
    pub attributes: Region<Attr>,
    pub nodes: Region<Node>,
    pub values: Table,
    pub names: Table,
    pub footer: u32,
    pub tail: Vec<u8>,
}

impl Model {
    /// Live nodes' addresses in file order.
    pub fn live(&self) -> Vec<Addr> {
        let mut all = self.nodes.addresses();
        all.retain(|&address| self.nodes.get(address).is_some_and(|node| node.name != 0));
        all
    }

    pub fn used_nodes(&self) -> usize {
        self.nodes.segments.iter().map(|segment| segment.used.len()).sum()
    }
}
