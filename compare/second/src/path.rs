//! Path listing on a held view.

use crate::answer::{Answer, Refusal};
use crate::bytes::{u16_at, Address};
use crate::index::Index;
use crate::lookup::{list_fault, texts};
use crate::node::{Node, NODE};
use crate::reading::{Mutant, Reading};
use crate::view::View;

/// Names below the root that an accepted file's chains can bear.
const LONGEST: usize = 63;

const ROOT: Address = Address { segment: 0, element: 0 };

/// A path as name indices. 12 makes the index of a text the only one, so nodes
/// bear a name exactly when they bear its index.
struct Path {
    names: [u16; LONGEST],
    length: usize,
}

impl<R: Reading, I: Index> View<'_, R, I> {
    pub fn path(&self, path: &[u8], listing: &mut [u8]) -> Answer {
        if let Some(refusal) = list_fault(self.reading, path) {
            return refusal.into();
        }
        if self.reading.wrong(Mutant::LongPathIs24) && texts(path).count() > LONGEST {
            return Answer::from(Refusal { number: 24, place: path.len() as u64 });
        }
        if self.reading.wrong(Mutant::PathCollidedKind) {
            let mut collisions = texts(path).map(|text| self.name_collisions(text));
            if let Some(entries) = collisions.find(|&entries| entries > 0) {
                return Answer::collided(entries);
            }
        }
        let Some(path) = self.known_names(path) else {
            return Answer::of(0);
        };
        let mut matches: u64 = 0;
        self.walk(&path, &mut |_| matches += 1);
        let mut places = listing.len() as u64 / 4;
        if self.reading.wrong(Mutant::ListingRoomRoundedUp) {
            places = (listing.len() as u64).div_ceil(4);
        }
        let refused = matches > places;
        if !refused || self.reading.wrong(Mutant::ListingFilledBefore25) {
            let mut next = listing.chunks_exact_mut(4);
            self.walk(&path, &mut |address| {
                if let Some(place) = next.next() {
                    place.copy_from_slice(&address.number().to_le_bytes());
                }
            });
        }
        if refused {
            return Answer::from(Refusal { number: 25, place: matches });
        }
        Answer::of(matches)
    }

    /// The path's names as indices; none where one is unknown, collided or not, or there
    /// are too many, and then nothing matches.
    fn known_names(&self, path: &[u8]) -> Option<Path> {
        let mut known = Path { names: [0; LONGEST], length: 0 };
        for text in texts(path) {
            let nameless = text.is_empty() && self.reading.wrong(Mutant::EmptyNameIsNameless);
            let skips = self.reading.wrong(Mutant::PathCollidedSkipped);
            if skips && self.name_collisions(text) > 0 {
                continue;
            }
            let index = || self.path_name(text).or_else(|| self.collided_name(text));
            let index = if nameless { 0 } else { index()? };
            *known.names.get_mut(known.length)? = index as u16;
            known.length += 1;
        }
        Some(known)
    }

    fn walk(&self, path: &Path, found: &mut impl FnMut(Address)) {
        if path.length == 0 {
            if !self.reading.wrong(Mutant::EmptyPathMatchesNothing) {
                found(ROOT);
            }
            return;
        }
        let root = Node::at(self.file, self.layout.nodes.count_at + 12);
        self.below(root, &path.names[..path.length], found);
    }

    /// The matches below a node, for the names left.
    fn below(&self, node: Node, names: &[u16], found: &mut impl FnMut(Address)) {
        let (Some((&name, left)), true) = (names.split_first(), node.children > 0) else {
            return;
        };
        let nodes = &self.layout.nodes;
        let address = node.child_address;
        let Some(segment) = nodes.segment(self.file, address.segment) else {
            return;
        };
        let first = nodes.element_at(segment, address.element);
        for i in self.first_named(first, node.children, name)..node.children {
            let at = first + i as usize * NODE;
            let here = u16_at(self.file, at);
            if here > name || (here == 0 && self.reading.wrong(Mutant::StopAtNameless)) {
                break;
            }
            if here != name {
                continue;
            }
            if left.is_empty() {
                found(Address { segment: address.segment, element: address.element + i });
            } else if here != 0 {
                self.below(Node::at(self.file, at), left, found);
            }
            if self.reading.wrong(Mutant::FirstMatchOnly) {
                break;
            }
        }
    }

    /// A child place at or before the first child of this name. Names do not
    /// fall along a range, so wide ranges are halved; nameless nodes between
    /// are stepped over.
    fn first_named(&self, first: usize, children: u16, name: u16) -> u16 {
        if self.reading.wrong(Mutant::StopAtNameless) || name == 0 {
            return 0;
        }
        let name_at = |place: u32| u16_at(self.file, first + place as usize * NODE);
        let (mut low, mut high) = (0, children as u32);
        while high - low > 8 {
            let middle = low + (high - low) / 2;
            match (middle..high).map(name_at).find(|&here| here != 0) {
                Some(here) if here < name => low = middle + 1,
                _ => high = middle,
            }
        }
        low as u16
    }
}
