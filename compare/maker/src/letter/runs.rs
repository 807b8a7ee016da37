//! Attributes in their places: a run for each owner.

use super::file::{Content, Owner};
use super::rule::Rule;
use crate::model::{Addr, Attr, Region, Segment, Table};
use crate::text::Text;

/// The attributes of one owner.
pub struct Run {
    pub owner: Owner,
    pub start: Addr,
    /// Which texts of the content they have.
    texts: Vec<usize>,
}

impl Run {
    pub fn count(&self) -> u16 {
        self.texts.len() as u16
    }
}

pub struct Runs {
    pub region: Region<Attr>,
    /// In the order of the owners' nodes, whatever the order of the attributes.
    pub all: Vec<Run>,
    /// Where the attribute of each text stands.
    pub attributes: Vec<Addr>,
}

impl Runs {
    /// Attributes of the content, with value hashes by these rules. The last of a run is
    /// called by the highest name, which is `__value__`.
    pub fn new(content: &Content, rules: &[Rule], values: &Table, highest: u16) -> Runs {
        let mut all = owned(content);
        let attributes = place(&mut all, content);
        let mut region = Region::default();
        region.segments.push(Segment::default());
        let segment = &mut region.segments[0];
        for run in in_place(&mut all, content.shape.backwards) {
            let part =
                if run.owner == Owner::Behind { &mut segment.slack } else { &mut segment.used };
            for (number, &i) in run.texts.iter().enumerate() {
                let name = if number + 1 == run.texts.len() { highest } else { number as u16 + 1 };
                let text = &content.texts[i].0;
                part.push(rules[i].attribute(name, text, address_of(values, text)));
            }
        }
        Runs { region, all, attributes }
    }
}

/// The owners in the order in which they come first.
fn owned(content: &Content) -> Vec<Run> {
    let mut all: Vec<Run> = Vec::new();
    for (i, &(_, owner)) in content.texts.iter().enumerate() {
        match all.iter_mut().find(|run| run.owner == owner) {
            Some(run) => run.texts.push(i),
            None => all.push(Run { owner, start: (0, 0), texts: vec![i] }),
        }
    }
    all
}

/// The runs in the order of their attributes; those behind the used part stand last.
fn in_place(all: &mut [Run], backwards: bool) -> Vec<&mut Run> {
    let mut sorted: Vec<&mut Run> = all.iter_mut().collect();
    if backwards {
        sorted.reverse();
    }
    sorted.sort_by_key(|run| run.owner == Owner::Behind);
    sorted
}

/// Sets where runs start; where each text's attribute stands.
fn place(all: &mut [Run], content: &Content) -> Vec<Addr> {
    let mut attributes = vec![(0, 0); content.texts.len()];
    let mut next = 0;
    for run in in_place(all, content.shape.backwards) {
        run.start = (0, next);
        for &i in &run.texts {
            attributes[i] = (0, next);
            next += 1;
        }
    }
    attributes
}

/// Where a text stands that is among the values.
fn address_of(values: &Table, text: &Text) -> Addr {
    let same = |address: &&Addr| values.text(**address) == *text;
    *values.list.iter().find(same).expect("every text is a value")
}
