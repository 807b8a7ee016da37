//! A file with several names of one hash and several values of it, texts to ask for, and
//! what look-ups and paths have to answer.

use super::asked;
use super::long;
use super::plans::{Long, Plan};
use super::strings::{others, strings, Group};
use crate::known::Known;
use crate::matches::number;
use crate::model::{Model, Node, Table};
use crate::rich::{index_of, with_special};
use crate::rng::Rng;
use crate::shapes::smallest;
use crate::text::{text, Text};
use crate::tree::Tree;

/// The name of a node below each node that a name of the hash has.
pub const BELOW: &str = "below";

/// What is known of a table.
pub struct Strings {
    pub known: Known,
    /// The texts of the hash, in the order of their entries.
    pub equal: Vec<Text>,
    /// Texts to ask for: without a 0, and with one.
    pub asked: Vec<Text>,
    pub with_zero: Vec<Text>,
}

pub struct Collided {
    pub model: Model,
    pub names: Strings,
    pub values: Strings,
}

const NAMES: u32 = 512;
const VALUES: u32 = 1024;

impl Collided {
    pub fn new(rng: &mut Rng, plan: &Plan) -> Collided {
        let of_names = Group::new(rng, plan, plan.names);
        let mut texts = of_names.texts.clone();
        texts.extend(others(rng, plan, NAMES));
        texts.push(text(BELOW));
        rng.shuffle(&mut texts);
        let texts = with_special(rng, texts);
        let names = strings(rng, plan, &texts, NAMES);
        let tree = tree(&texts, &of_names.texts);
        let of_values = Group::new(rng, plan, plan.values);
        let mut others = others(rng, plan, VALUES);
        others.extend(of_values.texts.clone());
        rng.shuffle(&mut others);
        let values = strings(rng, plan, &others, VALUES);
        let known_names = Known::new(texts.iter().zip(1..));
        let addresses = values.list.iter().map(|&address| number(address));
        let known_values = Known::new(others.iter().zip(addresses));
        let mut known_of = |known, table: &Table, group| strings_of(rng, plan, known, table, group);
        let mut known =
            [known_of(known_names, &names, &of_names), known_of(known_values, &values, &of_values)];
        exchange(&mut known);
        let [known_names, known_values] = known;
        let nodes = tree.place(rng, 60_000, false);
        let model = Model { nodes, values, names, ..smallest().model };
        Collided { model, names: known_names, values: known_values }
    }

    /// The nodes that a path leads to, in document order.
    pub fn matches(&self, path: &[Text]) -> Vec<u32> {
        let names: Option<Vec<u32>> =
            path.iter().map(|name| self.names.known.number(name)).collect();
        names.map_or(Vec::new(), |names| self.model.matches(&names))
    }
}

/// What is known of a table, with texts to ask for.
fn strings_of(rng: &mut Rng, plan: &Plan, known: Known, table: &Table, group: &Group) -> Strings {
    let entries = table.buckets.iter().flat_map(|bucket| &bucket.entries);
    let equal: Vec<Text> = entries
        .filter(|entry| entry.hash == plan.hash)
        .map(|entry| table.text(entry.address))
        .collect();
    let buckets = table.buckets.len() as u32;
    let mut asked = asked::without_zero(rng, plan.hash, buckets, group, &equal);
    let mut with_zero = asked::with_zero(rng, plan.hash, group, &equal);
    if plan.long != Long::Nowhere {
        asked.extend(long::with_and_without(rng, plan.hash));
        with_zero.extend(long::with_zero(rng, plan.hash));
        if let Some(shortest) = equal.iter().min_by_key(|text| text.len()) {
            asked.extend(long::begun_with(rng, shortest, plan.hash));
        }
    }
    Strings { known, equal, asked, with_zero }
}

/// Texts of each table are asked for in the other.
fn exchange(both: &mut [Strings; 2]) {
    let few = both.each_ref().map(|strings| strings.equal.iter().take(3).cloned());
    let few = few.map(|texts| texts.collect::<Vec<Text>>());
    both[0].asked.extend(few[1].clone());
    both[1].asked.extend(few[0].clone());
}

/// A child of the root for each name of the hash, with a child of its own.
fn tree(names: &[Text], group: &[Text]) -> Tree {
    let mut tree = Tree::default();
    tree.add(Node { name: index_of(names, "__root__"), ..Node::default() });
    let below = index_of(names, BELOW);
    for (i, _) in names.iter().enumerate().filter(|(_, name)| group.contains(name)) {
        let child = tree.child(0, Node { name: i as u16 + 1, ..Node::default() });
        tree.child(child, Node { name: below, ..Node::default() });
    }
    tree.sort_children();
    tree
}

#[cfg(test)]
mod tests {
    use super::super::plans::plans;
    use super::*;
    use crate::collide::hash;
    use crate::known::Lookup;
    use second::{Loader, Plain, Right};

    #[test]
    fn files_are_what_they_say() {
        let loader: Loader<Right, Plain> = Loader::new(Right);
        for (seed, plan) in plans().enumerate().filter(|(i, plan)| plan.names < 70 || i % 9 == 0) {
            let file = Collided::new(&mut Rng::new(seed as u64), &plan);
            let bytes = file.model.bytes();
            let answer = loader.accept(&bytes, &mut vec![0; file.model.used_nodes()]);
            assert_eq!(answer.refusal, 0, "{plan:?}: {answer:?}");
            let each = [(&file.names, plan.names), (&file.values, plan.values)];
            for (strings, count) in each {
                assert_eq!(strings.equal.len(), count, "{plan:?}");
                let collided = Lookup::Collided(count as u32);
                let told = |text: &&Text| strings.known.look_up(text) == collided;
                let colliding = strings.asked.iter().filter(told).count();
                assert!(colliding > 10 || count == 0, "{plan:?}: {colliding}");
                assert!(strings.asked.iter().all(|text| !text.contains(&0)));
                assert!(strings.with_zero.iter().all(|text| text.contains(&0)));
                let alike = strings.with_zero.iter().filter(|text| hash(text) == plan.hash);
                assert!(alike.count() > 10, "{plan:?}");
            }
        }
    }

    #[test]
    fn the_empty_text_collides_in_some() {
        let empty = |plan: &Plan| {
            let file = Collided::new(&mut Rng::new(1), plan);
            [&file.names, &file.values].map(|strings| strings.known.look_up(&[]))
        };
        let small = plans().filter(|plan| plan.hash == 0 && plan.names + plan.values < 70);
        let all: Vec<Lookup> = small.flat_map(|plan| empty(&plan)).collect();
        for count in [1, 2, 3, 16, 17] {
            assert!(all.contains(&Lookup::Collided(count)), "{count}");
        }
        assert!(all.iter().any(|told| matches!(told, Lookup::Found(_))));
    }
}
