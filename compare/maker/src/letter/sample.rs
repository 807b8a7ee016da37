//! A small sample file with Hungarian item texts, by either rule.

use super::alike::ITEM;
use super::rule::Rule;
use crate::attributes::Runs;
use crate::model::{Attr, Model, Node};
use crate::rng::Rng;
use crate::shapes::tidy;
use crate::text::{text, Text};
use crate::tree::Tree;

/// Names, as indices.
const ITEM_NAME: u16 = 1;
const ID: u16 = 2;
const TITLE: u16 = 3;

/// Two items with a number and a title. Both rules give the first title one value hash;
/// the second has two.
pub fn hungarian(rule: Rule) -> Model {
    let mut rng = Rng::new(10);
    let titles: Vec<Text> = [ITEM, "Kőtörő kalapács"].map(text).to_vec();
    let names = ["Item", "id", "title"].map(text).to_vec();
    let mut model = tidy(&mut rng, names.clone(), titles.clone(), Tree::default()).model;
    let list = &model.values.list;
    let runs = titles.iter().zip(list).enumerate().map(|(i, (title, &address))| {
        let id = Attr { name: ID, type_word: 1, word: 501 + i as u32, ignored: 0 };
        vec![id, rule.attribute(TITLE, title, address)]
    });
    let runs = Runs::place(&mut rng.clone(), runs.collect(), 60_000, false);
    let mut tree = Tree::default();
    tree.add(Node::default());
    for &(attr_addr, count) in &runs.places {
        tree.child(0, Node { name: ITEM_NAME, attrs: count as u16, attr_addr, ..Node::default() });
    }
    let nodes = tidy(&mut rng, names, titles, tree).model.nodes;
    (model.attributes, model.nodes) = (runs.region, nodes);
    model
}

#[cfg(test)]
mod tests {
    use super::*;

    #[test]
    fn the_rules_part_in_one_code() {
        let [now, before] = [Rule::Now, Rule::Before].map(|rule| hungarian(rule).bytes());
        let apart: Vec<usize> = (0..now.len()).filter(|&i| now[i] != before[i]).collect();
        assert_eq!(apart.len(), 2);
        assert_eq!((apart[1], now.len()), (apart[0] + 1, before.len()));
    }
}
