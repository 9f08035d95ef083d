//! All trees of a size over an alphabet of rows.

use std::collections::HashMap;
use std::rc::Rc;

use crate::grammar::{children, fits, one_or_none, Head, Place, Tree};

/// Trees by place and size, each list made once.
pub struct All {
    alphabet: Vec<Head>,
    trees: HashMap<(Place, usize), Rc<Vec<Tree>>>,
    lists: HashMap<(Vec<Place>, Option<Place>, usize), Rc<Vec<Tree>>>,
}

impl All {
    pub fn over(alphabet: &[Head]) -> All {
        All { alphabet: alphabet.to_vec(), trees: HashMap::new(), lists: HashMap::new() }
    }

    /// All trees of that many rows at that place.
    pub fn trees(&mut self, place: Place, size: usize) -> Rc<Vec<Tree>> {
        if let Some(list) = self.trees.get(&(place, size)) {
            return list.clone();
        }
        let mut all = Vec::new();
        if size > 0 {
            for head in self.alphabet.clone() {
                if !fits(head, place) {
                    continue;
                }
                let below = if one_or_none(head) {
                    if size == 1 {
                        self.lists(vec![], None, 0)
                    } else {
                        self.lists(vec![Place::Expression], None, size - 1)
                    }
                } else {
                    let (first, rest) = children(head);
                    self.lists(first, rest, size - 1)
                };
                for inside in below.iter() {
                    let mut tree = Vec::with_capacity(size);
                    tree.push([head[0], head[1], head[2], size as u32]);
                    tree.extend_from_slice(inside);
                    all.push(tree);
                }
            }
        }
        let all = Rc::new(all);
        self.trees.insert((place, size), all.clone());
        all
    }

    /// All lists of that many rows: the first places one each, then any number of the last.
    fn lists(&mut self, first: Vec<Place>, rest: Option<Place>, size: usize) -> Rc<Vec<Tree>> {
        let key = (first, rest, size);
        if let Some(list) = self.lists.get(&key) {
            return list.clone();
        }
        let (first, rest, size) = key.clone();
        let mut all = Vec::new();
        let next = first.first().copied().or(rest);
        match next {
            _ if first.is_empty() && size == 0 => all.push(Vec::new()),
            None => {}
            Some(place) => {
                let after = if first.is_empty() { Vec::new() } else { first[1..].to_vec() };
                for part in 1..=size {
                    let heads = self.trees(place, part);
                    if heads.is_empty() {
                        continue;
                    }
                    let tails = self.lists(after.clone(), rest, size - part);
                    for head in heads.iter() {
                        for tail in tails.iter() {
                            all.push([&head[..], &tail[..]].concat());
                        }
                    }
                }
            }
        }
        let all = Rc::new(all);
        self.lists.insert(key, all.clone());
        all
    }
}
