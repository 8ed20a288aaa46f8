//! What crates/bench_shelf does, in plain Rust: the same facts and terms by chance, the same segments, each with the same tree.
mod terms;
mod tree;

use terms::{Random, term};
use tree::Tree;

/// A run of facts, a power of two long, with the tree of them.
struct Segment {
    facts: usize,
    tree: Tree,
}

fn main() {
    let mut words = std::env::args().skip(1).map(|w| w.parse().unwrap_or(0));
    let mut next = || words.next().unwrap_or(0u64);
    let (count, all, first) = (next(), next(), next());
    let mut random = Random { state: 7 };
    let mut segments: Vec<Segment> = Vec::new();
    for number in 0..count {
        let left = term(&mut random, false);
        let right = term(&mut random, false);
        let mut facts = vec![(number as u32, [left, right])];
        while segments.last().is_some_and(|s| s.facts == facts.len()) {
            let mut older = segments.pop().unwrap().tree.facts;
            older.append(&mut facts);
            facts = older;
        }
        segments.push(Segment {
            facts: facts.len(),
            tree: Tree::new(facts),
        });
    }
    let mut found = 0;
    for round in 0..all + first {
        let term = term(&mut random, true);
        if round < all {
            assert!(!segments.iter().any(|s| s.tree.first(&term, |_| false).is_some()));
        }
        found += segments.iter().any(|s| s.tree.first(&term, |_| true).is_some()) as u64;
    }
    println!("{found} terms are an instance of a side");
}
