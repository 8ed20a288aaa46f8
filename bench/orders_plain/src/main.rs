//! The work of crates/bench_orders in plain Rust: both orders on the same flat prefix lists, by the same algorithms.

mod kbo;
mod lpo;
mod node;
mod pairs;

use node::{Cmp, Node, Sym};
use pairs::Pair;

#[derive(Debug, Default)]
struct Counts {
    greater: u64,
    less: u64,
    equal: u64,
    unknown: u64,
}

impl Counts {
    fn add(&mut self, outcome: Cmp) {
        match outcome {
            Cmp::Greater => self.greater += 1,
            Cmp::Less => self.less += 1,
            Cmp::Equal => self.equal += 1,
            Cmp::Unknown => self.unknown += 1,
        }
    }
}

fn compared(compare: impl Fn(&[Node], &[Node]) -> Cmp, pairs: &[Pair], rounds: u64) -> Counts {
    let mut counts = Counts::default();
    for _ in 0..rounds {
        for pair in pairs {
            counts.add(compare(&pair.left, &pair.right));
        }
    }
    counts
}

fn main() -> std::io::Result<()> {
    let pairs = pairs::read_pairs(&std::fs::read("group_pairs")?);
    let mut rounds = std::env::args().skip(1).map(|word| word.parse().unwrap_or(0));
    let precedence = [(pairs::E, 0, 1), (pairs::M, 2, 1), (pairs::I, 1, 0)];
    let weights = kbo::Weights::new(1, &precedence);
    let by_weight = compared(|s, t| kbo::compare(&weights, s, t), &pairs, rounds.next().unwrap_or(0));
    let ranks = lpo::Ranks::new(&precedence.map(|entry: (Sym, u32, u32)| entry.0));
    let by_paths = compared(|s, t| lpo::compare(&ranks, s, t), &pairs, rounds.next().unwrap_or(0));
    println!("kbo {by_weight:?}\nlpo {by_paths:?}");
    Ok(())
}
