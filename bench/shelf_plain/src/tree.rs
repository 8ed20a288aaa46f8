//! The discrimination tree of crates/uc_disc: places in preorder, each with its depth, the next place that isn't below it and the
//! least rule below it.

use crate::terms::Node;

#[derive(Clone, Copy, PartialEq, Eq, PartialOrd, Ord)]
enum Label {
    Variable(u32),
    Head(u32, u32),
    Leaf(u32),
}

#[derive(Clone, Copy)]
struct Place {
    label: Label,
    depth: u32,
}

#[derive(Clone, Copy)]
struct Mark {
    skip: usize,
    least: u32,
}

#[allow(dead_code)]
/// What is found: a fact, whether it is its right side, and the terms of its variables.
pub struct Found {
    pub fact: u32,
    pub right: bool,
    pub pairs: Vec<(u32, Vec<Node>)>,
}

pub struct Tree {
    pub facts: Vec<(u32, [Vec<Node>; 2])>,
    places: Vec<Place>,
    marks: Vec<Mark>,
}

fn spell(side: &[Node], rule: u32) -> Vec<Label> {
    let mut first = std::collections::HashMap::new();
    let mut labels: Vec<Label> = side
        .iter()
        .enumerate()
        .map(|(place, node)| match *node {
            Node::Var(x) => Label::Variable(*first.entry(x).or_insert(place as u32)),
            Node::App(f, n) => Label::Head(f, n),
        })
        .collect();
    labels.push(Label::Leaf(rule));
    labels
}

impl Tree {
    pub fn new(facts: Vec<(u32, [Vec<Node>; 2])>) -> Tree {
        let mut spellings: Vec<Vec<Label>> = Vec::new();
        for (place, fact) in facts.iter().enumerate() {
            spellings.push(spell(&fact.1[0], 2 * place as u32));
            spellings.push(spell(&fact.1[1], 2 * place as u32 + 1));
        }
        spellings.sort();
        let mut places = Vec::new();
        let mut last: &[Label] = &[];
        for spelling in &spellings {
            let shared = last.iter().zip(spelling).take_while(|(a, b)| a == b).count();
            for (depth, label) in spelling.iter().enumerate().skip(shared) {
                places.push(Place {
                    label: *label,
                    depth: depth as u32,
                });
            }
            last = spelling;
        }
        let mut marks = vec![Mark { skip: 0, least: u32::MAX }; places.len()];
        for i in (0..places.len()).rev() {
            let mut least = match places[i].label {
                Label::Leaf(rule) => rule,
                _ => u32::MAX,
            };
            let mut j = i + 1;
            while j < places.len() && places[j].depth > places[i].depth {
                least = least.min(marks[j].least);
                j = marks[j].skip;
            }
            marks[i] = Mark { skip: j, least };
        }
        Tree { facts, places, marks }
    }

    /// The first that is found and passes a test.
    pub fn first(&self, term: &[Node], passes: impl Fn(&Found) -> bool) -> Option<Found> {
        let mut ends = [0u16; 64];
        let mut at = [0u16; 64];
        for place in (0..term.len()).rev() {
            let mut end = place as u16 + 1;
            if let Node::App(_, n) = term[place] {
                for _ in 0..n {
                    end = ends[end as usize];
                }
            }
            ends[place] = end;
        }
        let mut best = None;
        let mut bound = u32::MAX;
        let mut i = 0;
        while i < self.places.len() {
            if self.marks[i].least >= bound {
                i = self.marks[i].skip;
                continue;
            }
            let depth = self.places[i].depth as usize;
            let here = at[depth] as usize;
            let leads = match self.places[i].label {
                Label::Leaf(rule) => {
                    if let Some(found) = self.try_rule(rule, term).filter(&passes) {
                        best = Some(found);
                        bound = rule;
                    }
                    i += 1;
                    continue;
                }
                Label::Head(f, n) => {
                    let same = here < term.len() && term[here] == Node::App(f, n);
                    if same {
                        at[depth + 1] = here as u16 + 1;
                    }
                    same
                }
                Label::Variable(k) => {
                    let first = at[k as usize] as usize;
                    let same = here < term.len()
                        && (first == here
                            || term[first..ends[first] as usize] == term[here..ends[here] as usize]);
                    if same {
                        at[depth + 1] = ends[here];
                    }
                    same
                }
            };
            i = if leads { i + 1 } else { self.marks[i].skip };
        }
        best
    }

    /// What a rule gives, by a walk over its side and the term.
    fn try_rule(&self, rule: u32, term: &[Node]) -> Option<Found> {
        let fact = &self.facts[rule as usize / 2];
        let mut pairs: Vec<(u32, Vec<Node>)> = Vec::new();
        let mut place = 0;
        for node in &fact.1[rule as usize % 2] {
            match *node {
                Node::App(f, n) => {
                    if term[place] != Node::App(f, n) {
                        return None;
                    }
                    place += 1;
                }
                Node::Var(x) => {
                    let mut end = place;
                    let mut open = 1;
                    while open > 0 {
                        open -= 1;
                        if let Node::App(_, n) = term[end] {
                            open += n;
                        }
                        end += 1;
                    }
                    match pairs.iter().find(|p| p.0 == x) {
                        Some(pair) if pair.1 != term[place..end] => return None,
                        Some(_) => {}
                        None => pairs.push((x, term[place..end].to_vec())),
                    }
                    place = end;
                }
            }
        }
        Some(Found {
            fact: fact.0,
            right: rule % 2 == 1,
            pairs,
        })
    }
}
