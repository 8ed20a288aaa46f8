//! The Knuth-Bendix order, from the first difference up to the roots (Löchner, Things to Know when Implementing KBO, 2006).

use crate::node::{Cmp, Node, Sym, end_of_terms};

const COUNTERS: usize = 32;

#[derive(Clone, Copy)]
struct Slot {
    arity: u32,
    weight: u32,
    rank: usize,
}

pub struct Weights {
    w0: u32,
    table: Vec<Slot>,
}

impl Weights {
    /// Of a precedence, the least first, of symbols with their arities and weights.
    pub fn new(w0: u32, precedence: &[(Sym, u32, u32)]) -> Self {
        let bound = precedence.iter().map(|entry| entry.0.0 as usize + 1).max().unwrap_or(0);
        let mut table = vec![Slot { arity: 0, weight: w0, rank: 0 }; bound];
        for (at, &(f, arity, weight)) in precedence.iter().enumerate() {
            table[f.0 as usize] = Slot { arity, weight, rank: at + 1 };
        }
        Weights { w0, table }
    }

    fn slot(&self, f: Sym, n: u32) -> Option<&Slot> {
        self.table.get(f.0 as usize).filter(|slot| slot.arity == n)
    }

    fn weight_of(&self, f: Sym, n: u32) -> u32 {
        self.slot(f, n).map_or(self.w0, |slot| slot.weight)
    }

    fn rank_of(&self, f: Sym, n: u32) -> usize {
        self.slot(f, n).map_or(0, |slot| slot.rank)
    }
}

// The nodes from one place of a list to another, with their weight and how often each small variable is among them.
struct Run<'a> {
    list: &'a [Node],
    from: usize,
    to: usize,
    weight: u64,
    counts: [u32; COUNTERS],
    has_large: bool,
}

impl<'a> Run<'a> {
    fn new(list: &'a [Node], from: usize) -> Self {
        Run { list, from, to: from, weight: 0, counts: [0; COUNTERS], has_large: false }
    }

    fn extend(&mut self, w: &Weights, to: usize) {
        for node in &self.list[self.to..to] {
            match *node {
                Node::Var(x) => {
                    self.weight += w.w0 as u64;
                    match self.counts.get_mut(x as usize) {
                        Some(count) => *count += 1,
                        None => self.has_large = true,
                    }
                }
                Node::App(f, n) => self.weight += w.weight_of(f, n) as u64,
            }
        }
        self.to = to;
    }

    fn nodes(&self) -> &'a [Node] {
        &self.list[self.from..self.to]
    }

    // No variable is more often in the other run.
    fn has_all(&self, other: &Run) -> bool {
        if self.has_large || other.has_large {
            return has_all_nodes(self.nodes(), other.nodes());
        }
        self.counts.iter().zip(&other.counts).all(|(a, b)| a >= b)
    }
}

#[cold]
fn has_all_nodes(s: &[Node], t: &[Node]) -> bool {
    let occurrences = |x: Node, list: &[Node]| list.iter().filter(|n| **n == x).count();
    t.iter().filter(|n| matches!(n, Node::Var(_))).all(|x| occurrences(*x, t) <= occurrences(*x, s))
}

fn decide(a: &Run, b: &Run, equal: Cmp) -> Cmp {
    let way = if b.weight < a.weight {
        Cmp::Greater
    } else if a.weight < b.weight {
        Cmp::Less
    } else {
        equal
    };
    match way {
        Cmp::Greater if a.has_all(b) => Cmp::Greater,
        Cmp::Less if b.has_all(a) => Cmp::Less,
        _ => Cmp::Unknown,
    }
}

// The list is unary symbols of weight 0 and then the variable.
#[cold]
fn is_stack(w: &Weights, list: &[Node], x: u32) -> bool {
    for node in list {
        match *node {
            Node::Var(y) => return y == x,
            Node::App(f, n) if n != 1 || w.weight_of(f, n) != 0 => return false,
            Node::App(_, _) => (),
        }
    }
    false
}

fn heads(w: &Weights, s: &[Node], t: &[Node]) -> Cmp {
    match (s[0], t[0]) {
        (Node::Var(x), Node::App(_, _)) if is_stack(w, t, x) => Cmp::Less,
        (Node::App(_, _), Node::Var(y)) if is_stack(w, s, y) => Cmp::Greater,
        (Node::App(f, n), Node::App(g, m)) => match w.rank_of(f, n).cmp(&w.rank_of(g, m)) {
            std::cmp::Ordering::Less => Cmp::Less,
            std::cmp::Ordering::Equal => Cmp::Unknown,
            std::cmp::Ordering::Greater => Cmp::Greater,
        },
        _ => Cmp::Unknown,
    }
}

fn climb(w: &Weights, s: &[Node], t: &[Node], at: usize) -> Cmp {
    let mut a = Run::new(s, at);
    a.extend(w, end_of_terms(s, at, 1));
    let mut b = Run::new(t, at);
    b.extend(w, end_of_terms(t, at, 1));
    let mut verdict = decide(&a, &b, heads(w, &s[at..], &t[at..]));
    let mut done = 0;
    for node in s[..at].iter().rev() {
        match *node {
            Node::Var(_) => done += 1,
            Node::App(_, n) if n as usize <= done => done = done - n as usize + 1,
            Node::App(_, n) => {
                let left = n as usize - done - 1;
                a.extend(w, end_of_terms(s, a.to, left));
                b.extend(w, end_of_terms(t, b.to, left));
                verdict = decide(&a, &b, verdict);
                done = 0;
            }
        }
    }
    verdict
}

pub fn compare(w: &Weights, s: &[Node], t: &[Node]) -> Cmp {
    let at = s.iter().zip(t).take_while(|(a, b)| a == b).count();
    if at >= s.len() || at >= t.len() {
        return Cmp::Equal;
    }
    let mut a = Run::new(s, at);
    a.extend(w, s.len());
    let mut b = Run::new(t, at);
    b.extend(w, t.len());
    if a.weight != b.weight {
        decide(&a, &b, Cmp::Unknown)
    } else {
        climb(w, s, t, at)
    }
}
