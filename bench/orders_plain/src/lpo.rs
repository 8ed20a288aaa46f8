//! The lexicographic path order, each pair of subterms at most once (Löchner, Things to Know when Implementing LPO, 2006).

use crate::node::{Cmp, Node, Sym, end_of_terms};

pub struct Ranks(Vec<usize>);

impl Ranks {
    /// Of a precedence, the least first.
    pub fn new(precedence: &[Sym]) -> Self {
        let bound = precedence.iter().map(|f| f.0 as usize + 1).max().unwrap_or(0);
        let mut ranks = vec![0; bound];
        for (at, f) in precedence.iter().enumerate() {
            ranks[f.0 as usize] = at + 1;
        }
        Ranks(ranks)
    }

    fn of(&self, f: Sym) -> usize {
        self.0.get(f.0 as usize).copied().unwrap_or(0)
    }
}

pub fn compare(ranks: &Ranks, s: &[Node], t: &[Node]) -> Cmp {
    if s == t {
        Cmp::Equal
    } else if greater(ranks, s, t) {
        Cmp::Greater
    } else if greater(ranks, t, s) {
        Cmp::Less
    } else {
        Cmp::Unknown
    }
}

fn greater(ranks: &Ranks, s: &[Node], t: &[Node]) -> bool {
    match (s[0], t[0]) {
        (Node::Var(_), _) => false,
        (Node::App(_, _), Node::Var(_)) => reaches(ranks, &s[1..], t),
        (Node::App(f, _), Node::App(g, _)) if f == g => differs(ranks, s, t),
        (Node::App(f, _), Node::App(g, _)) if ranks.of(g) < ranks.of(f) => exceeds(ranks, s, &t[1..]),
        _ => reaches(ranks, &s[1..], t),
    }
}

// Whether s is greater than each of the terms.
fn exceeds(ranks: &Ranks, s: &[Node], ts: &[Node]) -> bool {
    let mut from = 0;
    while from < ts.len() {
        let is_lower = match (ts[from], s[0]) {
            (Node::App(g, _), Node::App(f, _)) => ranks.of(g) < ranks.of(f),
            _ => false,
        };
        if is_lower {
            from += 1;
        } else {
            let end = end_of_terms(ts, from, 1);
            if !greater(ranks, s, &ts[from..end]) {
                return false;
            }
            from = end;
        }
    }
    true
}

// Whether some of the terms is t or greater.
fn reaches(ranks: &Ranks, ss: &[Node], t: &[Node]) -> bool {
    let mut from = 0;
    while from < ss.len() {
        let is_passed = match (ss[from], t[0]) {
            (Node::Var(_), _) => false,
            (Node::App(_, _), Node::Var(_)) => true,
            (Node::App(f, _), Node::App(g, _)) => ranks.of(f) < ranks.of(g),
        };
        if is_passed {
            from += 1;
        } else {
            let end = end_of_terms(ss, from, 1);
            let part = &ss[from..end];
            if part == t || greater(ranks, part, t) {
                return true;
            }
            from = end;
        }
    }
    false
}

// Whether s is greater than t, where both have one head.
fn differs(ranks: &Ranks, s: &[Node], t: &[Node]) -> bool {
    let mut from = 1;
    while from < s.len() && from < t.len() {
        let s_end = end_of_terms(s, from, 1);
        let t_end = end_of_terms(t, from, 1);
        let (s_part, t_part) = (&s[from..s_end], &t[from..t_end]);
        if s_part != t_part {
            return if greater(ranks, s_part, t_part) {
                exceeds(ranks, s, &t[t_end..])
            } else {
                reaches(ranks, &s[s_end..], t)
            };
        }
        from = s_end;
    }
    reaches(ranks, &s[from..], t)
}
