//! Terms by chance, as lists of nodes in prefix order.

#[derive(Clone, Copy, PartialEq, Eq, PartialOrd, Ord)]
pub enum Node {
    Var(u32),
    App(u32, u32),
}

pub struct Random {
    pub state: u32,
}

impl Random {
    pub fn below(&mut self, n: u32) -> u32 {
        self.state = self.state.wrapping_mul(1664525).wrapping_add(1013904223);
        (self.state >> 8) % n
    }
}

fn leaf(random: &mut Random, ground: bool) -> Vec<Node> {
    if ground || random.below(3) == 0 {
        vec![Node::App(2 + random.below(5), 0)]
    } else {
        vec![Node::Var(random.below(3))]
    }
}

pub fn term(random: &mut Random, ground: bool) -> Vec<Node> {
    let mut term = leaf(random, ground);
    for _ in 0..2 + random.below(4) {
        if random.below(3) == 0 {
            term.insert(0, Node::App(1, 1));
        } else {
            let mut args = leaf(random, ground);
            if random.below(2) == 0 {
                args.splice(0..0, term);
            } else {
                args.append(&mut term);
            }
            args.insert(0, Node::App(0, 2));
            term = args;
        }
    }
    term
}
