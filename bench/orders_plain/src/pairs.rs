//! Pairs of terms in postfix order: `e`, `m` and `i` are the symbols of groups, and a capital letter is a variable.

use crate::node::{Node, Sym};

pub const E: Sym = Sym(0);
pub const M: Sym = Sym(1);
pub const I: Sym = Sym(2);

pub struct Pair {
    pub left: Vec<Node>,
    pub right: Vec<Node>,
}

fn applied(f: Sym, args: &[Vec<Node>]) -> Vec<Node> {
    let mut list = vec![Node::App(f, args.len() as u32)];
    list.extend(args.iter().flatten());
    list
}

fn term(word: &str) -> Vec<Node> {
    let mut stack: Vec<Vec<Node>> = Vec::new();
    for letter in word.bytes() {
        let t = match letter {
            b'e' => applied(E, &[]),
            b'i' => applied(I, &stack.split_off(stack.len() - 1)),
            b'm' => applied(M, &stack.split_off(stack.len() - 2)),
            _ => vec![Node::Var((letter - b'A') as u32)],
        };
        stack.push(t);
    }
    stack.pop().expect("a word is a term")
}

pub fn read_pairs(text: &[u8]) -> Vec<Pair> {
    let text = std::str::from_utf8(text).expect("the file is text");
    let pair = |line: &str| {
        let (left, right) = line.split_once(' ').expect("a line has two terms");
        Pair { left: term(left), right: term(right) }
    };
    text.lines().map(pair).collect()
}
