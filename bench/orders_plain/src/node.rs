//! The nodes of a term's flat prefix list.

#[derive(Clone, Copy, PartialEq, Eq)]
pub struct Sym(pub u32);

#[derive(Clone, Copy, PartialEq, Eq)]
pub enum Node {
    Var(u32),
    App(Sym, u32),
}

#[derive(Clone, Copy, PartialEq, Eq)]
pub enum Cmp {
    Greater,
    Less,
    Equal,
    Unknown,
}

/// The place behind `count` terms that begin at `from`.
#[inline]
pub fn end_of_terms(list: &[Node], from: usize, count: usize) -> usize {
    let mut pending = count;
    let mut end = from;
    while pending > 0 {
        match list[end] {
            Node::Var(_) => pending -= 1,
            Node::App(_, arity) => pending = pending - 1 + arity as usize,
        }
        end += 1;
    }
    end
}
