//! Searches for a finite model by the plain rule, prefix by prefix: what bench/models.py does, compiled.
//!
//!     models_plain PROBLEM SIZE [MOST]
//!
//! Each visited prefix is tried anew on every assignment of every clause, up to the first instance that it refutes. Prints a line a
//! size, `size N visited V`, and last `found VALUES`, `none`, or `spent MOST`.
mod problem;

use problem::{Clause, Problem, Term, read_problem};

/// What a search goes by: the problem, the size, the place of each symbol's first cell, and how many cells there are.
struct Search<'a> {
    problem: &'a Problem,
    size: usize,
    firsts: Vec<usize>,
    cells: usize,
    visited: u64,
    most: u64,
}

enum End {
    Found,
    None,
    Spent,
}

impl<'a> Search<'a> {
    fn new(problem: &'a Problem, size: usize, most: u64) -> Self {
        let mut firsts = Vec::new();
        let mut cells = 0;
        for (_, arity) in &problem.symbols {
            firsts.push(cells);
            cells += size.pow(*arity as u32);
        }
        Search { problem, size, firsts, cells, visited: 0, most }
    }

    /// The value of a term, or none where a cell has none yet.
    fn value(&self, term: &Term, prefix: &[usize], assignment: &[usize]) -> Option<usize> {
        match term {
            Term::Variable(number) => Some(assignment[*number]),
            Term::Apply(symbol, arguments) => {
                let mut place = 0;
                for argument in arguments {
                    place = place * self.size + self.value(argument, prefix, assignment)?;
                }
                prefix.get(self.firsts[*symbol] + place).copied()
            }
        }
    }

    /// Whether the prefix fixes both sides of an instance of a clause, and against it.
    fn refutes(&self, clause: &Clause, prefix: &[usize]) -> bool {
        let mut assignment = vec![0; clause.variables];
        loop {
            if let (Some(left), Some(right)) =
                (self.value(&clause.left, prefix, &assignment), self.value(&clause.right, prefix, &assignment))
                && (left == right) != clause.positive
            {
                return true;
            }
            let Some(last) = assignment.iter().rposition(|value| value + 1 < self.size) else {
                return false;
            };
            assignment[last] += 1;
            assignment[last + 1..].fill(0);
        }
    }

    fn is_refuted(&self, prefix: &[usize]) -> bool {
        self.problem.clauses.iter().any(|clause| self.refutes(clause, prefix))
    }

    /// Goes through the prefixes behind one that isn't refuted, up to the first whole table that isn't.
    fn visit(&mut self, prefix: &mut Vec<usize>) -> End {
        for last in 0..self.size {
            if self.visited == self.most {
                return End::Spent;
            }
            self.visited += 1;
            prefix.push(last);
            if !self.is_refuted(prefix) {
                if prefix.len() == self.cells {
                    return End::Found;
                }
                match self.visit(prefix) {
                    End::None => {}
                    end => return end,
                }
            }
            prefix.pop();
        }
        End::None
    }
}

fn main() {
    let words: Vec<String> = std::env::args().collect();
    let text = std::fs::read_to_string(&words[1]).expect("the problem can be read");
    let sizes: usize = words[2].parse().expect("the size is a number");
    let most: u64 = words.get(3).map_or(u64::MAX, |word| word.parse().expect("the budget is a number"));
    let problem = read_problem(&text);
    let mut total = 0;
    for size in 1..=sizes {
        let mut search = Search::new(&problem, size, most - total);
        let mut prefix = Vec::new();
        let end = if search.is_refuted(&prefix) { End::None } else { search.visit(&mut prefix) };
        total += search.visited;
        if let End::Spent = end {
            return println!("spent {most}");
        }
        println!("size {size} visited {}", search.visited);
        if let End::Found = end {
            let values: Vec<String> = prefix.iter().map(usize::to_string).collect();
            return println!("found {}", values.join(" "));
        }
    }
    println!("none");
}
