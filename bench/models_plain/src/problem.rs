//! Problems of a clause a line, as `uc show` prints them.

/// A term over the variables of its clause and the symbols of the problem, by their numbers.
pub enum Term {
    Variable(usize),
    Apply(usize, Vec<Term>),
}

pub struct Clause {
    pub positive: bool,
    pub left: Term,
    pub right: Term,
    pub variables: usize,
}

/// The clauses, and the symbols with their numbers of arguments, by first occurrence.
pub struct Problem {
    pub clauses: Vec<Clause>,
    pub symbols: Vec<(String, usize)>,
}

struct Reader<'a> {
    rest: &'a str,
    variables: Vec<String>,
    symbols: Vec<(String, usize)>,
}

impl Reader<'_> {
    fn passes(&mut self, mark: &str) -> bool {
        let rest = self.rest.trim_start();
        let Some(after) = rest.strip_prefix(mark) else {
            return false;
        };
        self.rest = after;
        true
    }

    fn word(&mut self) -> String {
        let rest = self.rest.trim_start();
        let end = rest.find(|c: char| !c.is_ascii_alphanumeric() && c != '_').unwrap_or(rest.len());
        let (word, after) = rest.split_at(end);
        assert!(!word.is_empty(), "a name is missing before {after:?}");
        self.rest = after;
        word.to_owned()
    }

    /// Reads a term. A symbol has its number before those of its arguments.
    fn term(&mut self) -> Term {
        let name = self.word();
        if name.starts_with(|c: char| c.is_ascii_uppercase()) {
            return Term::Variable(number_of(&mut self.variables, name));
        }
        let number = self.symbols.iter().position(|(known, _)| *known == name).unwrap_or_else(|| {
            self.symbols.push((name, 0));
            self.symbols.len() - 1
        });
        let mut arguments = Vec::new();
        if self.passes("(") {
            loop {
                arguments.push(self.term());
                if !self.passes(",") {
                    break;
                }
            }
            assert!(self.passes(")"), "a bracket isn't closed before {:?}", self.rest);
        }
        self.symbols[number].1 = arguments.len();
        Term::Apply(number, arguments)
    }
}

fn number_of(names: &mut Vec<String>, name: String) -> usize {
    names.iter().position(|known| *known == name).unwrap_or_else(|| {
        names.push(name);
        names.len() - 1
    })
}

/// Reads the clauses of a text. A constant `least` comes last where the text has none.
pub fn read_problem(text: &str) -> Problem {
    let mut clauses = Vec::new();
    let mut symbols = Vec::new();
    for line in text.lines().filter(|line| line.starts_with("cnf(")) {
        let body = line.splitn(3, ',').nth(2).expect("a clause has a name and a role");
        let mut reader = Reader { rest: body, variables: Vec::new(), symbols };
        let left = reader.term();
        let positive = !reader.passes("!=");
        assert!(!positive || reader.passes("="), "no equation: {line}");
        let right = reader.term();
        symbols = reader.symbols;
        clauses.push(Clause { positive, left, right, variables: reader.variables.len() });
    }
    if symbols.iter().all(|(_, arity)| *arity > 0) {
        symbols.push(("least".to_owned(), 0));
    }
    Problem { clauses, symbols }
}
