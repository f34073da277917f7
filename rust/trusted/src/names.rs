//! Which names a piece of antt takes from outside: those that no pattern, binder, `λ` or `let` of its own binds.

use crate::words::Word;

/// Reads pieces of one definition, and gathers the names it takes from outside.
pub struct Reader<'a> {
    /// What is bound, and how many brackets were open there.
    bound: Vec<(&'a str, usize)>,
    /// Names of each `let` whose `in` has not come yet.
    let_names: Vec<Vec<&'a str>>,
    open: usize,
    pub taken: Vec<&'a str>,
}

/// The names from here on, up to the first word that is not a name or is one of the ends.
fn names_until<'a>(words: &[Word<'a>], ends: &[&str]) -> Vec<&'a str> {
    let name = |w: &Word<'a>| match w {
        Word::Name(n) if !ends.contains(n) => Some(*n),
        _ => None,
    };
    words.iter().map_while(name).collect()
}

/// The place of a sign outside brackets.
fn top_level(words: &[Word], sign: &str) -> Option<usize> {
    let mut open = 0;
    words.iter().position(|w| {
        match w {
            Word::Open(_) => open += 1,
            Word::Close => open -= 1,
            _ => {}
        }
        open == 0 && *w == Word::Name(sign)
    })
}

impl<'a> Reader<'a> {
    pub fn new() -> Self {
        Reader { bound: Vec::new(), let_names: Vec::new(), open: 0, taken: Vec::new() }
    }

    fn bind(&mut self, names: Vec<&'a str>, open: usize) {
        self.bound.extend(names.into_iter().map(|n| (n, open)));
    }

    fn take(&mut self, name: &'a str) {
        if !self.bound.iter().any(|(b, _)| *b == name) {
            self.taken.push(name);
        }
    }

    /// `(x y : T)` binds x and y up to the end of the bracket around it.
    fn opened(&mut self, rest: &[Word<'a>]) {
        let names = names_until(rest, &[":"]);
        if !names.is_empty() && rest.get(names.len()) == Some(&Word::Name(":")) {
            self.bind(names, self.open);
        }
        self.open += 1;
    }

    fn closed(&mut self) {
        self.open = self.open.saturating_sub(1);
        let open = self.open;
        self.bound.retain(|(_, at)| *at <= open);
    }

    /// An expression or a type.
    pub fn expression(&mut self, words: &[Word<'a>]) {
        for (i, word) in words.iter().enumerate() {
            let rest = &words[i + 1..];
            // In `record { line = n; .. }` and `f {A = B}` the name before the sign is a field's or an argument's.
            let labels = i > 0 && matches!(words[i - 1], Word::Open('{') | Word::Sign(';')) && rest.first() == Some(&Word::Name("="));
            match *word {
                Word::Open(_) => self.opened(rest),
                Word::Close => self.closed(),
                Word::Name("λ") => self.bind(names_until(rest, &[]), self.open),
                Word::Name("let") => self.let_names.push(names_until(rest, &["=", ":"])),
                Word::Name("in") => {
                    let names = self.let_names.pop().unwrap_or_default();
                    self.bind(names, self.open);
                }
                Word::Name("=" | ":") => {}
                Word::Name(name) if !labels && !self.is_let_name(words, i) => self.take(name),
                _ => {}
            }
        }
    }

    /// `x` of `let x = ..`, which is bound only after the `in`.
    fn is_let_name(&self, words: &[Word<'a>], i: usize) -> bool {
        i > 0 && words[i - 1] == Word::Name("let")
    }

    /// Names that are the definition's own throughout.
    pub fn own(&mut self, names: Vec<&'a str>) {
        self.bind(names, 0);
    }

    /// `pub record Name (parameter : type) .. where`
    pub fn head(&mut self, words: &[Word<'a>], name: &str) {
        let at = words.iter().position(|w| *w == Word::Name(name)).map_or(0, |at| at + 1);
        self.expression(&words[at..]);
    }

    /// `name other : type`: the names are the piece's own from here on.
    pub fn signature(&mut self, words: &[Word<'a>]) {
        let at = top_level(words, ":").unwrap_or(0);
        self.bind(names_until(&words[..at], &[]), 0);
        self.expression(words.get(at + 1..).unwrap_or_default());
    }

    /// `f pattern .. = expression`: what the patterns name is bound only in the expression, except for constructors.
    pub fn clause(&mut self, words: &[Word<'a>], constructs: &dyn Fn(&str) -> bool) {
        let at = top_level(words, "=").unwrap_or(words.len());
        let outside = self.bound.len();
        for word in &words[..at] {
            match *word {
                Word::Name(name) if constructs(name) => self.take(name),
                Word::Name(name) => self.bind(vec![name], 0),
                _ => {}
            }
        }
        self.expression(words.get(at + 1..).unwrap_or_default());
        self.bound.truncate(outside);
    }
}

#[cfg(test)]
mod tests {
    use super::*;
    use crate::words::words;

    fn of_clause(text: &'static str) -> Vec<&'static str> {
        let mut reader = Reader::new();
        reader.clause(&words(text), &|name| name == "given");
        reader.taken
    }

    #[test]
    fn patterns_bind_and_constructors_do_not() {
        assert_eq!(of_clause("repair (given r) = f r.word row"), ["given", "f", "row"]);
        assert_eq!(of_clause("a ⊕ b = bit_xor a b"), ["bit_xor"]);
    }

    #[test]
    fn a_bound_name_ends_with_its_bracket() {
        assert_eq!(of_clause("f n = g (λ row. row n) row"), ["g", "row"]);
        assert_eq!(of_clause("f n = let row = row n in g row"), ["row", "g"]);
        assert_eq!(of_clause("f n = ((row : ℕ) × P row) × row"), ["ℕ", "×", "P", "×", "row"]);
    }

    #[test]
    fn labels_are_no_names() {
        assert_eq!(of_clause("f n = record { line = n; row = line n }"), ["record", "line"]);
    }
}
