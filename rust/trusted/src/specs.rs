//! A file of specs/: its head, its `use` lines and its definitions, recognized by how `rt fmt` lays them out. A definition begins at its
//! signature, or at `record` or `data`, and has the lines below it that are indented further, and those of its clauses.

use crate::words::{spelt, without_comment, words, Word};

/// `use Rattle.CRATE.specs.MODULE.{a, b as c}`, or `.. as NAME`.
#[derive(Debug, PartialEq, Eq)]
pub struct Use {
    pub krate: String,
    /// Below specs/, with dots: `Code`, `Inside.Code`, `declared.format.Format`.
    pub module: String,
    /// Each name there with the name it has here; a name of the whole module has "" there.
    pub names: Vec<(String, String)>,
}

#[derive(Debug, PartialEq, Eq, Clone, Copy)]
pub enum Kind {
    Function,
    Record,
    Data,
}

#[derive(Debug)]
pub struct Definition {
    pub name: String,
    pub kind: Kind,
    /// The first line of the comment above it, its own first line and its last, counted from 1.
    pub top: usize,
    pub from: usize,
    pub to: usize,
    /// Its lines that are not empty, with those of its comments.
    pub size: usize,
    /// Its parts in order: signature and clauses, or head and fields. The texts have no comments.
    pub pieces: Vec<String>,
    pub constructors: Vec<String>,
    /// The parameters of the `module _` blocks around it.
    pub parameters: String,
}

#[derive(Debug, Default)]
pub struct Spec {
    pub head: String,
    pub comments: Vec<String>,
    pub uses: Vec<Use>,
    /// Lines in a form that is not known here: what they refer to is not followed.
    pub strange: Vec<String>,
    pub definitions: Vec<Definition>,
}

fn indent(line: &str) -> usize {
    line.len() - line.trim_start_matches(' ').len()
}

/// An `a as b` in a list of names.
fn name_pair(text: &str) -> (String, String) {
    let (there, here) = text.split_once(" as ").unwrap_or((text, text));
    (there.trim().to_string(), here.trim().to_string())
}

/// A `use` of another definition of this project; none if it is of a library or of proofs, an error if its form is not known.
pub fn parse_use(line: &str) -> Result<Option<Use>, ()> {
    let text = line.trim().trim_end_matches(';');
    let text = text.strip_prefix("ghost ").unwrap_or(text);
    let Some(path) = text.strip_prefix("pub ").unwrap_or(text).strip_prefix("use Rattle.") else { return Ok(None) };
    let (krate, path) = path.split_once('.').ok_or(())?;
    let Some(path) = path.strip_prefix("specs.") else { return Ok(None) };
    let krate = krate.to_string();
    if let Some((module, list)) = path.split_once(".{") {
        let list = list.strip_suffix('}').ok_or(())?;
        let names: Vec<_> = list.split(',').map(|n| name_pair(n.trim())).collect();
        let all = names.iter().any(|(there, _)| there.contains('*') && !there.contains('◌'));
        return if all { Err(()) } else { Ok(Some(Use { krate, module: module.to_string(), names })) };
    }
    let (module, name) = path.split_once(" as ").ok_or(())?;
    Ok(Some(Use { krate, module: module.to_string(), names: vec![(String::new(), name.to_string())] }))
}

/// The kind and the name, if a definition begins in this line.
fn begins(line: &str) -> Option<(Kind, &str)> {
    let text = line.trim_start();
    let text = text.strip_prefix("abbrev ").or(text.strip_prefix("unfoldable ")).unwrap_or(text);
    let text = text.strip_prefix("pub ").unwrap_or(text);
    for (word, kind) in [("record ", Kind::Record), ("data ", Kind::Data)] {
        if let Some(rest) = text.strip_prefix(word) {
            return rest.split_whitespace().next().filter(|name| !name.starts_with('{')).map(|name| (kind, name));
        }
    }
    let (name, rest) = text.split_once(' ')?;
    let signed = rest == ":" || rest.starts_with(": ");
    (signed && !name.contains(['(', '{', ')', '}'])).then_some((Kind::Function, name))
}

struct Parser {
    spec: Spec,
    /// The `module _` blocks that are open: the column of their definitions, and their parameters.
    blocks: Vec<(usize, String)>,
    /// Whether the last line belongs to the last definition.
    inside: bool,
    heading: bool,
    /// The comment lines directly above, and those since the last line of the definition.
    above: usize,
    within: usize,
}

impl Parser {
    fn column(&self) -> usize {
        self.blocks.last().map_or(0, |(column, _)| *column)
    }

    fn comment(&mut self, text: &str) {
        self.spec.comments.push(text.to_string());
        if self.heading && text != "Assumes nothing." {
            self.spec.head = format!("{} {text}", self.spec.head).trim().to_string();
        }
    }

    fn used(&mut self, line: &str) {
        match parse_use(line) {
            Ok(found) => self.spec.uses.extend(found),
            Err(()) => self.spec.strange.push(line.to_string()),
        }
    }

    fn begin(&mut self, number: usize, line: &str, kind: Kind, name: &str) {
        let parameters = self.blocks.iter().map(|(_, text)| text.as_str()).collect::<Vec<_>>().join(" ");
        let (name, pieces) = (name.to_string(), vec![line.trim().to_string()]);
        let (top, size) = (number - self.above, self.above + 1);
        let new = Definition { name, kind, top, from: number, to: number, size, pieces, constructors: Vec::new(), parameters };
        self.spec.definitions.push(new);
        self.inside = true;
        self.within = 0;
    }

    /// Whether a line at the column of definitions belongs to the last one.
    fn is_clause(&self, code: &str) -> bool {
        let names = self.spec.definitions.last().map_or(Vec::new(), |last| spelt(&last.name));
        code.trim().starts_with("unfolding ")
            || words(code).iter().any(|word| matches!(word, Word::Name(name) if names.iter().any(|n| n == name)))
    }

    /// One more line of the last definition.
    fn goes_on(&mut self, number: usize, line: &str) {
        let column = self.column();
        let Some(last) = self.spec.definitions.last_mut() else { return };
        let own = if last.kind == Kind::Function { column } else { column + 2 };
        last.to = number;
        last.size += 1 + std::mem::take(&mut self.within);
        if indent(line) != own {
            let piece = last.pieces.last_mut().expect("a definition has a first piece");
            *piece = format!("{piece} {}", line.trim());
            return;
        }
        last.pieces.push(line.trim().to_string());
        if last.kind == Kind::Data {
            let names = line.trim().split(" :").next().unwrap_or("");
            last.constructors.extend(names.split_whitespace().map(String::from));
        }
    }

    fn line(&mut self, number: usize, line: &str) {
        let code = without_comment(line).trim_end();
        if code.is_empty() {
            return self.no_code(line);
        }
        self.heading = false;
        self.code(number, code);
        // A line `infixl 60 ◌⊕◌` belongs to the definition below it, as a comment does.
        self.above = if code.trim_start().starts_with("infix") { self.above + 1 } else { 0 };
    }

    /// An empty line or a comment. A comment that is indented further, between the fields of a record, does not end it.
    fn no_code(&mut self, line: &str) {
        let Some(text) = line.trim().strip_prefix("--").map(|text| text.trim_start_matches(['-', ' '])) else {
            self.heading = false;
            self.above = 0;
            return;
        };
        if self.inside && indent(line) > self.column() {
            self.within += 1;
        } else {
            self.inside = false;
            self.above += 1;
        }
        self.comment(text);
    }

    fn code(&mut self, number: usize, code: &str) {
        while indent(code) < self.column() {
            self.blocks.pop();
            self.inside = false;
        }
        let standing = indent(code) == self.column();
        match begins(code) {
            _ if code.starts_with("use ") || code.starts_with("pub use ") => self.used(code),
            // A name with its whole path is not followed.
            _ if code.contains("Rattle.") => self.spec.strange.push(code.trim().to_string()),
            _ if standing && code.trim_start().starts_with("module _") => self.opens(code),
            _ if code.trim_start().starts_with("infix") || code.starts_with("pub mod ") || code.starts_with("mod ") => {}
            Some((kind, name)) if standing => self.begin(number, code, kind, name),
            _ if self.inside && (!standing || self.is_clause(code)) => self.goes_on(number, code),
            _ => self.spec.strange.push(code.trim().to_string()),
        }
    }

    fn opens(&mut self, code: &str) {
        let text = code.trim().trim_start_matches("module _").trim_end_matches("where").trim();
        self.blocks.push((indent(code) + 2, text.to_string()));
        self.inside = false;
    }
}

/// Lines of a list or a head that is broken off are joined into the first, so that line numbers stay.
fn joined(text: &str) -> Vec<String> {
    let mut lines: Vec<String> = text.lines().map(String::from).collect();
    for i in 0..lines.len() {
        let broken = |line: &str| {
            let (start, list) = (line.trim_start(), line.contains('{') && !line.contains('}'));
            (start.starts_with("use ") && list) || (start.starts_with("module _") && !line.ends_with("where"))
        };
        let mut next = i + 1;
        while broken(&lines[i]) && next < lines.len() {
            let more = std::mem::take(&mut lines[next]);
            lines[i] = format!("{} {}", lines[i], more.trim());
            next += 1;
        }
    }
    lines
}

pub fn parse(text: &str) -> Spec {
    let mut parser = Parser { spec: Spec::default(), blocks: Vec::new(), inside: false, heading: true, above: 0, within: 0 };
    for (i, line) in joined(text).iter().enumerate() {
        parser.line(i + 1, line);
    }
    parser.spec
}

#[cfg(test)]
mod tests {
    use super::*;

    const TEXT: &str = "-- Finding (document 01, \"A span\").
-- Assumes nothing.
use Rattle.std.specs.Prelude.{ℕ, ◌*◌}
use Rattle.ground.specs.Search.{first_from, is_some as is}
use Rattle.one.specs.declared.at.Found.TheVariants as Found

-- what is found
pub record At (A : Type 0) : Type 0 where
  pub place : ℕ
  -- its reading
  pub reading :
      A

module _ (n : ℕ) where
  -- the place
  abbrev pub at : ℕ → ℕ
  at zero = n
  at (suc k) =
      at k

infixl 60 ◌⊕◌
unfoldable pub ◌⊕◌ : ℕ → ℕ → ℕ
a ⊕ b = a

pub data Answer : Type 0 where
  refused : (number place : ℕ) → Answer
  given : Answer
";

    #[test]
    fn definitions_and_their_lines() {
        let spec = parse(TEXT);
        let told: Vec<_> = spec.definitions.iter().map(|d| (d.name.as_str(), d.from, d.to, d.size, d.pieces.len())).collect();
        assert_eq!(told, [("At", 8, 12, 6, 3), ("at", 16, 19, 5, 3), ("◌⊕◌", 22, 23, 3, 2), ("Answer", 25, 27, 3, 3)]);
        assert_eq!(spec.definitions[1].parameters, "(n : ℕ)");
        assert_eq!(spec.definitions[3].constructors, ["refused", "given"]);
        assert_eq!(spec.head, "Finding (document 01, \"A span\").");
    }

    #[test]
    fn uses() {
        let spec = parse(TEXT);
        assert_eq!(spec.uses.len(), 3);
        assert_eq!(spec.uses[1].names[1], ("is_some".to_string(), "is".to_string()));
        assert_eq!(spec.uses[2].module, "declared.at.Found.TheVariants");
        assert_eq!(spec.uses[2].names, [(String::new(), "Found".to_string())]);
        assert!(parse_use("use Rattle.one.specs.Code").is_err());
        assert!(parse_use("use Rattle.one.specs.Code.{*}").is_err());
        assert_eq!(parse_use("use Rattle.one.proofs.Code.{code}"), Ok(None));
    }

    #[test]
    fn what_is_not_understood() {
        assert_eq!(parse("pub f : ℕ\nf = Rattle.a.specs.B.c\n\naxiom g : ℕ\n").strange, ["f = Rattle.a.specs.B.c", "axiom g : ℕ"]);
        assert!(parse(TEXT).strange.is_empty());
    }
}
