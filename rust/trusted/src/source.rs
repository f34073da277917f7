//! A file of src/: its functions with their contracts, its types, and what its `use` and `ghost use` lines bring.

use crate::specs::{parse_use, Use};

#[derive(Debug)]
pub struct Function {
    pub name: String,
    pub public: bool,
    pub exported: bool,
    /// What comes before the contract.
    pub signature: String,
    /// Each `ghost`, `requires` and `ensures`, without its label.
    pub clauses: Vec<String>,
    /// How many of them are `requires`.
    pub requires: usize,
    /// The lines of the contract.
    pub size: usize,
}

/// A struct or an enum.
#[derive(Debug)]
pub struct Type {
    pub name: String,
    pub from: usize,
    pub to: usize,
    /// Its lines, with those of the comment and the attributes above it.
    pub size: usize,
    pub text: String,
}

#[derive(Debug, Default)]
pub struct Source {
    /// What `use a::{b::C, d as e};` brings: each name here, with its path.
    pub brought: Vec<(String, Vec<String>)>,
    pub uses: Vec<Use>,
    pub strange: Vec<String>,
    pub functions: Vec<Function>,
    pub types: Vec<Type>,
    /// Paths of what is called: `b(`, `a::b(` or `a::b::c(`.
    pub calls: Vec<Vec<String>>,
}

fn strip<'a>(text: &'a str, prefixes: &[&str]) -> &'a str {
    prefixes.iter().fold(text, |text, prefix| text.strip_prefix(prefix).unwrap_or(text))
}

fn is_part(c: char) -> bool {
    c.is_alphanumeric() || c == '_'
}

/// The names of a piece of Rust.
pub fn names(text: &str) -> impl Iterator<Item = &str> {
    text.split(|c| !is_part(c)).filter(|name| !name.is_empty())
}

fn first_name(text: &str) -> String {
    text.chars().take_while(|c| is_part(*c)).collect()
}

/// The name, if a struct or an enum begins in this line.
fn type_begins(line: &str) -> Option<String> {
    let text = strip(line, &["pub ", "pub(crate) "]);
    let text = text.strip_prefix("struct ").or(text.strip_prefix("enum "))?;
    Some(first_name(text))
}

/// From the line of its name to the brace or the semicolon that ends it.
fn read_type(lines: &[&str], start: usize, name: String) -> Type {
    let ends = |line: &&str| line.starts_with('}') || (!line.starts_with(' ') && line.ends_with([';', '}']));
    let length = lines[start..].iter().position(ends).unwrap_or(0) + 1;
    let code = |line: &&str| line.split("//").next().unwrap_or("").to_string();
    let text = lines[start..start + length].iter().map(code).collect::<Vec<_>>().join(" ");
    let above = lines[..start].iter().rev().take_while(|line| line.starts_with("//") || line.starts_with("#[")).count();
    Type { name, from: start + 1, to: start + length, size: above + length, text }
}

fn function_begins(line: &str) -> Option<String> {
    let text = strip(line.trim_start(), &["pub ", "pub(crate) ", "extern \"C\" "]);
    text.strip_prefix("fn ").map(first_name)
}

/// `ensures label { .. }` without the word and the label.
fn clause(text: &str) -> String {
    let at = text.find('{').unwrap_or(text.len());
    text[at..].to_string()
}

/// The contract ends at the `{` of the body, which has a line of its own; without a contract that brace ends the line of the signature.
fn read_function(lines: &[&str], start: usize, name: String) -> Function {
    let first = lines[start].trim_start();
    let public = strip(first, &["pub extern \"C\" "]).len() < first.len() || first.starts_with("pub fn");
    let mut marks = lines[..start].iter().rev().map(|line| line.trim()).take_while(|line| line.starts_with("#["));
    let exported = first.starts_with("pub extern \"C\" ") && marks.any(|mark| mark == "#[unsafe(no_mangle)]");
    let mut function = Function { name, public, exported, signature: String::new(), clauses: Vec::new(), requires: 0, size: 0 };
    for line in &lines[start..] {
        let text = line.trim();
        let says = ["ghost ", "requires", "ensures"].iter().any(|word| text.starts_with(word));
        match function.clauses.last_mut() {
            _ if text == "{" => break,
            _ if says => function.clauses.push(clause(text)),
            Some(last) => *last = format!("{last} {text}"),
            None => function.signature = format!("{} {text}", function.signature),
        }
        function.requires += usize::from(text.starts_with("requires"));
        function.size += usize::from(!function.clauses.is_empty());
        if function.clauses.is_empty() && text.ends_with('{') {
            break;
        }
    }
    function
}

/// The paths followed by a parenthesis.
fn calls(line: &str) -> Vec<Vec<String>> {
    let code = line.split("//").next().unwrap_or("");
    let heads = code.match_indices('(').map(|(at, _)| &code[..at]);
    let path = |head: &str| {
        let start = head.rfind(|c| !is_part(c) && c != ':').map_or(0, |at| at + head[at..].chars().next().map_or(1, char::len_utf8));
        head[start..].split("::").map(String::from).collect::<Vec<_>>()
    };
    heads.map(path).filter(|path| !path[0].is_empty()).collect()
}

/// A statement that may go over several lines, without its `;`.
fn statement(lines: &[&str]) -> String {
    let length = lines.iter().position(|line| line.ends_with(';')).map_or(1, |at| at + 1);
    let text = lines[..length].iter().map(|line| line.trim()).collect::<Vec<_>>().join(" ");
    text.trim_end_matches(';').to_string()
}

/// The tree of a `use`.
fn used_tree(line: &str) -> Option<&str> {
    strip(line, &["pub ", "pub(crate) "]).strip_prefix("use ")
}

/// The parts of a list, apart at the commas outside of inner braces.
fn parts(list: &str) -> Vec<&str> {
    let (mut found, mut start, mut open) = (Vec::new(), 0, 0);
    for (at, c) in list.char_indices() {
        match c {
            '{' => open += 1,
            '}' => open -= 1,
            ',' if open == 0 => {
                found.push(&list[start..at]);
                start = at + 1;
            }
            _ => {}
        }
    }
    found.push(&list[start..]);
    found.into_iter().map(str::trim).filter(|part| !part.is_empty()).collect()
}

/// What a tree `a::b`, `a::b as c` or `a::{b, c::{d, e}}` brings, below a path.
fn brought_by(above: &[String], tree: &str) -> Vec<(String, Vec<String>)> {
    let below = |path: &str| -> Vec<String> {
        let parts = path.split("::").map(str::trim).filter(|part| !part.is_empty());
        above.iter().cloned().chain(parts.map(String::from)).collect()
    };
    if let Some((path, list)) = tree.split_once('{') {
        let list = list.trim_end().strip_suffix('}').unwrap_or(list);
        return parts(list).into_iter().flat_map(|part| brought_by(&below(path), part)).collect();
    }
    let (path, here) = tree.split_once(" as ").map_or((tree, None), |(path, here)| (path, Some(here.trim().to_string())));
    let mut path = below(path);
    if path.last().is_some_and(|name| name == "self") {
        path.pop();
    }
    path.last().cloned().map(|name| (here.unwrap_or(name), path)).into_iter().collect()
}

pub fn parse(text: &str) -> Source {
    let lines: Vec<&str> = text.lines().collect();
    let mut source = Source::default();
    for (i, line) in lines.iter().enumerate() {
        if line.starts_with("ghost use ") {
            let line = statement(&lines[i..]);
            match parse_use(&line) {
                Ok(found) => source.uses.extend(found),
                Err(()) => source.strange.push(line),
            }
        } else if used_tree(line).is_some() {
            let whole = statement(&lines[i..]);
            source.brought.extend(brought_by(&[], used_tree(&whole).unwrap_or("")));
        } else if let Some(name) = type_begins(line) {
            source.types.push(read_type(&lines, i, name));
        } else if let Some(name) = function_begins(line) {
            let function = read_function(&lines, i, name);
            source.strange.extend(function.clauses.iter().filter(|clause| clause.contains("Rattle.")).cloned());
            source.functions.push(function);
        } else {
            source.calls.extend(calls(line));
        }
    }
    source
}

#[cfg(test)]
mod tests {
    use super::*;

    const TEXT: &str = "use span::{
    format::Format,
    length::{self, Lengths as Long},
};
ghost use Rattle.span.specs.Length.{lengths_of};

#[derive(Clone, Copy)]
pub struct Line(pub u16);

pub enum Read {
    Span(Line), // told
    None,
}

// The lengths: 1.
#[unsafe(no_mangle)]
#[tactic(auto)]
pub extern \"C\" fn lengths(
    format: Format,
) -> Read
    ensures answer { result ≡ lengths_of format }
    ensures same { result ≡ result }
{
    crate::length::of(span::length::lengths_of(f(format)))
}

fn main() {
    run();
}
";

    #[test]
    fn functions_and_contracts() {
        let source = parse(TEXT);
        assert_eq!(source.functions.len(), 2);
        let first = &source.functions[0];
        assert_eq!((first.name.as_str(), first.public, first.exported, first.size), ("lengths", true, true, 2));
        assert_eq!(first.clauses[0], "{ result ≡ lengths_of format }");
        assert!(source.functions[1].clauses.is_empty() && !source.functions[1].public);
    }

    #[test]
    fn types_and_calls() {
        let source = parse(TEXT);
        let told: Vec<_> = source.types.iter().map(|t| (t.name.as_str(), t.from, t.to)).collect();
        assert_eq!(told, [("Line", 8, 8), ("Read", 10, 13)]);
        let paths: Vec<String> = source.calls.iter().map(|path| path.join("::")).collect();
        assert_eq!(paths[paths.len() - 4..], ["crate::length::of", "span::length::lengths_of", "f", "run"]);
    }

    #[test]
    fn what_is_brought() {
        let told: Vec<_> = parse(TEXT).brought.into_iter().map(|(here, path)| format!("{here} {}", path.join("::"))).collect();
        assert_eq!(told, ["Format span::format::Format", "length span::length", "Long span::length::Lengths"]);
    }

    #[test]
    fn a_ghost_clause_is_part_of_the_contract() {
        let text = "pub fn f(n: u8)\n    ghost top: { ℕ }\n    requires { n ≤ top }\n{\n}\n";
        assert_eq!(parse(text).functions[0].clauses, ["{ ℕ }", "{ n ≤ top }"]);
    }
}
