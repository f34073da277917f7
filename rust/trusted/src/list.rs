//! The reading list, docs/TRUSTED.md.

use crate::citations::citations;
use crate::project::{File, Project};
use crate::reach::Reached;
use crate::roots::Part;
use std::fmt::Write;

pub const PATH: &str = "docs/TRUSTED.md";

const COLUMNS: usize = 118;

const INTRODUCTION: &str = "# What a reviewer must believe

The check shows that the code keeps its contracts. That the contracts say what document 01 and the standard say,
somebody has to read. This is the list of what there is to read for that: the contracts at which the reading begins,
and the definitions and types that they are made of. What is not listed need not be believed: `specs/Inside/` and
`proofs/` are how it is shown. Names of the toolchain's own libraries are not followed.

`rust/trusted` makes this list from the text: it begins at the roots named below (`rust/trusted/src/roots.rs`) and
follows every name. `./test` fails if the list is another, if a root comes to a definition in `specs/Inside/`, or if
one outside of it is reached from no root.

";

const PARTS: [(Part, &str); 2] =
    [(Part::Calls, "what the calls, the demands and the values reach"), (Part::Programs, "what only the programs' contracts reach")];

/// The files of specs/ that state what is proved: they say what the other definitions are, and nothing is made of them.
const STATEMENTS: &[&str] = &["Demands", "Examples", "Face", "Live", "Paper", "Refusals", "Values"];

/// Definitions or types: how many, and their lines.
#[derive(Default, Clone, Copy)]
pub struct Count {
    pub number: usize,
    pub lines: usize,
}

pub struct List<'a> {
    pub project: &'a Project,
    pub reached: &'a Reached,
}

fn plural(number: usize, word: &str) -> String {
    format!("{number} {word}{}", if number == 1 { "" } else { "s" })
}

/// The same text with no line over the columns that a document has; an item's further lines are set in.
fn wrapped(text: &str) -> String {
    let mut out = String::new();
    for line in text.lines() {
        let mut column = 0;
        for word in line.split(' ') {
            let long = word.chars().count();
            if column > 0 && column + 1 + long > COLUMNS {
                out.push_str(if line.starts_with("- ") { "\n  " } else { "\n" });
                column = if line.starts_with("- ") { 2 } else { 0 };
            } else if column > 0 {
                out.push(' ');
                column += 1;
            }
            out.push_str(word);
            column += long;
        }
        out.push('\n');
    }
    out
}

/// The first sentence.
fn sentence(text: &str) -> &str {
    let ends = text.match_indices(". ").map(|(at, _)| at + 1).find(|at| !text[..*at].ends_with("e.g."));
    &text[..ends.unwrap_or(text.len())]
}

impl List<'_> {
    /// What a part reaches in a file; what any part does if none is given.
    fn nodes<'b>(&'b self, file: &'b File, part: Option<Part>) -> impl Iterator<Item = usize> + 'b {
        let counts = move |id: &usize| self.reached.part.get(id).is_some_and(|p| part.is_none() || part == Some(*p));
        file.nodes.iter().copied().filter(counts)
    }

    fn names(&self, ids: impl Iterator<Item = usize>) -> String {
        ids.map(|id| format!("`{}`", self.project.nodes[id].name)).collect::<Vec<_>>().join(", ")
    }

    fn count(&self, ids: impl Iterator<Item = usize>) -> Count {
        ids.fold(Count::default(), |sum, id| Count { number: sum.number + 1, lines: sum.lines + self.project.nodes[id].size })
    }

    /// Definitions and types of a part.
    pub fn totals(&self, part: Option<Part>) -> [Count; 2] {
        let of = |specs: bool| {
            let files = self.project.files.iter().filter(move |file| file.spec().is_some() == specs);
            self.count(files.flat_map(|file| self.nodes(file, part)))
        };
        [of(true), of(false)]
    }

    fn introduction(&self, out: &mut String) -> std::fmt::Result {
        let [definitions, types] = self.totals(None);
        let contracts: usize = self.reached.contracts.values().sum();
        out.push_str(INTRODUCTION);
        let (count, all) = (definitions.number + types.number, definitions.lines + types.lines);
        writeln!(out, "In all {all} lines, comments among them: {count} definitions and types; and {contracts} lines of contracts.\n")
    }

    fn table(&self, out: &mut String) -> std::fmt::Result {
        writeln!(out, "| part | definitions | lines | types | lines |\n|---|---|---|---|---|")?;
        for (part, told) in PARTS {
            let [d, t] = self.totals(Some(part));
            writeln!(out, "| {told} | {} | {} | {} | {} |", d.number, d.lines, t.number, t.lines)?;
        }
        let [d, t] = self.totals(None);
        writeln!(out, "| together | {} | {} | {} | {} |", d.number, d.lines, t.number, t.lines)?;
        let stated = self.project.files.iter().filter(|file| STATEMENTS.contains(&file.module.as_str()));
        let s = self.count(stated.flat_map(|file| self.nodes(file, None)));
        writeln!(out, "| of these, what is stated and proved: {} | {} | {} | | |\n", STATEMENTS.join(", "), s.number, s.lines)
    }

    fn roots(&self, out: &mut String) -> std::fmt::Result {
        writeln!(out, "## Where the reading begins\n")?;
        for (part, _) in PARTS {
            let for_whom = if part == Part::Calls { "The calls" } else { "The programs" };
            writeln!(out, "{for_whom}:\n")?;
            for b in self.reached.begun.iter().filter(|b| b.part == part) {
                writeln!(out, "- {}, {}, {}: {}", b.krate, plural(b.lines, "line"), b.reason, b.what)?;
            }
            writeln!(out)?;
        }
        Ok(())
    }

    /// The files of a crate, each after those of the crate that it uses.
    fn ordered(&self, krate: &str) -> Vec<&File> {
        let mut left: Vec<&File> = self.project.files.iter().filter(|f| f.krate == krate && f.spec().is_some()).collect();
        let mut ordered = Vec::new();
        while !left.is_empty() {
            let waits = |file: &&File| {
                let uses = file.spec().map_or(&[][..], |spec| &spec.uses);
                uses.iter().any(|u| u.krate == krate && left.iter().any(|other| other.module == u.module && other.path != file.path))
            };
            let next = left.iter().position(|file| !waits(file)).unwrap_or(0);
            ordered.push(left.remove(next));
        }
        ordered
    }

    fn file(&self, out: &mut String, file: &File) -> std::fmt::Result {
        let all = self.count(self.nodes(file, None));
        let Some(spec) = file.spec().filter(|_| all.number > 0) else { return Ok(()) };
        writeln!(out, "**`{}`**: {}\n", file.path, sentence(&spec.head))?;
        write!(out, "- {}, {}", plural(all.number, "definition"), plural(all.lines, "line"))?;
        let cited = citations(&spec.comments);
        writeln!(out, "{}", if cited.is_empty() { String::new() } else { format!("; cites {}", cited.join("; ")) })?;
        for (part, told) in [(Part::Calls, ""), (Part::Programs, "for the programs: ")] {
            let names = self.names(self.nodes(file, Some(part)));
            if !names.is_empty() {
                writeln!(out, "- {told}{names}")?;
            }
        }
        writeln!(out)
    }

    fn types(&self, out: &mut String, krate: &str) -> std::fmt::Result {
        let sources = self.project.files.iter().filter(|f| f.krate == krate && f.source().is_some());
        let told = |file: &File| {
            let count = self.count(self.nodes(file, None));
            let names = self.names(self.nodes(file, None));
            (count.number > 0).then(|| format!("- `{}`, {}: {names}", file.path, plural(count.lines, "line")))
        };
        let lines: Vec<String> = sources.filter_map(told).collect();
        if lines.is_empty() {
            return Ok(());
        }
        writeln!(out, "Types:\n\n{}\n", lines.join("\n"))
    }

    fn crates(&self, out: &mut String) -> std::fmt::Result {
        writeln!(out, "## What there is to read, in this order\n")?;
        for krate in &self.project.crates {
            let files = self.project.files.iter().filter(|file| file.krate == *krate);
            if files.flat_map(|file| self.nodes(file, None)).next().is_none() {
                continue;
            }
            writeln!(out, "### {krate}\n")?;
            self.types(out, krate)?;
            for file in self.ordered(krate) {
                self.file(out, file)?;
            }
        }
        Ok(())
    }

    /// The files of laws: what no root reaches in them.
    fn laws(&self, out: &mut String) -> std::fmt::Result {
        writeln!(out, "## Laws: what is proved, and nothing rests on\n")?;
        let files: Vec<&File> = self.project.files.iter().filter(|file| file.is_laws()).collect();
        if files.is_empty() {
            return writeln!(out, "There are none.");
        }
        for file in files {
            let ids = || file.nodes.iter().copied().filter(|id| !self.reached.part.contains_key(id));
            let head = file.spec().map_or("", |spec| spec.head.as_str());
            writeln!(out, "- `{}`, {}: {} {}", file.path, plural(self.count(ids()).lines, "line"), sentence(head), self.names(ids()))?;
        }
        Ok(())
    }

    pub fn markdown(&self) -> String {
        let mut out = String::new();
        let written = self.introduction(&mut out).and_then(|()| self.table(&mut out)).and_then(|()| self.roots(&mut out));
        let written = written.and_then(|()| self.crates(&mut out)).and_then(|()| self.laws(&mut out));
        written.expect("a text takes what is written to it");
        wrapped(&out)
    }
}
