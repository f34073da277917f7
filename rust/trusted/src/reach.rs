//! What the roots reach.

use crate::project::{File, Project};
use crate::roots::{Part, Root, Start, PROGRAMS};
use crate::source::Function;
use std::collections::HashMap;

/// A root as it was found.
pub struct Begun {
    pub krate: String,
    /// The names of the functions, or the file of definitions.
    pub what: String,
    pub lines: usize,
    pub reason: &'static str,
    pub part: Part,
}

#[derive(Default)]
pub struct Reached {
    pub begun: Vec<Begun>,
    /// For each node that is reached, the part that reached it first.
    pub part: HashMap<usize, Part>,
    /// The lines of each contract at which the reading begins, by path and function.
    pub contracts: HashMap<(String, String), usize>,
    /// Who referred to it.
    from: HashMap<usize, String>,
    faults: Vec<String>,
}

type Functions<'a> = Vec<(&'a File, &'a Function)>;

/// The wanted functions of a crate, by module and function.
fn functions<'a>(project: &'a Project, krate: &str, wanted: &dyn Fn(&str, &Function) -> bool) -> Functions<'a> {
    let files = project.files.iter().filter(|file| file.krate == krate);
    let all = files.flat_map(|file| file.source().into_iter().flat_map(move |source| source.functions.iter().map(move |f| (file, f))));
    all.filter(|(file, function)| wanted(&file.module, function)).collect()
}

fn main_of<'a>(project: &'a Project, krate: &str) -> Option<&'a File> {
    project.files.iter().find(|file| file.krate == krate && file.module == "main" && file.source().is_some())
}

/// What a program's main.rt calls, of its own modules and of the libraries.
fn called<'a>(project: &'a Project, krate: &str) -> Functions<'a> {
    let Some(main) = main_of(project, krate).and_then(File::source) else { return Vec::new() };
    let of_path = |path: &Vec<String>| {
        let brought = main.brought.iter().find(|(here, _)| *here == path[0]).map(|(_, path)| &path[..]);
        let whole = [brought.unwrap_or(&path[..1]), &path[1..]].concat();
        let (krate, module, name) = project.resolved(krate, &whole).filter(|_| whole.len() > 1)?;
        Some(functions(project, &krate, &|of_module, function| of_module == module && function.name == name))
    };
    main.calls.iter().filter_map(of_path).flatten().collect()
}

impl Reached {
    pub fn from(project: &Project, roots: &[Root]) -> Reached {
        let mut reached = Reached::default();
        for part in [Part::Calls, Part::Programs] {
            for root in roots.iter().filter(|root| root.part == part) {
                reached.begin(project, root);
            }
        }
        reached
    }

    fn begin(&mut self, project: &Project, root: &Root) {
        let krate = root.krate;
        let found = match root.start {
            Start::Definitions(module) => return self.definitions(project, root, module),
            Start::Called if krate == PROGRAMS => {
                let programs = project.crates.iter().filter(|krate| main_of(project, krate).is_some());
                return programs.for_each(|krate| self.contracts(project, root, krate, called(project, krate)));
            }
            Start::Called => called(project, krate),
            Start::Exported => functions(project, krate, &|_, function| function.exported),
            Start::All => functions(project, krate, &|_, function| function.public),
            Start::Functions(names) => functions(project, krate, &|_, function| names.contains(&function.name.as_str())),
        };
        if let Start::Functions(names) = root.start {
            let missing = names.iter().filter(|name| found.iter().all(|(_, function)| function.name != **name));
            self.faults.extend(missing.map(|name| format!("roots.rs: crate {krate} has no function `{name}`")));
        }
        self.contracts(project, root, krate, found);
    }

    fn definitions(&mut self, project: &Project, root: &Root, module: &str) {
        let Some(file) = project.files.iter().find(|f| f.krate == root.krate && f.module == module && f.spec().is_some()) else {
            return self.faults.push(format!("roots.rs: crate {} has no specs/{module}.antt", root.krate));
        };
        let lines = file.nodes.iter().map(|id| project.nodes[*id].size).sum();
        self.note(root, root.krate, format!("all of `specs/{module}.antt`"), lines);
        self.follow(project, file.nodes.iter().map(|id| (*id, "a root".to_string())).collect(), root.part);
    }

    fn contracts(&mut self, project: &Project, root: &Root, krate: &str, found: Functions) {
        if found.is_empty() {
            self.faults.push(format!("roots.rs: no function of crate {krate} is a root"));
        }
        let (mut names, mut lines) = (Vec::new(), 0);
        for (file, function) in found {
            let name = format!("`{}`", function.name);
            let start = project.of_contract(file, function).into_iter().map(|id| (id, format!("the contract of {name}")));
            self.follow(project, start.collect(), root.part);
            self.contracts.insert((file.path.clone(), function.name.clone()), function.size);
            if !names.contains(&name) {
                names.push(name);
                lines += function.size;
            }
        }
        self.note(root, krate, names.join(", "), lines);
    }

    fn note(&mut self, root: &Root, krate: &str, what: String, lines: usize) {
        self.begun.push(Begun { krate: krate.to_string(), what, lines, reason: root.reason, part: root.part });
    }

    fn follow(&mut self, project: &Project, mut open: Vec<(usize, String)>, part: Part) {
        while let Some((id, from)) = open.pop() {
            if self.part.contains_key(&id) {
                continue;
            }
            self.part.insert(id, part);
            self.from.insert(id, from);
            let node = &project.nodes[id];
            open.extend(node.refers.iter().map(|next| (*next, format!("`{}` of {}", node.name, project.files[node.file].path))));
        }
    }

    /// Definitions that no root reaches, outside Inside/ and the files of laws.
    pub fn unreached<'a>(&'a self, project: &'a Project) -> impl Iterator<Item = usize> + 'a {
        let asked = |file: &File| file.spec().is_some() && !file.is_inside() && !file.is_laws();
        (0..project.nodes.len()).filter(move |id| asked(&project.files[project.nodes[*id].file]) && !self.part.contains_key(id))
    }

    /// One line for each fault.
    pub fn all_faults(&self, project: &Project) -> Vec<String> {
        let mut faults: Vec<String> = project.faults.iter().chain(&self.faults).cloned().collect();
        let place = |id: usize| {
            let node = &project.nodes[id];
            format!("{}:{}: `{}`", project.files[node.file].path, node.lines[1], node.name)
        };
        let inside = (0..project.nodes.len()).filter(|id| project.files[project.nodes[*id].file].is_inside());
        let told =
            inside.filter_map(|id| self.from.get(&id).map(|from| format!("{} stands in Inside/, and {from} refers to it", place(id))));
        faults.extend(told);
        faults.extend(self.unreached(project).map(|id| format!("{} is reached from no root: it belongs into Inside/", place(id))));
        faults
    }
}

#[cfg(test)]
mod tests {
    use super::*;

    const CALLS: &str = "use form::format::Format;
ghost use Rattle.form.specs.Length.{length_of, row as other};

#[unsafe(no_mangle)]
pub extern \"C\" fn length(format: Format, row: u32) -> u32
    ensures row { result ≡ length_of format row }
{
    form::format::length(format)
}
";

    fn project(more: &[(&str, &str)]) -> Project {
        let mut files = vec![
            (
                "crates/form/specs/Length.antt",
                "use Rattle.form.specs.Inside.Row.{deep}\n\npub length_of : ℕ → ℕ\nlength_of n = n\n\npub row : ℕ\nrow = deep\n",
            ),
            ("crates/form/specs/Inside/Row.antt", "pub deep : ℕ\ndeep = 1\n"),
            ("crates/form/specs/Laws.antt", "pub law : ℕ\nlaw = 1\n"),
            ("crates/form/src/format.rt", "pub struct Format(pub u8);\n"),
            ("crates/calls/src/calls.rt", CALLS),
        ];
        files.extend_from_slice(more);
        let files: Vec<_> = files.into_iter().map(|(path, text)| (path.to_string(), text.to_string())).collect();
        Project::of(vec!["form".to_string(), "calls".to_string()], &files)
    }

    const ROOT: Root = Root { krate: "calls", start: Start::Exported, part: Part::Calls, reason: "" };

    #[test]
    fn a_contract_reaches_definitions_and_types() {
        let project = project(&[]);
        let reached = Reached::from(&project, &[ROOT]);
        let mut names: Vec<_> = reached.part.keys().map(|id| project.nodes[*id].name.as_str()).collect();
        names.sort();
        assert_eq!(names, ["Format", "length_of"]);
        assert_eq!(reached.begun[0].lines, 1);
    }

    #[test]
    fn faults() {
        let only = Reached::from(&project(&[]), &[ROOT]).all_faults(&project(&[]));
        assert_eq!(only, ["crates/form/specs/Length.antt:6: `row` is reached from no root: it belongs into Inside/"]);
        let all = Root { krate: "form", start: Start::Definitions("Length"), part: Part::Calls, reason: "" };
        let inside = Reached::from(&project(&[]), &[all]).all_faults(&project(&[]));
        let expected =
            "crates/form/specs/Inside/Row.antt:1: `deep` stands in Inside/, and `row` of crates/form/specs/Length.antt refers to it";
        assert_eq!(inside, [expected]);
    }

    #[test]
    fn what_main_calls() {
        for text in ["calls::length(f, 1)", "length(f, 1)", "c::length(f, 1)"] {
            let main = format!("use crate::{{calls as c, calls::length}};\n\nfn main() {{\n    {text};\n}}\n");
            let project = project(&[("crates/calls/src/main.rt", &main)]);
            let found: Vec<_> = called(&project, "calls").into_iter().map(|(_, function)| function.name.as_str()).collect();
            assert_eq!(found, ["length"]);
        }
    }
}
