//! The project's definitions and types as a graph: each with what its own text refers to.

use crate::names::Reader;
use crate::source::{self, Function, Source, Type};
use crate::specs::{self, Definition, Kind, Spec, Use};
use crate::words::{spelt, words, Word};
use std::collections::HashMap;
use std::fs;
use std::path::{Path, PathBuf};

/// A definition of specs/, or a type of src/.
pub struct Node {
    pub name: String,
    pub file: usize,
    /// The first line of its comment, its own first line, its last.
    pub lines: [usize; 3],
    /// How many lines there are to read, comments included.
    pub size: usize,
    pub refers: Vec<usize>,
}

pub enum Text {
    Spec(Spec),
    Source(Source),
}

pub struct File {
    pub krate: String,
    /// From the project's root on.
    pub path: String,
    /// Below specs/ or src/, with dots.
    pub module: String,
    pub text: Text,
    pub nodes: Vec<usize>,
}

impl File {
    /// `crates/one/specs/Inside/Code.antt` is module `Inside.Code` of crate one.
    fn parse(path: &str, text: &str) -> Option<File> {
        let mut parts = path.splitn(4, '/').skip(1);
        let (krate, folder, inner) = (parts.next()?, parts.next()?, parts.next()?);
        let module = inner.rsplit_once('.')?.0.replace('/', ".");
        let text = match folder {
            "specs" => Text::Spec(specs::parse(text)),
            _ => Text::Source(source::parse(text)),
        };
        Some(File { krate: krate.to_string(), path: path.to_string(), module, text, nodes: Vec::new() })
    }

    pub fn spec(&self) -> Option<&Spec> {
        match &self.text {
            Text::Spec(spec) => Some(spec),
            Text::Source(_) => None,
        }
    }

    pub fn source(&self) -> Option<&Source> {
        match &self.text {
            Text::Source(source) => Some(source),
            Text::Spec(_) => None,
        }
    }

    pub fn is_inside(&self) -> bool {
        self.spec().is_some() && self.module.starts_with("Inside.")
    }

    pub fn is_laws(&self) -> bool {
        self.path.ends_with("/Laws.antt")
    }

    /// The module by which `use` lines name it: a type of src/format.rt is in `declared.format`.
    fn used_as(&self) -> String {
        match self.text {
            Text::Spec(_) => self.module.clone(),
            Text::Source(_) => format!("declared.{}", self.module),
        }
    }
}

/// Crate, module, name.
pub type Key = (String, String, String);

fn key(krate: &str, module: &str, name: &str) -> Key {
    (krate.to_string(), module.to_string(), name.to_string())
}

/// What a name stands for, and whether it may be in a pattern without being bound there.
#[derive(Clone, Copy)]
struct Meant {
    node: usize,
    constructs: bool,
}

/// What the names of one file stand for.
type Scope = HashMap<String, Meant>;

#[derive(Default)]
pub struct Project {
    /// In the order of crates.txt, which is the order of reading.
    pub crates: Vec<String>,
    pub files: Vec<File>,
    pub nodes: Vec<Node>,
    index: HashMap<Key, Meant>,
    pub faults: Vec<String>,
}

/// The files below a folder with this ending, by name.
fn below(folder: &Path, ending: &str) -> Vec<PathBuf> {
    let entries = fs::read_dir(folder).into_iter().flatten().flatten();
    let mut paths: Vec<PathBuf> = entries.map(|entry| entry.path()).collect();
    paths.sort();
    let each = |path: PathBuf| match path.is_dir() {
        true => below(&path, ending),
        false => vec![path],
    };
    paths.into_iter().flat_map(each).filter(|path| path.to_string_lossy().ends_with(ending)).collect()
}

impl Project {
    pub fn read(root: &Path) -> Result<Project, String> {
        let text = |path: &Path| fs::read_to_string(path).map_err(|e| format!("{}: {e}", path.display()));
        let list = text(&root.join("crates.txt"))?;
        let lines = list.lines().map(|line| line.split('#').next().unwrap_or(""));
        // `brazulint staticlib: ground ..`: the name, and what kind of crate it is.
        let named = |line: &str| Some(line.split_once(':')?.0.split_whitespace().next()?.to_string());
        let crates: Vec<String> = lines.filter_map(named).collect();
        let mut files = Vec::new();
        for krate in &crates {
            let folder = root.join("crates").join(krate);
            for path in below(&folder.join("specs"), ".antt").into_iter().chain(below(&folder.join("src"), ".rt")) {
                let told = path.strip_prefix(root).unwrap_or(&path).to_string_lossy().replace('\\', "/");
                files.push((told, text(&path)?));
            }
        }
        Ok(Project::of(crates, &files))
    }

    /// Files as path and text.
    pub fn of(crates: Vec<String>, files: &[(String, String)]) -> Project {
        let files = files.iter().filter_map(|(path, text)| File::parse(path, text)).collect();
        let mut project = Project { crates, files, ..Project::default() };
        (0..project.files.len()).for_each(|file| project.enter(file));
        (0..project.files.len()).for_each(|file| project.connect(file));
        project
    }

    /// Enters what a file defines.
    fn enter(&mut self, file: usize) {
        let node = |name: &str, lines, size| Node { name: name.to_string(), file, lines, size, refers: Vec::new() };
        let at = &mut self.files[file];
        let (krate, module) = (at.krate.clone(), at.used_as());
        let nodes: Vec<(Node, &[String])> = match &at.text {
            Text::Spec(spec) => {
                spec.definitions.iter().map(|d| (node(&d.name, [d.top, d.from, d.to], d.size), &d.constructors[..])).collect()
            }
            Text::Source(source) => source.types.iter().map(|t| (node(&t.name, [t.from, t.from, t.to], t.size), &[][..])).collect(),
        };
        for (new, constructors) in nodes {
            let id = self.nodes.len();
            let is_type = matches!(at.text, Text::Source(_));
            self.index.insert(key(&krate, &module, &new.name), Meant { node: id, constructs: is_type });
            self.index.extend(constructors.iter().map(|name| (key(&krate, &module, name), Meant { node: id, constructs: true })));
            self.nodes.push(new);
            at.nodes.push(id);
        }
    }

    /// What one name of a `use` line stands for. For a type's variants it is the type.
    fn meant(&self, used: &Use, name: &str) -> Option<Meant> {
        let module = used.module.trim_end_matches(".TheVariants");
        let (module, name) = match module.starts_with("declared.") {
            true => module.rsplit_once('.')?,
            false => (module, name),
        };
        self.index.get(&key(&used.krate, module, name)).copied()
    }

    /// What the names of a file stand for, and what of its `use` lines is not understood.
    fn scope(&self, file: &File) -> (Scope, Vec<String>) {
        let (uses, strange) = match &file.text {
            Text::Spec(spec) => (&spec.uses, &spec.strange),
            Text::Source(source) => (&source.uses, &source.strange),
        };
        let mut faults: Vec<String> = strange.iter().map(|line| format!("{}: in no known form: {line}", file.path)).collect();
        let mut scope = Scope::new();
        for used in uses.iter().filter(|used| self.crates.contains(&used.krate)) {
            for (there, here) in &used.names {
                match self.meant(used, there) {
                    Some(meant) => scope.extend(spelt(here).into_iter().map(|name| (name, meant))),
                    None => faults.push(format!("{}: `{there}` is not defined in {}, {}", file.path, used.krate, used.module)),
                }
            }
        }
        let own = self.index.iter().filter(|((krate, module, _), _)| *krate == file.krate && *module == file.used_as());
        scope.extend(own.flat_map(|((_, _, name), meant)| spelt(name).into_iter().map(|name| (name, *meant))));
        (scope, faults)
    }

    /// Crate, module and name of a path `a::b::c` in a file of src/: in its own crate if that has such a module.
    pub fn resolved(&self, krate: &str, path: &[String]) -> Option<Key> {
        let (name, modules) = path.split_last()?;
        let inner = modules.strip_prefix(&["crate".to_string()]).unwrap_or(modules);
        let own = inner.join(".");
        if self.files.iter().any(|file| file.krate == krate && file.source().is_some() && file.module == own) {
            return Some(key(krate, &own, name));
        }
        let (library, inner) = inner.split_first()?;
        Some(key(library, &inner.join("."), name))
    }

    /// What the names of types in a file of src/ stand for.
    fn types(&self, file: &File, source: &Source) -> HashMap<String, usize> {
        let of_path = |(here, path): &(String, Vec<String>)| {
            let (krate, module, name) = self.resolved(&file.krate, path)?;
            let meant = self.index.get(&(krate, format!("declared.{module}"), name))?;
            Some((here.clone(), meant.node))
        };
        let own = file.nodes.iter().map(|id| (self.nodes[*id].name.clone(), *id));
        source.brought.iter().filter_map(of_path).chain(own).collect()
    }

    /// Enters what each definition or type of a file refers to.
    fn connect(&mut self, file: usize) {
        let at = &self.files[file];
        let (scope, faults) = self.scope(at);
        let refers: Vec<Vec<usize>> = match &at.text {
            Text::Spec(spec) => spec.definitions.iter().map(|definition| of_definition(definition, &scope)).collect(),
            Text::Source(source) => {
                let types = self.types(at, source);
                source.types.iter().map(|kind| of_type(kind, &types)).collect()
            }
        };
        for (id, found) in at.nodes.iter().zip(refers) {
            self.nodes[*id].refers = found;
        }
        self.faults.extend(faults);
    }

    /// What a function's contract and the types of its signature refer to.
    pub fn of_contract(&self, file: &File, function: &Function) -> Vec<usize> {
        let Some(source) = file.source() else { return Vec::new() };
        let (types, (scope, _)) = (self.types(file, source), self.scope(file));
        let in_signature = source::names(&function.signature).filter_map(|name| types.get(name).copied());
        // A contract needs no import for the types of its file's code.
        let meant = |name| scope.get(name).map(|meant| meant.node).or(types.get(name).copied());
        let in_contract = taken_by(function).into_iter().filter_map(meant);
        in_signature.chain(in_contract).collect()
    }
}

/// The names that a contract takes from outside; parameters and `result` are its own.
fn taken_by(function: &Function) -> Vec<&str> {
    let mut reader = Reader::new();
    let before_colon = function.signature.match_indices(": ").map(|(at, _)| &function.signature[..at]);
    reader.own(before_colon.filter_map(|text| source::names(text).last()).chain(["result"]).collect());
    for clause in &function.clauses {
        reader.expression(&words(clause));
    }
    reader.taken
}

fn of_definition(definition: &Definition, scope: &Scope) -> Vec<usize> {
    let constructs = |name: &str| scope.get(name).is_some_and(|meant| meant.constructs);
    let mut reader = Reader::new();
    reader.expression(&words(&definition.parameters));
    for (i, piece) in definition.pieces.iter().enumerate() {
        let piece = words(piece);
        match definition.kind {
            Kind::Function if i == 0 => reader.signature(&piece),
            Kind::Function if piece.first() == Some(&Word::Name("unfolding")) => reader.expression(&piece),
            Kind::Function => reader.clause(&piece, &constructs),
            _ if i == 0 => reader.head(&piece, &definition.name),
            _ => reader.signature(&piece),
        }
    }
    reader.taken.iter().filter_map(|name| scope.get(*name)).map(|meant| meant.node).collect()
}

fn of_type(kind: &Type, types: &HashMap<String, usize>) -> Vec<usize> {
    source::names(&kind.text).filter_map(|name| types.get(name).copied()).collect()
}
