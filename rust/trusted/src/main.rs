//! What a reviewer must believe: follows the definitions of specs/ from the contracts and demands that somebody outside asks for (`roots`),
//! and holds the project to it. `trusted ROOT` fails if a root reaches a definition in specs/Inside/, if a definition outside of it is
//! reached from no root, if docs/TRUSTED.md is not the resulting list, and if a contract is not as it has to be (`contracts`).
//!
//! With `--write` it writes that list. With `--statistics` it prints only its numbers, and with `--unreached` the definitions that belong
//! in Inside/: path, first line of the comment, first line, last line and name of each.
//!
//! `words` and `names` read antt, `specs` and `source` the two kinds of files, `project` puts them together, `reach` follows references,
//! and `list` writes.

mod citations;
mod contracts;
mod list;
mod names;
mod project;
mod reach;
mod roots;
mod source;
mod specs;
mod words;

use list::List;
use project::Project;
use reach::Reached;
use roots::{Part, ROOTS};
use std::path::Path;
use std::process::ExitCode;

fn statistics(list: &List) {
    for (told, part) in [("calls, demands, values", Some(Part::Calls)), ("programs alone", Some(Part::Programs)), ("together", None)] {
        let [d, t] = list.totals(part);
        println!("{told}: {} definitions of {} lines, {} types of {} lines", d.number, d.lines, t.number, t.lines);
    }
    println!("reached from no root: {} definitions", list.reached.unreached(list.project).count());
}

fn unreached(list: &List) {
    for id in list.reached.unreached(list.project) {
        let node = &list.project.nodes[id];
        let [top, from, to] = node.lines;
        println!("{}\t{top}\t{from}\t{to}\t{}", list.project.files[node.file].path, node.name);
    }
}

/// Faults are one line each.
fn judged(list: &List, root: &Path, write: bool) -> Result<Vec<String>, String> {
    let mut faults = list.reached.all_faults(list.project);
    faults.extend(contracts::faults(list.project));
    let (text, path) = (list.markdown(), root.join(list::PATH));
    if write {
        std::fs::write(&path, text).map_err(|e| format!("{}: {e}", list::PATH))?;
    } else if std::fs::read_to_string(&path).ok().as_deref() != Some(text.as_str()) {
        faults.push(format!("{}: not the list that comes out; `trusted ROOT --write` writes it", list::PATH));
    }
    Ok(faults)
}

fn run(root: &Path, option: Option<&str>) -> Result<Vec<String>, String> {
    let project = Project::read(root)?;
    let reached = Reached::from(&project, ROOTS);
    let list = List { project: &project, reached: &reached };
    match option {
        None => judged(&list, root, false),
        Some("--write") => judged(&list, root, true),
        Some("--statistics") => {
            statistics(&list);
            Ok(Vec::new())
        }
        Some("--unreached") => {
            unreached(&list);
            Ok(Vec::new())
        }
        Some(other) => Err(format!("{other}: no such option")),
    }
}

fn main() -> ExitCode {
    let arguments: Vec<String> = std::env::args().skip(1).collect();
    let Some(root) = arguments.first() else {
        eprintln!("trusted ROOT [--write | --statistics | --unreached]");
        return ExitCode::from(2);
    };
    let faults = run(Path::new(root), arguments.get(1).map(String::as_str)).unwrap_or_else(|fault| vec![fault]);
    faults.iter().for_each(|fault| println!("{fault}"));
    ExitCode::from(u8::from(!faults.is_empty()))
}
