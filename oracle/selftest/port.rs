//! Breaks of the port: the must-fail edits of running code, which the prover refuses, are run unproved on the stored sample or, in a crate that only the pass
//! program stands on, on sessions, and must be told from the oracle by their answers.
use crate::tried::{Port, Program};
use crate::{End, Row, read, stop};
use std::fs;
use std::path::{Path, PathBuf};

struct Edit {
    krate: String,
    label: String,
    file: PathBuf,
    old: String,
    new: String,
}

pub fn rows(port: &Port, unreached: &Path, crates: &[&str]) -> Vec<Row> {
    let mut edits = edits(&port.folder);
    edits.retain(|edit| crates.is_empty() || crates.contains(&edit.krate.as_str()));
    for program in [Program::Replay, Program::Panelrun] {
        let asked = edits
            .iter()
            .any(|e| port.program(&e.krate) == Some(program));
        if asked && let Some(place) = port.first_difference(program) {
            stop(&format!(
                "the port as it is answers {place} otherwise than the oracle"
            ));
        }
    }
    let unreached = read(unreached);
    edits
        .iter()
        .map(|edit| row(port, edit, &unreached))
        .collect()
}

/// The edits of running code in every crate.
fn edits(folder: &Path) -> Vec<Edit> {
    let crates = files(&folder.join("crates"));
    let paths = crates
        .iter()
        .flat_map(|krate| files(&krate.join("must-fail")));
    paths.filter_map(|path| edit(&path)).collect()
}

pub fn files(folder: &Path) -> Vec<PathBuf> {
    let entries = fs::read_dir(folder).into_iter().flatten().flatten();
    let mut paths: Vec<PathBuf> = entries.map(|entry| entry.path()).collect();
    paths.sort();
    paths
}

/// An edit, unless it is one of a definition, a contract or a theorem, which changes nothing that runs.
fn edit(path: &Path) -> Option<Edit> {
    let text = read(path);
    let field = |name: &str| {
        let line = text.lines().find_map(|line| line.strip_prefix(name));
        let line = line.unwrap_or_default();
        // What indents the line may be what tells it from others.
        line.strip_prefix(' ').unwrap_or(line).to_owned()
    };
    let krate = path.parent()?.parent()?;
    let file = krate.join(field("file:"));
    let old = field("old:");
    let code = read(&file);
    let line = code.lines().find(|line| line.contains(&old))?;
    let runs =
        file.extension()? == "rt" && !line.contains("ensures") && !line.contains(['→', '≡', '×']);
    runs.then(|| Edit {
        krate: name(krate),
        label: name(&path.with_extension("")),
        file,
        old,
        new: field("new:"),
    })
}

fn name(path: &Path) -> String {
    path.file_name()
        .unwrap_or_default()
        .to_string_lossy()
        .into_owned()
}

/// The edit applied, tried and taken back. One that no call reaches yet must not show.
fn row(port: &Port, edit: &Edit, unreached: &str) -> Row {
    let text = read(&edit.file);
    let put = |text: &str| fs::write(&edit.file, text).unwrap_or_else(|e| stop(&e.to_string()));
    put(&text.replacen(&edit.old, &edit.new, 1));
    let program = port.program(&edit.krate);
    let place = program.and_then(|program| port.first_difference(program));
    put(&text);
    let known = format!("{} {}", edit.krate, edit.label);
    let unreached = unreached.lines().any(|line| line == known);
    let (end, cell) = match (place, unreached) {
        (Some(place), false) => (End::Found, place),
        (None, true) => (End::OutOfReach, "no call shows it yet".to_owned()),
        (Some(_), true) => (End::Wrong, "FOUND, but said to be out of reach".to_owned()),
        (None, false) => (End::Wrong, "NOT FOUND".to_owned()),
    };
    let label = edit.label.replace('_', " ");
    Row {
        text: format!("| {} | {label} | {cell} |", edit.krate),
        end,
    }
}
