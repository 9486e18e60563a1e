//! Breaks of the oracle: each is compiled, and the comparer must tell it from the oracle.
use crate::{End, Row, run, stop};
use std::path::Path;
use std::process::Command;
use std::{fs, thread};

pub struct Break<'a> {
    name: &'a str,
    file: &'a str,
    after: &'a str,
    old: &'a str,
    new: &'a str,
}

/// The breaks that a file names, one a line.
pub fn breaks(text: &str) -> Vec<Break<'_>> {
    let lines = text.lines();
    lines
        .filter(|line| !line.is_empty() && !line.starts_with('#'))
        .map(parse)
        .collect()
}

fn parse(line: &str) -> Break<'_> {
    let line = line.trim_end();
    let mut parts: Vec<&str> = line.split(" ; ").collect();
    // What becomes nothing leaves its part empty, at the end of the line.
    if let Some(last) = parts.last_mut()
        && let Some(rest) = last.strip_suffix(" ;")
    {
        *last = rest;
        parts.push("");
    }
    let [name, file, after, old, new] = parts[..] else {
        stop(&format!("no five parts: {line}"));
    };
    Break {
        name,
        file,
        after,
        old,
        new,
    }
}

/// What tells a broken oracle from the oracle: whether it did, and the cells that say how.
pub type Test = fn(out: &Path, program: &str, count: &str) -> (bool, String);

/// Two at a time: a break costs a compilation and a run.
pub fn rows(breaks: &[Break], out: &Path, count: &str, test: Test) -> Vec<Row> {
    let half = breaks.len().div_ceil(2);
    thread::scope(|scope| {
        let tasks: Vec<_> = breaks
            .chunks(half)
            .enumerate()
            .map(|(i, part)| {
                scope.spawn(move || -> Vec<Row> {
                    part.iter().map(|b| row(b, out, count, test, i)).collect()
                })
            })
            .collect();
        let done = tasks.into_iter().map(|t| t.join().expect("a row"));
        done.flatten().collect()
    })
}

fn row(b: &Break, out: &Path, count: &str, test: Test, worker: usize) -> Row {
    let (found, cells) = match compile(b, out, worker) {
        Ok(program) => test(out, &program, count),
        Err(why) => (false, why),
    };
    Row {
        text: format!("| {} | {cells} |", b.name),
        end: if found { End::Found } else { End::Wrong },
    }
}

/// The text with the break in it.
fn broken(b: &Break, text: &str) -> Result<String, String> {
    let mut places = text.match_indices(b.after);
    let (Some((start, _)), None) = (places.next(), places.next()) else {
        return Err(format!("'{}' does not stand there once", b.after));
    };
    let (head, tail) = text.split_at(start);
    if !tail.contains(b.old) {
        return Err(format!("no '{}' after '{}'", b.old, b.after));
    }
    Ok(head.to_owned() + &tail.replacen(b.old, b.new, 1))
}

/// A copy of the oracle with the break, compiled without optimisation, which changes no answer.
fn compile(b: &Break, out: &Path, worker: usize) -> Result<String, String> {
    let copy = out.join(format!("broken{worker}"));
    fs::remove_dir_all(&copy).ok();
    fs::create_dir_all(&copy).map_err(|e| e.to_string())?;
    for from in [
        out.join("egui"),
        "oracle/src".into(),
        "oracle/compare".into(),
        "oracle/search".into(),
        "oracle/registry".into(),
        "oracle/stack".into(),
        "oracle/focus".into(),
    ] {
        run(Command::new("cp").arg("-r").arg(from).arg(&copy))?;
    }
    let file = copy.join(b.file);
    let text = fs::read_to_string(&file).map_err(|e| e.to_string())?;
    fs::write(&file, broken(b, &text)?).map_err(|e| e.to_string())?;
    let program = copy.join("oracle");
    let egui = copy
        .join("egui")
        .canonicalize()
        .map_err(|e| e.to_string())?;
    run(Command::new("rustc")
        .args([
            "--edition",
            "2024",
            "-C",
            "debug-assertions=off",
            "-A",
            "warnings",
            "-o",
        ])
        .arg(&program)
        .arg(copy.join("src/main.rs"))
        .env("EGUI", egui))?;
    Ok(program.display().to_string())
}

/// In how many tables the directional search answers otherwise.
pub fn search(out: &Path, program: &str, tables: &str) -> (bool, String) {
    let answers = |program: &Path| {
        let done = Command::new(program)
            .args(["searches", tables, "1"])
            .output();
        done.unwrap_or_else(|e| stop(&e.to_string())).stdout
    };
    let (own, other) = (answers(&out.join("oracle")), answers(Path::new(program)));
    let (own, other) = (own.split(|b| *b == b'\n'), other.split(|b| *b == b'\n'));
    let differ = own.zip(other).filter(|(a, b)| a != b).count();
    (differ > 0, differ.to_string())
}

/// Whether the comparer tells the oracle from the broken one, and the cells that say how.
pub fn compare(out: &Path, program: &str, lists: &str) -> (bool, String) {
    let mut command = Command::new(out.join("compare"));
    let oracle = out.join("oracle").display().to_string();
    command.args(["lists", lists, "1", "600", &oracle, program, "/dev/null"]);
    let done = command.output().unwrap_or_else(|e| stop(&e.to_string()));
    let text = String::from_utf8_lossy(&done.stdout).into_owned();
    let word = |line: &str, i: usize| line.split(' ').nth(i).unwrap_or("?").to_owned();
    let first = text.lines().next().unwrap_or_default();
    let shrunk = text.lines().find(|l| l.starts_with("shrunk to"));
    let last = text
        .lines()
        .rfind(|l| l.starts_with("  ") && !l.starts_with("   "));
    match (done.status.code(), shrunk, last) {
        (Some(1), Some(shrunk), Some(last)) if word(shrunk, 2) != "0" => (
            true,
            format!(
                "{} | {} lines | `{}`",
                word(first, 1),
                word(shrunk, 2),
                word(last, 2)
            ),
        ),
        _ => (false, "NOT FOUND | | ".to_owned()),
    }
}

/// In how many sessions of a folder the pass program answers otherwise than is stored beside them, and the shortest line that is the first answered so.
pub fn panel(_: &Path, program: &str, folder: &str) -> (bool, String) {
    let paths = crate::port::files(Path::new(folder));
    let sessions = paths.iter().filter(|path| path.extension().is_none());
    let all: Vec<Vec<u8>> = sessions.filter_map(|path| other(program, path)).collect();
    let shortest = all.iter().min_by_key(|line| line.len());
    let line = shortest.map_or(String::new(), |line| shown(line));
    (shortest.is_some(), format!("{} | {line}", all.len()))
}

/// The first line of a session that the program answers otherwise.
fn other(program: &str, path: &Path) -> Option<Vec<u8>> {
    let input = fs::File::open(path).unwrap_or_else(|e| stop(&e.to_string()));
    let done = Command::new(program).arg("panel").stdin(input).output();
    let found = done.unwrap_or_else(|e| stop(&e.to_string())).stdout;
    let bytes = |path: &Path| fs::read(path).unwrap_or_else(|e| stop(&e.to_string()));
    let wanted = bytes(&path.with_extension("stdout"));
    if found == wanted {
        return None;
    }
    let lines = |bytes: &[u8]| -> Vec<Vec<u8>> {
        let lines = bytes.split(|b| *b == b'\n');
        lines.map(<[u8]>::to_vec).collect()
    };
    let (found, wanted) = (lines(&found), lines(&wanted));
    let pairs = found.iter().zip(&wanted);
    let same = pairs.take_while(|(found, wanted)| found == wanted).count();
    let asked = lines(&bytes(path)).into_iter().nth(same);
    Some(asked.unwrap_or_default())
}

fn shown(line: &[u8]) -> String {
    match line {
        [] => "a blank line".to_owned(),
        _ if line.len() <= 60 => format!("`{}`", line.escape_ascii()),
        _ => format!("`{}..`, {} bytes", line[..12].escape_ascii(), line.len()),
    }
}
