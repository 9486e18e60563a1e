//! Cuts the items that cuts.txt names out of egui's text, unedited: `cut CUTS FOLDER OUT` writes OUT/MODULE.rs for each module.
//! It stops at the first marker that does not stand in exactly one line.
use std::collections::BTreeMap;
use std::path::Path;
use std::{env, fs, process};

fn main() {
    let args: Vec<String> = env::args().collect();
    let [_, cuts, folder, out] = args.as_slice() else {
        stop("usage: cut CUTS FOLDER OUT");
    };
    for (module, text) in modules(&read(Path::new(cuts)), Path::new(folder)) {
        let path = Path::new(out).join(format!("{module}.rs"));
        fs::write(&path, text).unwrap_or_else(|e| stop(&format!("{}: {e}", path.display())));
    }
}

/// The text of each module: its items in the list's order.
fn modules(cuts: &str, folder: &Path) -> BTreeMap<String, String> {
    let mut made = BTreeMap::new();
    let mut module = String::new();
    let mut source = String::new();
    for line in cuts.lines() {
        if let Some(head) = line.strip_prefix("= ") {
            let (name, file) = head.split_once(' ').unwrap_or_else(|| stop(line));
            module = name.to_owned();
            source = read(&folder.join(file));
        } else if !line.is_empty() && !line.starts_with('#') {
            let text: &mut String = made.entry(module.clone()).or_default();
            text.push_str(&item(&source, line));
            text.push('\n');
        }
    }
    made
}

/// The item of the top level that holds the marker.
fn item(source: &str, marker: &str) -> String {
    let lines: Vec<&str> = source.lines().collect();
    let places: Vec<usize> = (0..lines.len())
        .filter(|&i| lines[i].contains(marker))
        .collect();
    let [place] = places[..] else {
        stop(&format!("'{marker}' stands in {} lines", places.len()));
    };
    let head = (0..=place)
        .rev()
        .find(|&i| is_head(lines[i]))
        .unwrap_or_else(|| stop(marker));
    let first = (0..head)
        .rev()
        .find(|&i| !is_attribute(lines[i]))
        .map_or(0, |i| i + 1);
    let last = if lines[head].ends_with(';') {
        head
    } else {
        let closes = (head..lines.len()).find(|&i| lines[i] == "}");
        closes.unwrap_or_else(|| stop(marker))
    };
    if last < place {
        stop(&format!("'{marker}' lies in no item"));
    }
    lines[first..=last].join("\n") + "\n"
}

/// Whether an item of the top level begins in this line.
fn is_head(line: &str) -> bool {
    line.starts_with(|c: char| c.is_ascii_lowercase())
}

/// Whether this line, right above an item, belongs to it: an attribute or a comment, but no rule between parts.
fn is_attribute(line: &str) -> bool {
    line.starts_with("#[") || line.starts_with("//") && !line.starts_with("// --")
}

fn read(path: &Path) -> String {
    fs::read_to_string(path).unwrap_or_else(|e| stop(&format!("{}: {e}", path.display())))
}

fn stop(why: &str) -> ! {
    eprintln!("cut: {why}");
    process::exit(1)
}
