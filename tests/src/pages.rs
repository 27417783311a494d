//! The pages and the sources as text: every name and file that README.md and
//! docs/ cite in backquotes exists, and so does every file that they link to
//! (docs/CHANGES.md and docs/PORT.md are history and may name what is gone);
//! docs/EDITS.md names every edit and no other; no line of src/ or specs/ has
//! more than 120 columns.

use std::collections::HashSet;
use std::fs;
use std::path::{Path, PathBuf};

const WIDEST: usize = 120;

/// The page of edits. Each crate has its part, with the edits in the gate first;
/// the first cell of a row is the edit's label.
const EDITS: &str = "docs/EDITS.md";

/// Pages of what was: they may name what is gone.
const HISTORY: [&str; 3] = ["docs/CHANGES.md", "docs/PORT.md", "docs/DESIGN-PASS.md"];

/// The scripts that turned the sources from the older kit's spelling name what is gone, so they vouch for no name.
const PORT: &str = "tools/port/";

/// Names of the kit that no file of the repository holds: system calls that the program rests on, the kit itself and the
/// one before it.
const FOREIGN: [&str; 6] = ["__xpg_strerror_r", "fcntl", "getdents64", "libc", "rattle-kit-13f", "rattle-kit-5b-plain"];

pub fn root() -> PathBuf {
    Path::new(env!("CARGO_MANIFEST_DIR")).join("..")
}

fn walk(dir: &Path, found: &mut Vec<PathBuf>) {
    let Ok(entries) = fs::read_dir(dir) else {
        return;
    };
    for entry in entries.flatten() {
        let path = entry.path();
        let name = entry.file_name().to_string_lossy().into_owned();
        if path.is_dir() {
            if name != "target" && name != "out" && name != ".git" {
                walk(&path, found);
            }
        } else {
            found.push(path);
        }
    }
}

/// Every file of the repository, as a path from its root.
pub fn files() -> Vec<String> {
    let root = root();
    let mut found = Vec::new();
    walk(&root, &mut found);
    let mut names: Vec<String> =
        found.iter().filter_map(|p| p.strip_prefix(&root).ok()).map(|p| p.to_string_lossy().into_owned()).collect();
    names.sort();
    names
}

fn parts(text: &str) -> impl Iterator<Item = &str> {
    text.split(|c: char| c.is_whitespace() || "()[]{},;.:\"'`=|/\\<>!&*+◌λ".contains(c)).filter(|w| !w.is_empty())
}

/// The words of all sources, without the comments of code and proofs.
fn words(files: &[String]) -> HashSet<String> {
    let mut all = HashSet::new();
    for file in files {
        let page = file.ends_with(".md");
        if page || file.contains("Cargo.lock") || file.starts_with(PORT) {
            continue;
        }
        let comment = match file.rsplit('.').next() {
            Some("antt") => Some("-- "),
            Some("rt") => Some("//"),
            _ => None,
        };
        for line in fs::read_to_string(root().join(file)).unwrap_or_default().lines() {
            let code = comment.and_then(|c| line.split_once(c)).map_or(line, |(code, _)| code);
            all.extend(parts(code).map(String::from));
        }
        all.extend(parts(file).map(String::from));
    }
    all
}

/// What a page cites: the spans between single backquotes, without fenced or
/// indented blocks.
fn spans(text: &str) -> Vec<(usize, String)> {
    let mut found = Vec::new();
    let mut fenced = false;
    for (n, line) in text.lines().enumerate() {
        if line.starts_with("```") {
            fenced = !fenced;
        }
        if fenced || line.starts_with("    ") {
            continue;
        }
        for (i, span) in line.split('`').enumerate() {
            if i % 2 == 1 {
                found.push((n + 1, span.replace("\\|", "|")));
            }
        }
    }
    found
}

fn is_name(word: &str) -> bool {
    let mut chars = word.chars();
    let first = chars.next().is_some_and(|c| c.is_alphabetic() || c == '_');
    let letters = word.chars().filter(|c| c.is_alphabetic()).count();
    first && letters >= 3 && word.chars().all(|c| c.is_alphanumeric() || "_-′⁺⁻⇒∷¬≤".contains(c))
}

/// In a longer span only words that cannot be English count: `entry_in`, `k-text`, `loadedBy`.
fn is_code(word: &str) -> bool {
    let humped = word.chars().zip(word.chars().skip(1)).any(|(a, b)| a.is_lowercase() && b.is_uppercase());
    humped || word.contains(['_', '-'])
}

fn is_path(span: &str) -> bool {
    let end = span.rsplit('.').next().unwrap_or("");
    let known = ["antt", "rt", "md", "sh", "rs", "h", "c", "txt", "toml", "edit"];
    span.contains('.') && known.contains(&end) && !span.contains(' ') && !span.contains("..")
}

/// What a page cites that is not there.
fn missing(span: &str, words: &HashSet<String>, files: &[String]) -> Option<String> {
    if span.starts_with("target/") {
        return None;
    }
    if span.contains(' ') {
        let word = parts(span).find(|w| is_code(w) && is_name(w) && !words.contains(*w) && !FOREIGN.contains(w));
        return word.map(String::from);
    }
    let plain = span.trim_end_matches('/').trim_start_matches("./");
    if is_path(plain) || (plain.contains('/') && !plain.contains('*')) {
        let there = files.iter().any(|f| {
            f == plain
                || f.ends_with(&format!("/{plain}"))
                || f.contains(&format!("{plain}/"))
                || f.ends_with(&format!("/{plain}.antt"))
        });
        return (!there).then(|| plain.to_string());
    }
    plain
        .split("::")
        .flat_map(|w| w.split('.'))
        .map(|w| w.trim_end_matches("()").trim_end_matches('\''))
        .find(|w| is_name(w) && !words.contains(*w) && !FOREIGN.contains(w))
        .map(String::from)
}

/// The files that a line links to, from the page's folder.
fn links(line: &str) -> impl Iterator<Item = &str> {
    let targets = line.split("](").skip(1).filter_map(|rest| rest.split_once(')'));
    targets.map(|(target, _)| target.split('#').next().unwrap_or("")).filter(|t| !t.is_empty() && !t.contains("://"))
}

/// The edits as files: crate, whether it is in the gate, label.
fn edit_files(files: &[String]) -> HashSet<(String, bool, String)> {
    let mut found = HashSet::new();
    for file in files {
        match file.split('/').collect::<Vec<_>>()[..] {
            ["crates", name, "must-fail", edit] => found.insert((name.into(), true, edit.replace(".edit", ""))),
            ["edits", name, edit] => found.insert((name.into(), false, edit.replace(".edit", ""))),
            _ => continue,
        };
    }
    found
}

/// The edits that the page names: `## CRATE`, `### In the gate` or another
/// heading, and rows that begin with a label.
fn edit_rows(page: &str) -> HashSet<(String, bool, String)> {
    let (mut name, mut gate) = (String::new(), false);
    let mut found = HashSet::new();
    for line in page.lines() {
        if let Some(heading) = line.strip_prefix("## ") {
            name = heading.into();
        } else if let Some(heading) = line.strip_prefix("### ") {
            gate = heading == "In the gate";
        } else if let Some((label, _)) = line.strip_prefix("| `").and_then(|rest| rest.split_once('`')) {
            found.insert((name.clone(), gate, label.into()));
        }
    }
    found
}

/// docs/EDITS.md and the files of the edits, both ways.
pub fn edits() -> (usize, Vec<String>) {
    let files = edit_files(&files());
    let rows = edit_rows(&fs::read_to_string(root().join(EDITS)).unwrap_or_default());
    let told = |what: &str, (name, gate, label): &(String, bool, String)| {
        format!("{name}/{label}{}: {what}", if *gate { " (in the gate)" } else { "" })
    };
    let mut failures: Vec<String> = rows.difference(&files).map(|e| told("there is no such file", e)).collect();
    failures.extend(files.difference(&rows).map(|e| told("docs/EDITS.md does not name it", e)));
    failures.sort();
    (files.len(), failures)
}

/// Failures, each with its place.
pub fn names() -> (usize, Vec<String>) {
    let files = files();
    let words = words(&files);
    let mut failures = Vec::new();
    let mut cited = 0;
    for file in &files {
        let page = file == "README.md" || (file.starts_with("docs/") && file.ends_with(".md"));
        if !page || HISTORY.contains(&file.as_str()) {
            continue;
        }
        let text = fs::read_to_string(root().join(file)).unwrap_or_default();
        for (line, span) in spans(&text) {
            cited += 1;
            if let Some(word) = missing(&span, &words, &files) {
                failures.push(format!("{file}:{line}: `{word}` is not there"));
            }
        }
        let folder = root().join(file).parent().map(Path::to_path_buf).unwrap_or_default();
        for (n, target) in text.lines().enumerate().flat_map(|(n, line)| links(line).map(move |t| (n + 1, t))) {
            cited += 1;
            if !folder.join(target).exists() {
                failures.push(format!("{file}:{n}: the link to {target} leads nowhere"));
            }
        }
    }
    (cited, failures)
}

pub fn widths() -> (usize, Vec<String>) {
    let mut failures = Vec::new();
    let mut lines = 0;
    for file in files() {
        let source = file.starts_with("crates/")
            && (file.contains("/src/") && file.ends_with(".rt") || file.contains("/specs/") && file.ends_with(".antt"));
        if !source {
            continue;
        }
        let text = fs::read_to_string(root().join(&file)).unwrap_or_default();
        for (n, line) in text.lines().enumerate() {
            lines += 1;
            if line.chars().count() > WIDEST {
                failures.push(format!("{file}:{}: {} columns", n + 1, line.chars().count()));
            }
        }
    }
    (lines, failures)
}
