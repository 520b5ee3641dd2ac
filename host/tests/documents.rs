//! The documents name what there is. Each name between backticks in docs/*.md stands in a source of the repository. In a table with a
//! column `where` it stands in one of the files that the row gives there.
//!
//! - What has a blank is a command or a piece of code, and what begins with a digit is a number. They are left out.
//! - What has a `/` is a path: one of the repository's must end so, with its ending or without it. Paths with a `*` and those in
//!   target/ are left out.
//! - All else is words of letters, digits, `_`, `-` and `'`. `f..` is a word that begins so, and `..f` one that ends so.
//! - A word stands in a source outside comments and imports, or is the name of a file or a folder, with its ending or without it.
//!   What `rt` and `cargo` make, in out/ and target/, is no source.
//! - The column `where` gives files with commas between them, from the repository's root or from crates/ on, with their endings or
//!   without them. A folder stands for all its files. A name is looked for in the files of the next such column to its right.
//! - A row of such a table has at most 250 characters, so that it stays one thought.

use std::collections::HashSet;
use std::fs;
use std::path::Path;

/// The most characters of a row that gives files.
const LONGEST_ROW: usize = 250;

/// A file, with the words that stand in it and in its path.
struct Source {
    path: String,
    words: HashSet<String>,
}

fn words(text: &str) -> impl Iterator<Item = &str> {
    text.split(|c: char| !c.is_alphanumeric() && !"_-'".contains(c)).filter(|word| word.contains(char::is_alphanumeric))
}

/// What begins a comment in a source; other files have no words but those of their paths.
fn comment_mark(path: &str) -> Option<&'static str> {
    match path.rsplit(['/', '.']).next() {
        Some("antt") => Some("--"),
        Some("rt" | "rs") => Some("//"),
        _ if ["Makefile", "crates.txt"].contains(&path) => Some("#"),
        _ => None,
    }
}

fn is_import(line: &str) -> bool {
    ["use ", "ghost use ", "pub use "].iter().any(|start| line.starts_with(start))
}

/// Whether a path is that of the file, or leads into the folder, that is named with its ending or without it.
fn leads_to(path: &str, name: &str) -> bool {
    path.strip_prefix(name).is_some_and(|rest| rest.is_empty() || rest.starts_with(['.', '/']))
}

impl Source {
    fn new(path: &str, text: &str) -> Source {
        let names = path.split('/').flat_map(|name| [Some(name), name.split('.').next()]).flatten();
        let mut found: HashSet<String> = names.map(str::to_owned).collect();
        if let Some(mark) = comment_mark(path) {
            let code = text.lines().filter(|line| !is_import(line)).filter_map(|line| line.split(mark).next());
            found.extend(code.flat_map(words).map(str::to_owned));
        }
        Source { path: path.to_owned(), words: found }
    }

    fn is_given_by(&self, name: &str) -> bool {
        leads_to(&self.path, name) || leads_to(&self.path, &format!("crates/{name}"))
    }

    fn has_path(&self, end: &str) -> bool {
        let folders = self.path.match_indices('/').map(|(at, _)| at + 1);
        [0].into_iter().chain(folders).any(|at| leads_to(&self.path[at..], end.trim_end_matches('/')))
    }
}

/// Whether a word, or one of a pattern, stands in one of the sources.
fn is_among(sources: &[&Source], name: &str) -> bool {
    let mut all = sources.iter().flat_map(|source| &source.words);
    match (name.strip_suffix(".."), name.strip_prefix("..")) {
        (Some(start), _) => all.any(|word| word.starts_with(start)),
        (_, Some(end)) => all.any(|word| word.ends_with(end)),
        _ => sources.iter().any(|source| source.words.contains(name)),
    }
}

/// What is wrong with a text between backticks, whose names are to stand in the sources that are given.
fn faults_of(text: &str, all: &[&Source], given: &[&Source]) -> Vec<String> {
    if text.contains(char::is_whitespace) || text.starts_with(|c: char| c.is_ascii_digit()) {
        return Vec::new();
    }
    if text.contains('/') {
        let is_right = text.contains('*') || text.starts_with("target/") || all.iter().any(|s| s.has_path(text));
        return if is_right { Vec::new() } else { vec![format!("no path `{text}`")] };
    }
    let is_whole = text.starts_with("..") || text.ends_with("..") || is_among(given, text);
    let names = if is_whole { vec![text] } else { words(text).collect() };
    names.into_iter().filter(|name| !is_among(given, name)).map(|name| format!("no `{name}`")).collect()
}

fn quoted(text: &str) -> impl Iterator<Item = &str> {
    text.split('`').skip(1).step_by(2)
}

/// What is wrong in a row of a table, whose columns have these headings.
fn faults_in_row(headings: &[&str], row: &str, all: &[&Source]) -> Vec<String> {
    let cells: Vec<&str> = row.split('|').collect();
    let (mut faults, mut given) = (Vec::new(), all.to_vec());
    if headings.contains(&"where") && row.chars().count() > LONGEST_ROW {
        faults.push("a row that is too long".to_owned());
    }
    if cells.len() != headings.len() {
        faults.push("another number of cells than in the heading".to_owned());
    }
    for (heading, cell) in headings.iter().zip(cells).rev() {
        if *heading != "where" {
            faults.extend(quoted(cell).flat_map(|text| faults_of(text, all, &given)));
            continue;
        }
        let files: Vec<&str> = cell.split(',').map(str::trim).filter(|file| !file.is_empty()).collect();
        let missing = files.iter().filter(|file| !all.iter().any(|source| source.is_given_by(file)));
        faults.extend(missing.map(|file| format!("no file {file}")));
        let is_given = |source: &&Source| files.is_empty() || files.iter().any(|file| source.is_given_by(file));
        given = all.iter().copied().filter(is_given).collect();
    }
    faults
}

/// What is wrong in a document, each fault with its line.
fn faults_in(path: &str, document: &str, all: &[&Source]) -> Vec<String> {
    let (mut faults, mut headings, mut is_code) = (Vec::new(), Vec::new(), false);
    for (line, number) in document.lines().zip(1..) {
        let is_fence = line.starts_with("```");
        is_code ^= is_fence;
        if is_code || is_fence || line.starts_with("|---") {
            continue;
        }
        let wrong = if line.matches('`').count() % 2 != 0 {
            vec!["a backtick without another one".to_owned()]
        } else if !line.starts_with('|') {
            headings.clear();
            quoted(line).flat_map(|text| faults_of(text, all, all)).collect()
        } else if headings.is_empty() {
            headings = line.split('|').map(str::trim).collect();
            Vec::new()
        } else {
            faults_in_row(&headings, line, all)
        };
        faults.extend(wrong.into_iter().map(|fault| format!("{path}:{number}: {fault}")));
    }
    faults
}

/// The files of the repository below a folder.
fn files(root: &Path, below: &str) -> Vec<String> {
    let entries = fs::read_dir(root.join(below)).expect("a folder").map(|entry| entry.expect("an entry").file_name());
    let names = entries.map(|name| name.into_string().expect("a name that is text"));
    let kept = names.filter(|name| !name.starts_with('.') && name != "target" && name != "out");
    let paths = kept.map(|name| if below.is_empty() { name } else { format!("{below}/{name}") });
    paths.flat_map(|path| if root.join(&path).is_dir() { files(root, &path) } else { vec![path] }).collect()
}

#[test]
fn documents_name_what_there_is() {
    let root = Path::new(env!("CARGO_MANIFEST_DIR")).parent().expect("host/ stands in the repository");
    let read = |path: &str| String::from_utf8_lossy(&fs::read(root.join(path)).expect("a file")).into_owned();
    let paths = files(root, "");
    let sources: Vec<Source> = paths.iter().map(|path| Source::new(path, &read(path))).collect();
    let all: Vec<&Source> = sources.iter().collect();
    let is_document = |path: &&String| path.starts_with("docs/") && path.ends_with(".md") && !path.contains("/notes/");
    let documents: Vec<&String> = paths.iter().filter(is_document).collect();
    assert!(documents.len() > 3, "the documents stand in docs/");
    let faults: Vec<String> = documents.iter().flat_map(|path| faults_in(path, &read(path), &all)).collect();
    assert!(faults.is_empty(), "{} faults:\n{}", faults.len(), faults.join("\n"));
}

#[test]
fn wrong_names_are_told() {
    let sources = [
        Source::new("crates/a/specs/B.antt", "use x.{far_off}\nnear_by : ℕ -- hearsay"),
        Source::new("crates/c/src/lib.rt", "pub fn walk_on() {} // hearsay"),
    ];
    let all: Vec<&Source> = sources.iter().collect();
    let faults = |line: &str| faults_in("d.md", &format!("| what | where |\n|---|---|\n{line}"), &all);
    for right in
        ["`near_by` `c::walk_on` `walk_..` `.._by` `a/specs` `B.antt` `7`", "| `near_by` | a/specs/B |", "| `B` | a |"]
    {
        assert!(faults(right).is_empty(), "{right}");
    }
    for wrong in [
        "`near`",
        "`far_off`",
        "`hearsay`",
        "`on_..`",
        "`a/specs/C`",
        "`",
        "| `near_by` | c/src |",
        "| | a/specs/C |",
        "| `near_by` |",
    ] {
        assert_eq!(faults(wrong).len(), 1, "{wrong}");
    }
    assert_eq!(faults("| `near_by` | c/src |"), ["d.md:3: no `near_by`"]);
    assert_eq!(faults(&format!("| {} | a |", "long ".repeat(50))), ["d.md:3: a row that is too long"]);
}
