//! What the repository's files have: declared names, must-fail edits, tests.

use std::collections::{BTreeMap, BTreeSet};
use std::fs;
use std::path::{Path, PathBuf};

/// Declared names, each with the files that declare it, named from the repository's top.
pub type Declared = BTreeMap<String, BTreeSet<String>>;

/// A path below the repository's top.
pub fn at_top(name: &str) -> PathBuf {
    Path::new(env!("CARGO_MANIFEST_DIR")).join("..").join(name)
}

pub fn text_of(path: &Path) -> String {
    fs::read_to_string(path).unwrap_or_else(|why| panic!("{}: {why}", path.display()))
}

/// All files below a folder whose names end so, without what a build leaves.
pub fn files_below(folder: &Path, ending: &str) -> Vec<PathBuf> {
    let mut found = Vec::new();
    let Ok(entries) = fs::read_dir(folder) else {
        return found;
    };
    for entry in entries {
        let path = entry.expect("a folder's entry").path();
        if path.is_dir() {
            if !path.ends_with("target") {
                found.extend(files_below(&path, ending));
            }
        } else if path.to_string_lossy().ends_with(ending) {
            found.push(path);
        }
    }
    found.sort();
    found
}

/// The files of the folder `name` of every crate.
fn of_every_crate(name: &str, ending: &str) -> Vec<PathBuf> {
    let entries = fs::read_dir(at_top("crates")).expect("the folder crates");
    let folders = entries.map(|entry| entry.expect("a crate").path().join(name));
    folders
        .flat_map(|folder| files_below(&folder, ending))
        .collect()
}

/// The name that a line of a specification declares: `pub abbrev NAME : ..`, `pub record NAME (..)`, a case, a field.
fn declared_by(line: &str) -> Option<&str> {
    let inner = line.trim_start();
    let is_local = line.len() - inner.len() > 4 && !inner.starts_with("pub ");
    if is_local || inner.starts_with("--") {
        return None;
    }
    let marks = ["pub", "abbrev", "unfoldable", "record", "data"];
    let mut words = line
        .split_whitespace()
        .skip_while(|word| marks.contains(word));
    let name = words.next()?;
    let behind = words.next()?;
    let is_name = name.starts_with(|c: char| c.is_alphabetic() || c == '_' || c == '◌');
    let is_declared = behind == ":" || behind.starts_with(['(', '{']);
    (is_name && is_declared).then_some(name)
}

/// The names that a line of Rattle declares: a function, a type, a trait, a constant, or a case of an enum.
fn declared_in_code(line: &str) -> Vec<&str> {
    let words: Vec<&str> = line
        .split(|c: char| !(c.is_alphanumeric() || c == '_'))
        .collect();
    let keys = ["fn", "struct", "enum", "trait", "const"];
    let pairs = words.windows(2).filter(|pair| keys.contains(&pair[0]));
    let mut names: Vec<&str> = pairs.map(|pair| pair[1]).collect();
    if let Some(rest) = line.strip_prefix("    ") {
        if rest.starts_with(|c: char| c.is_ascii_uppercase()) {
            names.extend(words.iter().find(|word| !word.is_empty()));
        }
    }
    names
}

/// The files of laws right in `proofs/` of the crates: those of one function lie in folders of their own.
fn files_of_laws() -> Vec<PathBuf> {
    let mut paths = of_every_crate("proofs", ".antt");
    paths.retain(|path| {
        path.parent()
            .is_some_and(|folder| folder.ends_with("proofs"))
    });
    paths
}

/// All names that `specs/`, the files of laws in `proofs/` and `src/` of the crates declare.
pub fn declared() -> Declared {
    let top = at_top("");
    let mut declared = Declared::new();
    let mut add = |name: &str, path: &Path| {
        let file = path.strip_prefix(&top).expect("a file of the repository");
        let files = declared.entry(name.to_string()).or_default();
        files.insert(file.to_string_lossy().into_owned());
    };
    let specs = of_every_crate("specs", ".antt");
    for path in specs.into_iter().chain(files_of_laws()) {
        for name in text_of(&path).lines().filter_map(declared_by) {
            add(name, &path);
        }
    }
    for path in of_every_crate("src", ".rt") {
        for name in text_of(&path).lines().flat_map(declared_in_code) {
            add(name, &path);
        }
    }
    declared
}

/// The names of all must-fail edits.
pub fn edits() -> BTreeSet<String> {
    let paths = of_every_crate("must-fail", ".edit");
    let stems = paths.iter().filter_map(|path| path.file_stem());
    stems
        .map(|stem| stem.to_string_lossy().into_owned())
        .collect()
}

/// The functions of a Rust text that are tests.
fn tests_in(text: &str) -> Vec<String> {
    let parts = text.split("#[test]").skip(1);
    let heads = parts.filter_map(|part| part.split_once("fn ")?.1.split_once('('));
    heads.map(|(name, _)| name.trim().to_string()).collect()
}

/// The names of all tests below `rust/`.
pub fn tests() -> BTreeSet<String> {
    let paths = files_below(&at_top("rust"), ".rs");
    paths
        .iter()
        .flat_map(|path| tests_in(&text_of(path)))
        .collect()
}

#[test]
fn declarations_are_read() {
    assert_eq!(
        declared_by("abbrev pub number_of_reason : Reason → ℕ"),
        Some("number_of_reason")
    );
    assert_eq!(
        declared_by("pub record Shows (q : Question) : Type 0 where"),
        Some("Shows")
    );
    assert_eq!(
        declared_by("      pub flag_iff : (row column : ℕ)"),
        Some("flag_iff")
    );
    assert_eq!(
        declared_by("unfoldable pub ◌then◌ : Said → Said → Said"),
        Some("◌then◌")
    );
    assert_eq!(declared_by("      go : (a : Answer)"), None);
    assert_eq!(declared_by("-- a comment : of this"), None);
    assert_eq!(declared_by("number_of_reason SideRange = 2"), None);
    assert_eq!(declared_in_code("pub fn search("), ["search"]);
    assert_eq!(declared_in_code("pub trait Pattern: Copy {"), ["Pattern"]);
    assert_eq!(declared_in_code("    Plain(Reason),"), ["Plain"]);
}

#[test]
fn files_are_read() {
    let declared = declared();
    for name in ["search_of", "Said", "search", "WindowView"] {
        assert!(
            declared.contains_key(name),
            "{name} is not found among the declarations"
        );
    }
    let text = "#[test]\nfn one() {}\nfn two() {}\n#[test]\nfn three() {}";
    assert_eq!(tests_in(text), ["one", "three"]);
    assert!(
        tests().contains("files_are_read"),
        "this test is not found among the tests"
    );
}
