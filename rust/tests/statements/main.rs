//! The statements' pages are true of the files: every name, path, edit and test on `docs/STATEMENTS.md` and
//! `docs/statements/*.md` exists, and every must-fail edit stands on them. No line of a document is too wide.
//!
//! A page has blocks: a heading `### 'sentence of the paper'`, then rows, each a line `- KIND ..` with the lines below it
//! that begin with two spaces. KIND is `meaning`, `proved`, `edits`, `tests` or `note`. Names stand in backquotes. A file
//! in brackets behind the names of a `meaning` row is the file that declares them.

mod files;
mod pages;

use files::{at_top, declared, edits, files_below, tests, text_of, Declared};
use pages::{named_files, names_in, paths_in, rows_of, wide_lines, WIDEST};
use std::path::Path;

fn name_of(path: &Path) -> String {
    let name = path.file_name().expect("a file's name");
    name.to_string_lossy().into_owned()
}

/// The statements' pages, by name.
fn pages() -> Vec<(String, String)> {
    let mut paths = vec![at_top("docs/STATEMENTS.md")];
    paths.extend(files_below(&at_top("docs/statements"), ".md"));
    let page = |path| (name_of(path), text_of(path));
    paths.iter().map(|path| page(path)).collect()
}

/// Nothing is wrong on any page; or else what is, on which page.
fn none_wrong(what: &str, of: impl Fn(&str) -> Vec<String>) {
    let mut wrong = Vec::new();
    for (name, page) in pages() {
        wrong.extend(of(&page).iter().map(|each| format!("{name}: {each}")));
    }
    assert!(wrong.is_empty(), "{what}:\n{}", wrong.join("\n"));
}

/// The names in rows of these kinds that are not known.
fn unknown(page: &str, kinds: &[&str], known: impl Fn(&str) -> bool) -> Vec<String> {
    let mut wrong = Vec::new();
    for row in rows_of(page).0 {
        if kinds.contains(&row.kind.as_str()) {
            let names = names_in(&row.text).into_iter();
            let names = names.filter(|name| !name.contains('/') && !known(name));
            wrong.extend(names.map(|name| format!("{} `{name}` at {}", row.kind, row.heading)));
        }
    }
    wrong
}

/// The names of `meaning` rows that the file behind them does not declare.
fn elsewhere(page: &str, declared: &Declared) -> Vec<String> {
    let mut wrong = Vec::new();
    for row in rows_of(page).0 {
        if row.kind == "meaning" {
            for (name, path) in named_files(&row.text) {
                let files = declared.get(&name);
                if !files.is_some_and(|files| files.iter().any(|file| file.starts_with(&path))) {
                    wrong.push(format!("`{name}` is not in {path}"));
                }
            }
        }
    }
    wrong
}

/// The blocks of a page that have no row.
fn empty_blocks(page: &str) -> Vec<String> {
    let (rows, headings) = rows_of(page);
    let is_empty = |heading: &String| rows.iter().all(|row| row.heading != *heading);
    headings.into_iter().filter(is_empty).collect()
}

/// The paths in a text that are none.
fn no_paths(text: &str) -> Vec<String> {
    let paths = paths_in(text).into_iter();
    paths.filter(|path| !at_top(path).exists()).collect()
}

#[test]
fn paths_of_the_statements_exist() {
    none_wrong("no such file or folder", no_paths);
}

#[test]
fn paths_of_the_readme_exist() {
    let gone = no_paths(&text_of(&at_top("README.md")));
    assert!(
        gone.is_empty(),
        "README.md names what is not there: {}",
        gone.join(", ")
    );
}

#[test]
fn names_of_meanings_and_proofs_are_declared() {
    let declared = declared();
    let known = |name: &str| declared.contains_key(name);
    none_wrong("declared in no specs/ and no src/", |page| {
        unknown(page, &["meaning", "proved"], known)
    });
}

#[test]
fn meanings_stand_in_the_files_that_are_named() {
    let declared = declared();
    none_wrong("declared elsewhere, or not at all", |page| {
        elsewhere(page, &declared)
    });
}

#[test]
fn edits_of_the_statements_exist() {
    let edits = edits();
    none_wrong("in must-fail/ of no crate", |page| {
        unknown(page, &["edits"], |name| edits.contains(name))
    });
}

#[test]
fn tests_of_the_statements_exist() {
    let tests = tests();
    none_wrong("no test below rust/", |page| {
        unknown(page, &["tests"], |name| tests.contains(name))
    });
}

#[test]
fn every_edit_stands_in_the_statements() {
    let mut left = edits();
    assert!(
        !left.is_empty(),
        "no edit is found in must-fail/ of any crate"
    );
    for (_, page) in pages() {
        for row in rows_of(&page).0.iter().filter(|row| row.kind == "edits") {
            for name in names_in(&row.text) {
                left.remove(&name);
            }
        }
    }
    let left: Vec<String> = left.into_iter().collect();
    assert!(left.is_empty(), "no row `edits` names: {}", left.join(", "));
}

#[test]
fn every_sentence_has_a_row() {
    none_wrong("a sentence without a row", empty_blocks);
}

#[test]
fn lines_of_documents_are_short() {
    let mut paths = files_below(&at_top("docs"), ".md");
    paths.push(at_top("README.md"));
    let mut wrong = Vec::new();
    for path in &paths {
        let wide = wide_lines(&text_of(path));
        wrong.extend(wide.iter().map(|each| format!("{}: {each}", name_of(path))));
    }
    assert!(
        wrong.is_empty(),
        "more than {WIDEST} characters:\n{}",
        wrong.join("\n")
    );
}

/// A page with one block in order and one without a row.
const PAGE: &str = "\
### 'A sentence'

- meaning `good`, `Has .field` (crates/one/specs/One.antt)
  and `other` (crates/two/specs)
- edits `an_edit`
- tests `a_test`

### 'Another'

Words without a row.
";

/// Each test above can fail, and says which name is wrong.
#[test]
fn what_is_wrong_is_named() {
    assert_eq!(
        unknown(PAGE, &["edits"], |_| false),
        ["edits `an_edit` at 'A sentence'"]
    );
    assert_eq!(
        unknown(PAGE, &["tests"], |_| false),
        ["tests `a_test` at 'A sentence'"]
    );
    let wrong = unknown(PAGE, &["meaning"], |name| name != "field");
    assert_eq!(wrong, ["meaning `field` at 'A sentence'"]);
    assert_eq!(
        elsewhere(PAGE, &Declared::new())[0],
        "`good` is not in crates/one/specs/One.antt"
    );
    assert_eq!(empty_blocks(PAGE), ["'Another'"]);
    assert_eq!(
        no_paths(PAGE),
        ["crates/one/specs/One.antt", "crates/two/specs"]
    );
}
