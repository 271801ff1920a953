//! What a page of the statements says: its rows, the names and the paths in them.

use std::collections::BTreeSet;

/// No line of a document has more characters.
pub const WIDEST: usize = 120;

/// The kinds of a row.
const KINDS: [&str; 5] = ["meaning", "proved", "edits", "tests", "note"];

/// Where a path of the repository begins.
const FOLDERS: [&str; 6] = ["crates/", "docs/", "rust/", "include/", "drafts/", ".ci/"];

/// A row of a page: the heading above it, its kind, and its text.
#[derive(Debug, PartialEq)]
pub struct Row {
    pub heading: String,
    pub kind: String,
    pub text: String,
}

/// The rows of a page, and the headings of its blocks.
pub fn rows_of(page: &str) -> (Vec<Row>, Vec<String>) {
    let mut rows: Vec<Row> = Vec::new();
    let mut headings: Vec<String> = Vec::new();
    let mut open = false;
    for line in page.lines() {
        if let Some(heading) = line.strip_prefix("### ") {
            headings.push(heading.to_string());
            open = false;
        } else if let Some((kind, text)) = row_of(line) {
            let heading = headings.last().cloned().unwrap_or_default();
            rows.push(Row {
                heading,
                kind,
                text,
            });
            open = true;
        } else if open && line.starts_with("  ") {
            let row = rows.last_mut().expect("a row above");
            row.text.push(' ');
            row.text.push_str(line.trim());
        } else {
            open = false;
        }
    }
    (rows, headings)
}

/// A line that begins a row.
fn row_of(line: &str) -> Option<(String, String)> {
    let (kind, text) = line.strip_prefix("- ")?.split_once(' ')?;
    let is_row = KINDS.contains(&kind);
    is_row.then(|| (kind.to_string(), text.trim().to_string()))
}

/// What stands in backquotes, each word for itself and without the point before a field.
pub fn names_in(text: &str) -> Vec<String> {
    let quoted = text.split('`').skip(1).step_by(2);
    let words = quoted.flat_map(str::split_whitespace);
    let names = words.map(|word| word.trim_start_matches('.'));
    names
        .filter(|name| !name.is_empty())
        .map(str::to_string)
        .collect()
}

/// The paths that a text names.
pub fn paths_in(text: &str) -> BTreeSet<String> {
    let apart = |c: char| !(c.is_ascii_alphanumeric() || "_./-".contains(c));
    let words = text.split(apart).map(|word| word.trim_end_matches('.'));
    let is_path = |word: &&str| FOLDERS.iter().any(|folder| word.starts_with(folder));
    words.filter(is_path).map(str::to_string).collect()
}

/// The names of a `meaning` row, each with the path in brackets behind it; names without one are left out.
pub fn named_files(text: &str) -> Vec<(String, String)> {
    let mut pairs = Vec::new();
    let mut rest = text;
    while let Some((before, after)) = rest.split_once('(') {
        let Some((inside, behind)) = after.split_once(')') else {
            break;
        };
        if let Some(path) = paths_in(inside).pop_first() {
            let names = names_in(before).into_iter();
            pairs.extend(names.map(|name| (name, path.clone())));
        }
        rest = behind;
    }
    pairs
}

/// The lines of a text that are too wide, by number.
pub fn wide_lines(text: &str) -> Vec<String> {
    let widths = text.lines().map(|line| line.chars().count());
    let wide = widths.enumerate().filter(|(_, width)| *width > WIDEST);
    wide.map(|(at, width)| format!("line {} has {width} characters", at + 1))
        .collect()
}

#[test]
fn rows_are_read() {
    let page = "### One\n\n- meaning `a`, `B .c` (crates/x/specs/X.antt)\n  and `d` (crates/y)\n- tests `t`\n\n### Two\n";
    let (rows, headings) = rows_of(page);
    assert_eq!(headings, ["One", "Two"]);
    assert_eq!(rows.len(), 2);
    assert_eq!(names_in(&rows[0].text), ["a", "B", "c", "d"]);
    let files = named_files(&rows[0].text);
    assert_eq!(
        files[2],
        ("c".to_string(), "crates/x/specs/X.antt".to_string())
    );
    assert_eq!(files[3], ("d".to_string(), "crates/y".to_string()));
}

#[test]
fn wide_lines_are_found() {
    assert_eq!(wide_lines(&"×".repeat(121)), ["line 1 has 121 characters"]);
    assert!(wide_lines(&"×".repeat(120)).is_empty());
}
