//! The C header, the Rust declarations and the exported functions say the same: `include/colourway.h`,
//! `rust/src/foreign.rs` and `crates/exports/src`. A linker compares names alone, and rows exchanged with columns would
//! pass for right.

use colourway::Refusal;
use std::collections::BTreeMap;
use std::fs;
use std::path::{Path, PathBuf};

/// A parameter's name and its type, or a result's type, in the words of `foreign.rs`.
type Parameter = (String, String);

#[derive(Debug, PartialEq)]
struct Function {
    parameters: Vec<Parameter>,
    result: String,
}

/// Functions by name.
type Functions = BTreeMap<String, Function>;

/// A path below the repository's top.
fn at_top(name: &str) -> PathBuf {
    Path::new(env!("CARGO_MANIFEST_DIR")).join("..").join(name)
}

fn text_of(path: &Path) -> String {
    fs::read_to_string(path).unwrap_or_else(|why| panic!("{}: {why}", path.display()))
}

/// The words of a text with one space between.
fn one_line(text: &str) -> String {
    text.split_whitespace().collect::<Vec<_>>().join(" ")
}

/// Adds a function whose head reads `NAME(PARAMETERS)`, each parameter read by `read`.
fn add(functions: &mut Functions, head: &str, result: &str, read: impl Fn(&str) -> Vec<Parameter>) {
    let (name, rest) = head.split_once('(').expect("parameters");
    let (list, _) = rest.split_once(')').expect("an end of the parameters");
    let parameters = list.split(',').map(one_line).filter(|p| !p.is_empty());
    let function = Function {
        parameters: parameters.flat_map(|parameter| read(&parameter)).collect(),
        result: result.to_string(),
    };
    let before = functions.insert(name.trim().to_string(), function);
    assert!(before.is_none(), "{name} twice");
}

/// The functions of a text in Rust or Rattle: what comes after these words, up to where its body or its contract
/// begins.
fn after_words(text: &str, words: &str, read: impl Fn(&str) -> Vec<Parameter>) -> Functions {
    let mut functions = Functions::new();
    for declaration in text.split(words).skip(1) {
        let (_, rest) = declaration.split_once(')').expect("parameters");
        let result = match rest.trim_start().strip_prefix("->") {
            Some(after) => after.split_whitespace().next().expect("a result"),
            None => "()",
        };
        add(
            &mut functions,
            declaration,
            result.trim_end_matches(';'),
            &read,
        );
    }
    functions
}

fn name_and_type(parameter: &str) -> Parameter {
    let (name, kind) = parameter.split_once(": ").expect("a type");
    (name.to_string(), kind.to_string())
}

/// "A slice passes as a pointer and then its length, an array as a pointer."
fn rattle_parameter(parameter: &str) -> Vec<Parameter> {
    let (name, kind) = name_and_type(parameter);
    let slice = |pointer: &str, element: &str| {
        vec![
            (name.clone(), format!("{pointer} {element}")),
            (format!("{name}_length"), "usize".to_string()),
        ]
    };
    let element = |open: &str| kind.strip_prefix(open)?.strip_suffix(']');
    match (element("&["), element("&mut [")) {
        (Some(element), _) if !element.contains(';') => slice("*const", element),
        (_, Some(element)) if !element.contains(';') => slice("*mut", element),
        _ => vec![(name, kind)],
    }
}

fn exported() -> Functions {
    let mut functions = Functions::new();
    for entry in fs::read_dir(at_top("crates/exports/src")).expect("the exports") {
        let text = text_of(&entry.expect("a file of the exports").path());
        functions.extend(after_words(&text, "pub extern \"C\" fn ", rattle_parameter));
    }
    functions
}

fn declared_in_rust() -> Functions {
    let text = text_of(&at_top("rust/src/foreign.rs"));
    after_words(&text, "pub fn ", |parameter| vec![name_and_type(parameter)])
}

/// The header without its comments and the preprocessor's lines.
fn header() -> String {
    let text = text_of(&at_top("include/colourway.h"));
    let mut code = String::new();
    for (number, part) in text.split("/*").enumerate() {
        let kept = match number {
            0 => part,
            _ => part.split_once("*/").expect("an end of a comment").1,
        };
        code.push_str(kept);
    }
    let lines = code.lines().filter(|line| !line.starts_with('#'));
    lines.collect::<Vec<_>>().join("\n")
}

fn c_type(name: &str) -> &'static str {
    match name {
        "void" => "()",
        "uint8_t" => "u8",
        "uint16_t" => "u16",
        "uint32_t" => "u32",
        "uint64_t" => "u64",
        "size_t" => "usize",
        _ => panic!("the type {name} of the header"),
    }
}

fn c_parameter(parameter: &str) -> Parameter {
    let (constant, rest) = match parameter.strip_prefix("const ") {
        Some(rest) => (true, rest),
        None => (false, parameter),
    };
    let (kind, declared) = rest.split_once(' ').expect("a name");
    let kind = c_type(kind);
    if let Some(name) = declared.strip_prefix('*') {
        let pointer = if constant { "*const" } else { "*mut" };
        return (name.to_string(), format!("{pointer} {kind}"));
    }
    if let Some((name, length)) = declared.split_once('[') {
        let reference = if constant { "&[" } else { "&mut [" };
        return (name.to_string(), format!("{reference}{kind}; {length}"));
    }
    assert!(!constant, "{parameter}");
    (declared.to_string(), kind.to_string())
}

fn declared_in_c() -> Functions {
    let mut functions = Functions::new();
    for statement in header().split(';').filter(|part| part.contains('(')) {
        let head = one_line(statement);
        let (result, head) = head.split_once(' ').expect("a result");
        let read = |parameter: &str| vec![c_parameter(parameter)];
        add(&mut functions, head, c_type(result), read);
    }
    functions
}

#[test]
fn three_declarations_agree() {
    let exported = exported();
    assert!(exported.len() >= 19, "{} functions", exported.len());
    assert!(exported.keys().all(|name| name.starts_with("colourway_")));
    let [rust, c] = [declared_in_rust(), declared_in_c()];
    for (name, function) in &exported {
        assert_eq!(rust.get(name), Some(function), "{name} in foreign.rs");
        assert_eq!(c.get(name), Some(function), "{name} in the header");
    }
    assert_eq!([rust.len(), c.len()], [exported.len(); 2]);
}

/// What is read of one function, by hand, so that the three cannot agree because nothing is read.
#[test]
fn a_declaration_is_read() {
    let parameters = [
        ("listing", "*const u8"),
        ("listing_length", "usize"),
        ("at", "usize"),
        ("fields", "&mut [u16; 7]"),
        ("next", "&mut [usize; 1]"),
    ];
    let expected = Function {
        parameters: parameters
            .map(|(name, kind)| (name.to_string(), kind.to_string()))
            .to_vec(),
        result: "u8".to_string(),
    };
    for functions in [exported(), declared_in_rust(), declared_in_c()] {
        assert_eq!(functions["colourway_read"], expected);
        assert_eq!(functions["colourway_search"].parameters.len(), 17);
        assert_eq!(functions["colourway_count"].parameters.len(), 15);
        assert_eq!(functions["colourway_list"].parameters.len(), 13);
        let scaled = &functions["colourway_search_scaled"].parameters;
        assert_eq!(scaled.len(), 18);
        assert_eq!(scaled[8], ("scale".to_string(), "usize".to_string()));
        assert_eq!(functions["colourway_search_scales"].parameters.len(), 17);
        assert_eq!(functions["colourway_symbols"].result, "()");
    }
}

/// `SideRange` as `COLOURWAY_SIDE_RANGE`.
fn constant_of(why: Refusal) -> String {
    let mut constant = "COLOURWAY".to_string();
    for letter in format!("{why:?}").chars() {
        if letter.is_uppercase() {
            constant.push('_');
        }
        constant.push(letter.to_ascii_uppercase());
    }
    constant
}

#[test]
fn refusals_have_the_same_numbers() {
    let header = header();
    let (_, rest) = header.split_once("enum colourway_refusal {").expect("it");
    let (constants, _) = rest.split_once('}').expect("the enum's end");
    let in_c: Vec<String> = constants.split(',').map(one_line).collect();
    let mut expected = vec!["COLOURWAY_ACCEPTED = 0".to_string()];
    expected.extend(Refusal::ALL.map(|why| format!("{} = {}", constant_of(why), why.number())));
    assert_eq!(in_c, expected);
}
