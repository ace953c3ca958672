//! The prototypes of include/kmer.h, and the declarations of tests/src/c_calls.rs that tests/ and host/ call, beside
//! the exported functions of crates/kmer/src/lib.rt: the same functions, each once, with the same parameters by name,
//! type and order. No proof pins that order. The comparison is itself tried: every exchange of two neighbouring
//! parameters, every function left out and every function that stands twice is noticed, in each of the three texts.

use kmer_tests::repository::{crate_texts, read};
use std::ops::Range;

/// A function as a text declares it: the whole declaration and the parameters by their places in the text.
struct Declared {
    name: String,
    whole: Range<usize>,
    parameters: Vec<Range<usize>>,
    result: String,
}

/// A function as C sees it: its name, its parameters and what it returns, types written as in C.
#[derive(Clone, Debug, PartialEq, Eq, PartialOrd, Ord)]
struct Function {
    name: String,
    parameters: Vec<(String, String)>,
    result: String,
}

/// One of the three texts, with the way to read it.
struct Source {
    path: &'static str,
    declared: fn(&str) -> Vec<Declared>,
    parameter: fn(&str) -> Vec<(String, String)>,
}

const EXPORTED: Source =
    Source { path: "crates/kmer/src/lib.rt", declared: exported, parameter: rust_parameter };
const HEADER: Source = Source { path: "include/kmer.h", declared: prototypes, parameter: c_parameter };
const CALLED: Source = Source { path: "tests/src/c_calls.rs", declared: called, parameter: rust_parameter };

/// The places of the parts between commas, without white space around them; an empty part is none.
fn parts(text: &str, list: Range<usize>) -> Vec<Range<usize>> {
    let mut start = list.start;
    let mut found = Vec::new();
    for part in text[list].split(',') {
        let from = start + part.len() - part.trim_start().len();
        found.push(from..from + part.trim().len());
        start += part.len() + 1;
    }
    found.retain(|part| !part.is_empty());
    found
}

/// The functions of a Rust-like text that are declared by this mark. No type has a bracket of this kind in it.
fn marked(text: &str, mark: &str) -> Vec<Declared> {
    let starts = text.match_indices(mark).map(|(at, _)| at);
    starts.map(|start| rust_function(text, start, start + mark.len())).collect()
}

fn rust_function(text: &str, start: usize, name_at: usize) -> Declared {
    let open = name_at + text[name_at..].find('(').expect("a list of parameters");
    let close = open + text[open..].find(')').expect("its end");
    let (_, rest) = text[close..].split_once("-> ").expect("what it returns");
    let result = rest.split([' ', '\n', ';']).next().expect("a type");
    Declared {
        name: text[name_at..open].to_string(),
        whole: start..text.len() - rest.len() + result.len(),
        parameters: parts(text, open + 1..close),
        result: result.to_string(),
    }
}

fn exported(text: &str) -> Vec<Declared> {
    marked(text, "#[unsafe(no_mangle)]\npub extern \"C\" fn ")
}

fn called(text: &str) -> Vec<Declared> {
    marked(text, "    pub fn ")
}

/// The header's code alone: comments, lines of the preprocessor and what only C++ sees are blanked, so that places
/// stay what they were.
fn c_code(text: &str) -> String {
    let mut code = text.to_string();
    for (open, close) in [("/*", "*/"), ("#ifdef __cplusplus", "#endif"), ("#", "\n")] {
        while let Some(from) = code.find(open) {
            let to = from + code[from..].find(close).expect("its end") + close.len();
            code.replace_range(from..to, &" ".repeat(to - from));
        }
    }
    code
}

/// The prototypes: what ends in a semicolon outside of all braces and has a list of parameters.
fn prototypes(text: &str) -> Vec<Declared> {
    let code = c_code(text);
    let (mut depth, mut start, mut found) = (0, 0, Vec::new());
    for (at, sign) in code.match_indices(['{', '}', ';']) {
        match sign {
            "{" => depth += 1,
            "}" => depth -= 1,
            _ if depth == 0 && code[start..at].contains('(') => found.push(prototype(&code, start..at)),
            _ => {}
        }
        start = at + 1;
    }
    found
}

fn prototype(code: &str, whole: Range<usize>) -> Declared {
    let open = whole.start + code[whole.clone()].find('(').expect("a list of parameters");
    let close = open + code[open..].find(')').expect("its end");
    let (name, result) = c_named(&code[whole.start..open]);
    Declared { name, whole, parameters: parts(code, open + 1..close), result }
}

/// A name that stands after its type, and the type.
fn c_named(text: &str) -> (String, String) {
    let text = text.trim();
    let start = text.rfind(|c: char| !c.is_alphanumeric() && c != '_').expect("a type") + 1;
    let words: Vec<&str> = text[..start].split_whitespace().collect();
    (text[start..].to_string(), words.join(" "))
}

fn c_parameter(text: &str) -> Vec<(String, String)> {
    vec![c_named(text)]
}

/// A type of numbers of Rust as C has it.
fn c_type(rust: &str) -> String {
    match rust {
        "usize" => "size_t".to_string(),
        "u8" | "u32" | "u64" => format!("uint{}_t", &rust[1..]),
        _ => panic!("{rust} is no type of the C calls"),
    }
}

/// A slice is two parameters in C: a pointer and a length, named after it.
fn rust_parameter(text: &str) -> Vec<(String, String)> {
    let (name, kind) = text.split_once(": ").unwrap_or_else(|| panic!("{text} is no parameter"));
    let slice = |start: &str| kind.strip_prefix(start).and_then(|rest| rest.strip_suffix(']'));
    let length = || (format!("{name}_len"), "size_t".to_string());
    let named = |kind: String| (name.to_string(), kind);
    if let Some(element) = slice("&[") {
        vec![named(format!("const {} *", c_type(element))), length()]
    } else if let Some(element) = slice("&mut [") {
        vec![named(format!("{} *", c_type(element))), length()]
    } else if let Some(element) = kind.strip_prefix("*const ") {
        vec![named(format!("const {} *", c_type(element)))]
    } else if let Some(element) = kind.strip_prefix("*mut ") {
        vec![named(format!("{} *", c_type(element)))]
    } else {
        vec![named(c_type(kind))]
    }
}

impl Source {
    /// The functions of a text, by name.
    fn functions(&self, text: &str) -> Vec<Function> {
        let function = |declared: Declared| Function {
            name: declared.name,
            parameters: declared.parameters.into_iter().flat_map(|at| (self.parameter)(&text[at])).collect(),
            result: if declared.result.ends_with("_t") { declared.result } else { c_type(&declared.result) },
        };
        let mut found: Vec<Function> = (self.declared)(text).into_iter().map(function).collect();
        found.sort();
        found
    }
}

/// The functions that are exported; all of them are in this one file.
fn exported_functions() -> Vec<Function> {
    let text = read(EXPORTED.path);
    let found = EXPORTED.functions(&text);
    for mark in ["no_mangle", "extern \"C\""] {
        assert_eq!(found.len(), text.matches(mark).count(), "{mark}: a function is not read");
    }
    assert!(!found.is_empty());
    found
}

#[test]
fn the_header_declares_the_exported_functions() {
    assert_eq!(HEADER.functions(&read(HEADER.path)), exported_functions());
}

#[test]
fn the_tests_and_the_command_call_the_exported_functions() {
    assert_eq!(CALLED.functions(&read(CALLED.path)), exported_functions());
}

#[test]
fn no_other_file_exports_a_function() {
    let exporting = crate_texts("src").into_iter().filter(|(_, text)| text.contains("no_mangle"));
    assert_eq!(exporting.map(|(path, _)| path).collect::<Vec<_>>(), ["kmer/src/lib.rt"]);
}

/// A text with two of its parts exchanged.
fn exchanged(text: &str, first: &Range<usize>, second: &Range<usize>) -> String {
    let (one, two) = (&text[first.clone()], &text[second.clone()]);
    [&text[..first.start], two, &text[first.end..second.start], one, &text[second.end..]].concat()
}

/// All exchanges of two neighbouring parameters, all functions left out and all functions twice: what is edited,
/// with the edited text.
fn edits(source: &Source, text: &str) -> Vec<(String, String)> {
    let mut edits = Vec::new();
    for Declared { name, whole: Range { start, end }, parameters, .. } in (source.declared)(text) {
        for pair in parameters.windows(2) {
            let what = format!("{name}: {} and the next exchanged", &text[pair[0].clone()]);
            edits.push((what, exchanged(text, &pair[0], &pair[1])));
        }
        edits.push((format!("{name} left out"), [&text[..start], &text[end..]].concat()));
        edits.push((format!("{name} twice"), [&text[..end], ";\n", &text[start..]].concat()));
    }
    edits
}

/// How many edits there are of each text is asked for, so that a reader that misses some does not pass.
#[test]
fn every_exchange_is_noticed() {
    let right = exported_functions();
    for (source, count) in [(EXPORTED, 72), (HEADER, 103), (CALLED, 103)] {
        let text = read(source.path);
        let edits = edits(&source, &text);
        assert_eq!(edits.len(), count, "{}: edits", source.path);
        for (what, edited) in edits {
            assert_ne!(source.functions(&edited), right, "{}: {what}: not noticed", source.path);
        }
    }
}
