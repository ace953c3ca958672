//! docs/CLAIMS.md as the tests and the command `claims` read it: what it cites, its index of names, and the lines
//! of the definitions that it counts. The command writes the index and the counts; the test sees that they are so.

use crate::repository::{crate_texts, root, texts};
use std::collections::{BTreeMap, BTreeSet};

/// What writes the index and the counts, from the repository's root.
pub const COMMAND: &str = "CARGO_TARGET_DIR=target/tests cargo run --release --offline --locked \
                           --manifest-path tests/Cargo.toml --bin claims";

/// The page, from the repository's root on.
pub const PAGE: &str = "docs/CLAIMS.md";

const INDEX: &str = "\n## Index of names\n";

/// Words of the language that the page speaks of.
const WORDS: [&str; 2] = ["requires", "returns"];

/// The specs files of what functions below the calls ask of each other.
const APART: [&str; 6] = [
    "/Needs.antt",
    "/RankTables.antt",
    "kernels/specs/Kernels.antt",
    "kernels/specs/Coders.antt",
    "two_bit/specs/Ordered.antt",
    "any_alphabet/specs/Windows.antt",
];

/// What stands between backticks in a text, in order.
fn quoted(text: &str) -> Vec<&str> {
    text.split('`').skip(1).step_by(2).collect()
}

/// A name as the index lists it: letters, digits and the signs that names of definitions have.
fn is_name(text: &str) -> bool {
    text.chars().all(|c| c.is_alphanumeric() || "_-'′".contains(c))
}

/// Whether a quoted text cites something, and is neither code nor a word of the language.
fn is_cited(text: &str) -> bool {
    !WORDS.contains(&text) && (is_name(text) || !text.contains([' ', '&', '(']))
}

/// Whether a line of a specs, proofs or source file declares a name.
fn declares(line: &str, name: &str) -> bool {
    let words = ["pub", "unfoldable", "abbrev", "record", "data", "fn", "struct", "enum", "extern", "\"C\""];
    let first = line
        .split(|c: char| c.is_whitespace() || "(:{<,;".contains(c))
        .find(|w| !w.is_empty() && !words.contains(w));
    first == Some(name)
}

/// The definitions, proofs and sources of all crates, by path below crates/.
struct Sources(BTreeMap<String, String>);

impl Sources {
    fn read() -> Sources {
        Sources(["specs", "proofs", "src"].into_iter().flat_map(crate_texts).collect())
    }

    fn declares(&self, path: &str, name: &str) -> bool {
        let text = self.0.get(path).unwrap_or_else(|| panic!("crates/{path} is not there"));
        text.lines().any(|line| declares(line.trim(), name))
    }

    /// Where a name is declared by a line of its own, with its type or as what it is, that is not inside of another
    /// declaration, unless it is a public part of it.
    fn declaring(&self, name: &str) -> Vec<&str> {
        let is_declaration = |line: &str| {
            let kinds = ["record ", "data ", "fn ", "struct ", "enum "];
            let outer = line.trim_start().starts_with("pub ") || !line.starts_with(' ');
            outer && (line.contains(" : ") || kinds.iter().any(|kind| line.contains(kind)))
        };
        let declares = |text: &str| text.lines().any(|l| is_declaration(l) && declares(l.trim(), name));
        self.0.iter().filter(|(_, text)| declares(text)).map(|(path, _)| path.as_str()).collect()
    }

    /// Whether a function is in a crate's source.
    fn has_function(&self, name: &str, function: &str) -> bool {
        let mut files = self.0.keys().filter(|path| path.starts_with(&format!("{name}/src/")));
        files.any(|path| self.declares(path, function))
    }

    /// Whether a quoted text that is no name of the index is there: a function, a test, a file or a must-fail edit.
    fn has(&self, text: &str) -> bool {
        if let Some((first, rest)) = text.split_once("::") {
            let name = rest.rsplit("::").next().expect("a last part");
            // What is no crate is a type that has functions, as in `Reader::next`; those are in records.
            let folder = if root().join("crates").join(first).is_dir() { first } else { "records" };
            return self.has_function(folder, name);
        }
        if is_name(text) && texts("tests/tests").values().any(|test| test.contains(&format!("fn {text}("))) {
            return true;
        }
        if text.ends_with(".antt") && !text.contains('/') {
            return self.0.keys().any(|path| path.ends_with(&format!("/{text}")));
        }
        let edit = text.split_once('/').map(|(first, name)| format!("crates/{first}/must-fail/{name}.edit"));
        let places = [
            format!("crates/{text}"),
            text.to_string(),
            format!("tests/tests/{text}"),
            edit.unwrap_or_default(),
        ];
        places.iter().any(|place| !place.is_empty() && root().join(place).exists())
    }

    /// The page with its index written anew: a name stays in the rows of the files that declare it, goes where the
    /// page no longer has it, and comes to the one file that declares it where it is in no row.
    fn with_index(&self, page: &str) -> Result<String, String> {
        let (body, index) = page.split_once(INDEX).expect("the page has an index");
        let (head, _) = index.split_once("\n| `").expect("the index has rows");
        let cited: BTreeSet<&str> = quoted(body).into_iter().collect();
        let mut rows: BTreeMap<&str, BTreeSet<&str>> = BTreeMap::new();
        for row in index.lines().filter(|row| row.starts_with("| `")) {
            let (file, names) = (quoted(row)[0], quoted(row).split_off(1));
            let there =
                |name: &&str| cited.contains(name) && self.0.contains_key(file) && self.declares(file, name);
            rows.entry(file).or_default().extend(names.into_iter().filter(there));
        }
        let indexed: BTreeSet<&str> = rows.values().flatten().copied().collect();
        for name in cited.difference(&indexed).filter(|name| is_cited(name) && !self.has(name)) {
            match self.declaring(name)[..] {
                [file] => rows.entry(file).or_default().insert(name),
                [] => return Err(format!("`{name}` is nothing that is there")),
                ref files => {
                    return Err(format!("`{name}` is in {files:?}: put it in a row of the index by hand"))
                }
            };
        }
        let mut text = format!("{body}{INDEX}{head}");
        for (file, names) in rows.into_iter().filter(|(_, names)| !names.is_empty()) {
            let names: Vec<String> = names.into_iter().map(|name| format!("`{name}`")).collect();
            text += &format!("\n| `{file}` | {} |", names.join(", "));
        }
        Ok(text + "\n")
    }
}

/// How many lines of a specs file are neither blank, nor a comment, nor an import.
fn lines_of_definitions(text: &str) -> usize {
    let skipped = ["--", "use ", "pub use ", "unfoldable pub use ", "pub mod "];
    let line_counts = |line: &&str| !line.is_empty() && !skipped.iter().any(|start| line.starts_with(start));
    text.lines().map(str::trim).filter(line_counts).count()
}

/// A text in which another number stands before the first of these words.
fn with_number(text: &str, words: &str, number: usize) -> String {
    let end = text.find(words).unwrap_or_else(|| panic!("the page has no more {words:?}"));
    let start = text[..end].trim_end_matches(|c: char| c.is_ascii_digit()).len();
    format!("{}{number}{}", &text[..start], &text[end..])
}

/// The definitions of all specs folders, by path below crates/, with their lines; without those files that only
/// name the others.
struct Definitions(BTreeMap<String, usize>);

impl Definitions {
    /// A passage of the page in which each path of a specs file that has a number behind it has the right one; and
    /// their sum. These files are taken out of the list.
    fn counted(&mut self, passage: &str) -> Result<(String, usize), String> {
        let mut sum = 0;
        let mut parts: Vec<String> = passage.split('`').map(str::to_string).collect();
        for place in (1..parts.len()).step_by(2) {
            let behind = parts.get(place + 1).map_or("", |text| text.strip_prefix(' ').unwrap_or_default());
            let rest = behind.trim_start_matches(|c: char| c.is_ascii_digit());
            if !parts[place].contains("/specs/") || rest.len() == behind.len() {
                continue;
            }
            let file = &parts[place];
            let lines = self.0.remove(file).ok_or(format!("{file} is not there, or stands twice"))?;
            sum += lines;
            parts[place + 1] = format!(" {lines}{rest}");
        }
        Ok((parts.join("`"), sum))
    }
}

/// The page with the lines that must be believed counted anew.
fn with_counts(page: &str) -> Result<String, String> {
    let specs = crate_texts("specs").into_iter().filter(|(path, _)| !path.ends_with("/Lib.antt"));
    let mut definitions =
        Definitions(specs.map(|(path, text)| (path, lines_of_definitions(&text))).collect());
    let heads = ["\n## What must be believed\n", "\nTwo more files, ", " What functions below the"];
    let (before, rest) = page.split_once(heads[0]).expect("the page has a list");
    let (list, rest) = rest.split_once(heads[1]).expect("and files that theorems tie to it");
    let (tied, rest) = rest.split_once(heads[2]).expect("and what stands apart");
    let (list, believed) = definitions.counted(list)?;
    let (tied, tied_lines) = definitions.counted(tied)?;
    let is_apart = |path: &String| APART.iter().any(|name| path.ends_with(name));
    if let Some(file) = definitions.0.keys().find(|path| !is_apart(path)) {
        return Err(format!("{file} is in neither list of what must be believed: put it in one by hand"));
    }
    let list = with_number(&list, " in all.", believed);
    let tied = with_number(&tied, " lines, ", tied_lines);
    let rest = with_number(rest, " lines on which no sentence", definitions.0.values().sum());
    Ok([before, heads[0], &list, heads[1], &tied, heads[2], &rest].concat())
}

/// The page as the command writes it; or what must be done by hand first.
pub fn written(page: &str) -> Result<String, String> {
    Sources::read().with_index(&with_counts(page)?)
}

/// What a page cites that is nowhere.
pub fn missing(page: &str) -> Vec<&str> {
    let (body, index) = page.split_once(INDEX).expect("the page has an index");
    let (sources, indexed) = (Sources::read(), quoted(index));
    let is_missing = |text: &&str| is_cited(text) && !indexed.contains(text) && !sources.has(text);
    quoted(body).into_iter().filter(is_missing).collect()
}
