//! Writes the index of names and the counts of lines in docs/CLAIMS.md anew, in place. From the repository's root,
//! after `tools/build kmer`:
//!   CARGO_TARGET_DIR=target/tests cargo run --release --offline --locked --manifest-path tests/Cargo.toml --bin claims

use kmer_tests::claims::{written, PAGE};
use kmer_tests::repository::{read, root};
use std::fs;
use std::process::ExitCode;

fn main() -> ExitCode {
    let done =
        written(&read(PAGE)).and_then(|text| fs::write(root().join(PAGE), text).map_err(|e| e.to_string()));
    match done {
        Ok(()) => ExitCode::SUCCESS,
        Err(what) => {
            eprintln!("{PAGE} is not written: {what}");
            ExitCode::FAILURE
        }
    }
}
