//! The command `wontirje`: counts k-mers of sequence files, adds listings up, tells codes, words, classes and
//! spectra, and writes test loads. It reads, lends buffers to the library, calls and prints; it decides
//! nothing about counts, but for `merge`, which adds up the counts of listings that the library loaded.

mod arguments;
mod bars;
mod classes;
mod count;
mod failure;
mod fault;
mod generate;
mod help;
mod histogram;
mod input;
mod listing;
mod listing_fault;
mod merge;
mod output;
mod progress;
mod report;
mod survey;
mod svg;
mod table;
mod task;
mod translate;

use arguments::{Arguments, Options};
use failure::{Failure, Outcome};
use std::env;
use std::ffi::{OsStr, OsString};
use std::process::ExitCode;

/// The commands: name, help, options, and what runs it.
type Command = (&'static str, &'static str, Options, fn(&Arguments) -> Outcome);

const COMMANDS: [Command; 7] = [
    ("count", help::COUNT, count::OPTIONS, count::run),
    ("merge", help::MERGE, merge::OPTIONS, merge::run),
    ("code", help::CODE, survey::OPTIONS, translate::codes),
    ("word", help::WORD, survey::OPTIONS, translate::words),
    ("classes", help::CLASSES, survey::OPTIONS, classes::run),
    ("histogram", help::HISTOGRAM, histogram::OPTIONS, histogram::run),
    ("generate", help::GENERATE, generate::OPTIONS, generate::run),
];

/// The command with this name.
fn named(name: &OsStr) -> Result<&'static Command, Failure> {
    COMMANDS.iter().find(|(command, ..)| name == *command).ok_or_else(|| {
        let name = report::shown(name);
        Failure::said(format!("{name} is no command of wontirje; see wontirje --help"))
    })
}

/// Runs the command that the first argument names.
fn run(arguments: &[OsString]) -> Outcome {
    let Some((name, rest)) = arguments.split_first() else {
        return Err(Failure::said("no command given; see wontirje --help"));
    };
    match (name.to_str(), rest) {
        (Some("help"), [command, ..]) => return output::print(named(command)?.1),
        (Some("--help" | "-h" | "help"), _) => return output::print(help::ALL),
        (Some("--version"), _) => {
            return output::print(concat!("wontirje ", env!("CARGO_PKG_VERSION"), "\n"));
        }
        _ => (),
    }
    let (name, help, options, run) = named(name)?;
    if arguments::ask_for_help(rest) {
        return output::print(help);
    }
    let parsed = Arguments::parse(rest, options);
    run(&parsed.map_err(|error| Failure::said(format!("{error}; see wontirje {name} --help")))?)
}

/// The exit status is that of `help::ALL`. A reader who closed the pipe has what he wanted: no word about it.
fn main() -> ExitCode {
    let arguments: Vec<OsString> = env::args_os().skip(1).collect();
    match run(&arguments) {
        Ok(status) => status,
        Err(Failure::PipeClosed(status)) => status,
        Err(Failure::Said(reason)) => {
            report::line(format_args!("wontirje: {reason}"));
            ExitCode::from(2)
        }
    }
}
