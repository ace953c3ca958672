//! `wontirje merge`: loads listings of the same settings and prints the listing of their sum. Here alone the
//! command computes counts by itself: it adds those of the listings place by place, and checks each sum.

use crate::arguments::{Arguments, Options, Takes};
use crate::failure::{Failure, Outcome};
use crate::input;
use crate::listing::{load, load_further, say_loaded};
use crate::output;
use crate::report;
use crate::survey::Given;
use crate::table::Table;
use std::ffi::{OsStr, OsString};
use std::process::ExitCode;
use wontirje::{Code, Settings};

pub const OPTIONS: Options = &[("output", Takes::Value)];

/// A sum that no count can hold: the word, what was summed up before, and what comes to it.
fn too_large(settings: &Settings, place: usize, before: u32, more: u32) -> String {
    let mut word = vec![0; settings.k];
    // The place of a table is a code, so that this is not refused.
    let _ = settings.word(Code(place as u64), &mut word);
    let word = String::from_utf8_lossy(&word);
    format!("the count of {word} is {before} before it and {more} in it, in sum above 4,294,967,295")
}

/// Adds the counts of a table to those of another one with the same settings.
fn add(sum: &mut Table, table: &Table) -> Result<(), String> {
    let (settings, counts) = sum.parts();
    for (place, (count, &more)) in counts.iter_mut().zip(table.counts()).enumerate() {
        *count = match count.checked_add(more) {
            Some(sum) => sum,
            None => return Err(too_large(&settings, place, *count, more)),
        };
    }
    Ok(())
}

/// Adds up listings, the first of which gives the settings. Beside the sum there is one table and one buffer
/// for all of them.
fn sum(first: &OsStr, others: &[OsString]) -> Result<Table, Failure> {
    let mut buffer = Vec::new();
    let mut sum = load(first, Given::default(), &mut buffer)?;
    say_loaded(first, &sum);
    let mut table = Table::new(&sum.settings(), |refusal| refusal.to_string()).map_err(Failure::Said)?;
    for other in others {
        load_further(other, &report::name(first), &mut table, &mut buffer)?;
        say_loaded(other, &table);
        add(&mut sum, &table).map_err(|reason| {
            let name = report::name(other);
            Failure::said(format!("{name}: {reason}; nothing is merged: keep the listings apart"))
        })?;
    }
    Ok(sum)
}

pub fn run(arguments: &Arguments) -> Outcome {
    let [first, others @ ..] = &arguments.operands[..] else {
        let reason = "no listing given; name listings, or - for standard input; see wontirje merge --help";
        return Err(Failure::said(reason));
    };
    input::check_once(arguments.operands.iter().map(AsRef::as_ref))?;
    let to = output::new_file(arguments, "output", "leave --output out to print the listing")?;
    sum(first, others)?.list(to, ExitCode::SUCCESS)?;
    Ok(ExitCode::SUCCESS)
}
