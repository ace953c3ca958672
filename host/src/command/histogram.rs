//! `wontirje histogram`: how many classes of a listing have each count, as text bars and as a chart.

use crate::arguments::{Arguments, Options, Takes};
use crate::bars::{self, Bar};
use crate::failure::{Failure, Outcome};
use crate::listing::load;
use crate::output::{new_file, to_new_file, to_stdout};
use crate::report::name;
use crate::survey::Given;
use crate::svg;
use crate::table::Table;
use std::collections::BTreeMap;
use std::io::Write;
use std::process::ExitCode;
use wontirje::Settings;

pub const OPTIONS: Options = &[("bars", Takes::Value), ("each", Takes::Nothing), ("svg", Takes::Value)];

/// How many bars there may be; more do not fit the chart.
const MOST_BARS: usize = 200;

/// What the listing is of, in one line.
fn headline(table: &Table) -> String {
    let Settings { letters, k, mirror } = table.settings();
    format!("{}, k {k}, {}: {}", String::from_utf8_lossy(letters), mirror.name(), table.summary())
}

/// How many classes have each count, for the counts above 0 that occur.
fn spectrum(table: &Table) -> BTreeMap<u32, u64> {
    let mut spectrum = BTreeMap::new();
    for &count in table.counts().iter().filter(|&&count| count > 0) {
        *spectrum.entry(count).or_default() += 1;
    }
    spectrum
}

fn most_bars(arguments: &Arguments) -> Result<usize, Failure> {
    match arguments.number("bars").map_err(Failure::Said)?.unwrap_or(40) {
        most @ 2..=MOST_BARS => Ok(most),
        most => Err(Failure::said(format!("--bars {most} is not from 2 to {MOST_BARS}"))),
    }
}

pub fn run(arguments: &Arguments) -> Outcome {
    let [operand] = &arguments.operands[..] else {
        return Err(Failure::said(
            "give one listing, or - for standard input; see wontirje histogram --help",
        ));
    };
    let most = most_bars(arguments)?;
    let svg = new_file(arguments, "svg", "give the chart a name, as in --svg counts.svg")?;
    let table = load(operand, Given::default(), &mut Vec::new())?;
    let (headline, spectrum) = (headline(&table), spectrum(&table));
    let grouped = bars::grouped(&spectrum, most);
    if let Some(path) = svg {
        let chart = svg::chart(&name(operand), &headline, &grouped);
        to_new_file(path, &mut |to| to.write_all(chart.as_bytes()))?;
    }
    let shown: Vec<Bar> = if arguments.has("each") { bars::each(&spectrum) } else { grouped };
    to_stdout(ExitCode::SUCCESS, &mut |to| {
        writeln!(to, "{headline}")?;
        bars::write(&shown, to)
    })?;
    Ok(ExitCode::SUCCESS)
}
