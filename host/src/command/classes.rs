//! `wontirje classes`: the number of classes, and the memory that their table takes, for one k or several.

use crate::arguments::{number, Arguments};
use crate::failure::Outcome;
use crate::output::print;
use crate::survey;
use crate::translate::translate;
use wontirje::{Refusal, Settings};

/// The line of one k.
fn sizes(settings: &Settings) -> Result<String, Refusal> {
    let classes = settings.classes()?;
    let table = match settings.table_places() {
        Ok(places) => format!("table {} bytes", size_of::<u32>() * places),
        Err(_) => String::from("too many for a table"),
    };
    Ok(format!("k {}: {classes} classes, {table}", settings.k))
}

/// Without operands the k of the settings is told, else each k that is given.
pub fn run(arguments: &Arguments) -> Outcome {
    let settings = survey::settings(arguments)?;
    let refused = |refusal| survey::refused(&settings, refusal);
    if arguments.operands.is_empty() {
        let line = sizes(&settings).map_err(refused)?;
        return print(&format!("{line}\n"));
    }
    // Letters are no K's fault: they are judged once, with k = 1, which ground 4 never refuses.
    sizes(&Settings { k: 1, ..settings }).map_err(refused)?;
    translate(arguments, |item| {
        let k = number(item).ok_or("not a k: a number below 2^64 in decimal digits")?;
        sizes(&Settings { k, ..settings }).map_err(|refusal| refusal.to_string())
    })
}
