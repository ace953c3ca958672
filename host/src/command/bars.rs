//! How many classes have each count, as bars: one for each count, or for ranges of counts of equal width.

use std::collections::BTreeMap;
use std::io::{self, Write};

/// The classes with a count from `from` to `to`, or from `from` on.
pub struct Bar {
    pub from: u64,
    pub to: Option<u64>,
    pub classes: u64,
}

impl Bar {
    pub fn label(&self) -> String {
        match self.to {
            Some(to) if to == self.from => to.to_string(),
            Some(to) => format!("{}-{to}", self.from),
            None => format!("{}+", self.from),
        }
    }
}

/// A bar for each count that some class has.
pub fn each(spectrum: &BTreeMap<u32, u64>) -> Vec<Bar> {
    let bar = |(&count, &classes): (&u32, &u64)| Bar { from: count.into(), to: Some(count.into()), classes };
    spectrum.iter().map(bar).collect()
}

/// The lowest count that 99 of 100 classes do not exceed.
fn most_reach(spectrum: &BTreeMap<u32, u64>) -> u64 {
    let all: u64 = spectrum.values().sum();
    let mut below = 0;
    for (&count, &classes) in spectrum {
        below += classes;
        if 100 * below >= 99 * all {
            return count.into();
        }
    }
    0
}

/// The next width for the eye: 1, 2, 5, 10, 20, 25, 50, 100 and so on.
fn round_width(least: u64) -> u64 {
    let mut power = 1;
    loop {
        for width in [power, 2 * power, 5 * power / 2, 5 * power] {
            if width >= least {
                return width;
            }
        }
        power *= 10;
    }
}

/// At most so many bars (2 or more), from count 1 on. Where the highest count is above that, a bar may stand
/// for several counts, so that `most - 1` bars are enough for 99 of 100 classes; where higher counts are left
/// after `most` bars, the last one takes them, since a few repeats may have counts a thousand times those of
/// the rest.
pub fn grouped(spectrum: &BTreeMap<u32, u64>, most: usize) -> Vec<Bar> {
    let most = most as u64;
    let highest = spectrum.keys().next_back().map_or(0, |&count| u64::from(count));
    let width = if highest <= most { 1 } else { round_width(most_reach(spectrum).div_ceil(most - 1)) };
    let count = most.min(highest.div_ceil(width));
    let mut bars: Vec<Bar> =
        (0..count).map(|i| Bar { from: i * width + 1, to: Some((i + 1) * width), classes: 0 }).collect();
    for (&count, &classes) in spectrum {
        let place = ((u64::from(count) - 1) / width).min(most - 1);
        bars[place as usize].classes += classes;
    }
    if let Some(last) = bars.last_mut().filter(|last| last.to < Some(highest)) {
        last.to = None;
    }
    bars
}

/// The columns of the longest bar.
const COLUMNS: u64 = 50;

/// A bar of eighths of a column; a number above 0 has at least one.
fn drawn(classes: u64, highest: u64) -> String {
    if classes == 0 {
        return String::new();
    }
    let eighths = (classes as u128 * u128::from(8 * COLUMNS) / u128::from(highest)).max(1) as usize;
    let rest = ["", "▏", "▎", "▍", "▌", "▋", "▊", "▉"][eighths % 8];
    "█".repeat(eighths / 8) + rest
}

/// Writes one line a bar: count, classes, bar. With --each there may be millions, so that no text is made of
/// them all.
pub fn write(bars: &[Bar], to: &mut impl Write) -> io::Result<()> {
    let wide = bars.iter().map(|bar| bar.label().len()).max().unwrap_or(0).max("count".len());
    let highest = bars.iter().map(|bar| bar.classes).max().unwrap_or(0);
    let numbers = highest.to_string().len().max("classes".len());
    writeln!(to, "{:>wide$}  {:>numbers$}", "count", "classes")?;
    for bar in bars {
        let (label, drawn) = (bar.label(), drawn(bar.classes, highest));
        let line = format!("{label:>wide$}  {:>numbers$}  {drawn}", bar.classes);
        writeln!(to, "{}", line.trim_end())?;
    }
    Ok(())
}
