//! `wontirje histogram`: bars by hand for small listings, groups of counts for wide ones, and the chart. What
//! is no listing is in listings.rs.

mod run;

use run::{run, run_with, whole_listing, Folder};
use std::fs;
use wontirje::Settings;

const SURVEY: &str = "(survey (letters ACGT) (k 2) (mirror complement) (classes 10))\n";
const COUNTS: &str = "(count CG 1)\n(count GC 1)\n(count AG 2)\n(count AC 4)\n(total 8)\n";

/// A listing of words of DNA in which the first classes have these counts, for the smallest k that has so
/// many.
fn listing(counts: &[u32]) -> Vec<u8> {
    let places = |settings: &Settings| settings.table_places().expect("a table");
    let settings = (1..).map(Settings::dna).find(|settings| places(settings) >= counts.len()).expect("a k");
    let mut table = vec![0; places(&settings)];
    table[..counts.len()].copy_from_slice(counts);
    whole_listing(&settings, &table)
}

#[test]
fn bars_by_hand() {
    let right = "ACGT, k 2, complement: 4 of 10 classes have a count, total 8\ncount  classes\n    \
        1        2  ██████████████████████████████████████████████████\n    \
        2        1  █████████████████████████\n    3        0\n    \
        4        1  █████████████████████████\n";
    let folder = Folder::new();
    let whole = format!("{SURVEY}{COUNTS}");
    let file = folder.file("counts.txt", whole.as_bytes());
    let by_name = run(&["histogram", file.to_str().expect("a name")]);
    assert_eq!((by_name.status, by_name.text(), &by_name.err[..]), (0, right, ""));
    let run = run_with(&["histogram", "-"], whole.as_bytes());
    assert_eq!((run.status, run.text(), &run.err[..]), (0, right, ""));
    // With --each the counts that no class has are left out.
    let run = run_with(&["histogram", "--each", "-"], whole.as_bytes());
    assert_eq!((run.status, run.text()), (0, &right.replace("    3        0\n", "")[..]));
    let run = run_with(&["histogram", "-"], format!("{SURVEY}(total 0)\n").as_bytes());
    let none = "ACGT, k 2, complement: 0 of 10 classes have a count, total 0\ncount  classes\n";
    assert_eq!((run.status, run.text()), (0, none));
}

/// A listing with an odd number of letters under complement (document 02, K10).
#[test]
fn bars_of_an_odd_alphabet() {
    let listing = "(survey (letters ABC) (k 1) (mirror complement) (classes 2))\n\
        (count B 1)\n(count A 2)\n(total 3)\n";
    let right = "ABC, k 1, complement: 2 of 2 classes have a count, total 3\ncount  classes\n    \
        1        1  ██████████████████████████████████████████████████\n    \
        2        1  ██████████████████████████████████████████████████\n";
    let run = run_with(&["histogram", "-"], listing.as_bytes());
    assert_eq!((run.status, run.text(), &run.err[..]), (0, right, ""));
}

/// Document 02, K6: what `wontirje count` prints is read without a word on standard error. The numbers of
/// classes are by hand.
#[test]
fn listings_that_count_prints() {
    let cases = [
        ("ACGT", "1", "complement", 2),
        ("ACGT", "2", "complement", 10),
        ("ACGT", "2", "reversal", 10),
        ("ACGT", "3", "complement", 32),
        ("ACGT", "3", "reversal", 40),
        ("ACGT", "12", "complement", 8_390_656),
        ("ABC", "3", "complement", 15),
        ("ABC", "2", "reversal", 6),
        ("AT", "25", "complement", 16_777_216),
        ("ACDEFGHIKLMNPQRT", "6", "reversal", 8_390_656),
    ];
    let file = b">a\nACGTTATTAAATTTATATATTATAATAATTA\n";
    for (letters, k, mirror, classes) in cases {
        let settings = ["--letters", letters, "--k", k, "--mirror", mirror];
        let counted = run_with(&[&["count"], &settings[..], &["-"]].concat(), file);
        let survey = format!("(survey (letters {letters}) (k {k}) (mirror {mirror}) (classes {classes}))");
        assert_eq!((counted.status, counted.text().lines().next()), (0, Some(&survey[..])));
        let run = run_with(&["histogram", "-"], &counted.out);
        assert_eq!((run.status, &run.err[..]), (0, ""), "{survey}");
        assert!(run.text().contains(&format!(" of {classes} classes have a count, ")), "{}", run.text());
    }
}

/// A bar of few classes beside a long one is still seen; one of none is not.
#[test]
fn the_shortest_bar() {
    let mut counts = vec![1; 100_000];
    counts.push(3);
    let run = run_with(&["histogram", "-"], &listing(&counts));
    let lines: Vec<&str> = run.text().lines().skip(3).collect();
    assert_eq!(lines, ["    2        0", "    3        1  ▏"]);
}

/// The labels and numbers of the bars.
fn rows(arguments: &[&str], counts: &[u32]) -> Vec<(String, u64)> {
    let run = run_with(arguments, &listing(counts));
    assert_eq!(run.status, 0, "{}", run.err);
    let row = |line: &str| {
        let mut columns = line.split_whitespace();
        let label = columns.next().expect("a label").to_string();
        (label, columns.next().expect("a number").parse().expect("a number"))
    };
    run.text().lines().skip(2).map(row).collect()
}

fn labels(rows: &[(String, u64)]) -> Vec<&str> {
    rows.iter().map(|(label, _)| &label[..]).collect()
}

/// Counts from 1 to 100, one class each: every class is in one bar.
#[test]
fn counts_in_groups() {
    let counts: Vec<u32> = (1..=100).collect();
    let found = rows(&["histogram", "-"], &counts);
    assert_eq!(
        (found.len(), found[0].clone(), found[19].clone()),
        (20, ("1-5".into(), 5), ("96-100".into(), 5))
    );
    let found = rows(&["histogram", "--bars", "100", "-"], &counts);
    assert_eq!((found.len(), found[99].clone()), (100, ("100".into(), 1)));
    let found = rows(&["histogram", "--bars", "2", "-"], &counts);
    assert_eq!(labels(&found), ["1-100"]);
    assert_eq!(rows(&["histogram", "--each", "--bars", "2", "-"], &counts).len(), 100);
}

/// A repeat with a count far above the rest does not squeeze the rest into one bar: it goes to the last one.
#[test]
fn a_few_high_counts() {
    let mut counts: Vec<u32> = (0..1000).map(|place| 1 + place % 30).collect();
    counts.push(4_294_967_295);
    let found = rows(&["histogram", "--bars", "31", "-"], &counts);
    assert_eq!((found.len(), found[0].clone(), found[30].clone()), (31, ("1".into(), 34), ("31+".into(), 1)));
    assert_eq!(found.iter().map(|(_, classes)| classes).sum::<u64>(), 1001);
    let found = rows(&["histogram", "--bars", "4", "-"], &counts);
    assert_eq!(labels(&found), ["1-10", "11-20", "21-30", "31+"]);
    // Just 99 of 100 classes are in the bars before the last.
    let counts = [vec![1; 96], vec![200; 3], vec![10_000]].concat();
    let right =
        [("1-100", 96), ("101-200", 3), ("201+", 1)].map(|(label, classes)| (String::from(label), classes));
    assert_eq!(rows(&["histogram", "--bars", "3", "-"], &counts), right);
    let found = rows(&["histogram", "-"], &[4_294_967_295]);
    assert_eq!(found.iter().filter(|(_, classes)| *classes > 0).count(), 1);
}

/// The chart of four classes with count 1, two with 2 and one with 4, from a file with this name.
fn chart(folder: &Folder, name: &str) -> String {
    let (file, svg) = (folder.file(name, &listing(&[1, 1, 1, 1, 2, 2, 4])), folder.path("c.svg"));
    let run = run(&["histogram", "--svg", svg.to_str().expect("a name"), file.to_str().expect("a name")]);
    assert_eq!(run.status, 0, "{}", run.err);
    fs::read_to_string(&svg).expect("the chart")
}

/// The lines of its bars.
fn bars(chart: &str) -> Vec<&str> {
    chart.lines().filter(|line| line.contains("<title>count ")).collect()
}

/// The number that an attribute has.
fn number(line: &str, name: &str) -> f64 {
    let (_, rest) = line.split_once(&format!(" {name}=\"")).expect("an attribute");
    rest.split('"').next().expect("a value").parse().expect("a number")
}

/// The bars of the chart: as many as the text has, as high as their numbers say, inside of the picture.
#[test]
fn the_chart() {
    let folder = Folder::new();
    let chart = chart(&folder, "a & <b>.txt");
    assert!(chart.starts_with("<svg xmlns=\"http://www.w3.org/2000/svg\" ") && chart.ends_with("</svg>\n"));
    assert!(chart.contains("a &amp; &lt;b&gt;.txt") && !chart.contains("<b>"), "{chart}");
    let bars = bars(&chart);
    let heights: Vec<f64> = bars.iter().map(|bar| number(bar, "height")).collect();
    assert_eq!(heights.len(), 4);
    assert!((heights[0] - 2.0 * heights[1]).abs() < 0.1 && (heights[0] - 4.0 * heights[3]).abs() < 0.1);
    assert!(heights[2] == 0.0 && heights[3] > 50.0);
    let ends = bars.iter().map(|bar| number(bar, "y") + number(bar, "height"));
    assert!(ends.clone().all(|end| (end - ends.clone().next().unwrap_or(0.0)).abs() < 0.02), "one base line");
    assert!(bars.windows(2).all(|two| number(two[0], "x") + number(two[0], "width") < number(two[1], "x")));
    assert!(bars[0].contains("<title>count 1, classes 4</title>"));
    assert_eq!(folder.names(), ["a & <b>.txt", "c.svg"]);
}

/// Each bar ends at the line of the scale for its number, and the number stands beside that line, 4 lower.
#[test]
fn the_scale_of_the_chart() {
    let chart = chart(&Folder::new(), "counts.txt");
    let lines: Vec<&str> = chart.lines().filter(|line| line.starts_with("<line ")).collect();
    assert_eq!((lines.len(), bars(&chart).len()), (5, 4));
    for (bar, classes) in bars(&chart).iter().zip([4, 2, 0, 1]) {
        let label = format!("text-anchor=\"end\">{classes}</text>");
        let label = chart.lines().find(|line| line.ends_with(&label)).expect("a number of the scale");
        let top = number(bar, "y");
        assert!((number(lines[classes], "y1") - top).abs() < 0.1, "{classes}: {bar}, {}", lines[classes]);
        assert!((number(label, "y") - 4.0 - top).abs() < 0.1, "{classes}: {bar}, {label}");
    }
}
