//! `wontirje count` as a whole process on a test load of 16,777,216 bytes, beside jellyfish and KMC with one
//! thread each in the same run: time, processor time and peak memory. None of them writes its result:
//! `--no-listing`, `--no-write` and `-w`. All are asked for the same counts: canonical words, every count
//! from 1 to 2^32 - 1.

use crate::usage::{ended, own_peak, Taken};
use crate::{median, START};
use std::fs;
use std::path::Path;
use std::process::{Command, Stdio};
use std::time::Instant;

const RUNS: usize = 7;
const BYTES: u64 = 16_777_216;

/// The letters of a test load of one record with so many bytes.
const LETTERS: usize = 16_502_176;

/// The command as `cargo build --release` in host/ leaves it.
const WONTIRJE: &str = concat!(env!("CARGO_MANIFEST_DIR"), "/../target/host/release/wontirje");

/// Time from start to end in seconds, seconds of the processor and peak in bytes.
type Measured = [f64; 3];

/// One run, or why there is none.
fn measured(program: &str, arguments: &[&str]) -> Result<Measured, &'static str> {
    let start = Instant::now();
    let mut command = Command::new(program);
    command.args(arguments).stdin(Stdio::null()).stdout(Stdio::null()).stderr(Stdio::null());
    let child = command.spawn().map_err(|_| "is not there")?;
    let Taken { seconds, peak } = ended(child).ok_or("failed")?;
    Ok([start.elapsed().as_secs_f64(), seconds, peak as f64])
}

/// The median of each number.
fn of_each(runs: &[Result<Measured, &'static str>]) -> Result<Measured, &'static str> {
    let runs: Vec<Measured> = runs.iter().copied().collect::<Result<_, _>>()?;
    Ok([0, 1, 2].map(|which| median(runs.iter().map(|run| run[which]).collect())))
}

/// The medians of several programs, whose runs take turns.
fn medians(programs: &[(&str, Vec<&str>)]) -> Vec<Result<Measured, &'static str>> {
    let mut found = vec![Vec::new(); programs.len()];
    for _ in 0..RUNS {
        for ((program, arguments), found) in programs.iter().zip(&mut found) {
            found.push(measured(program, arguments));
        }
    }
    found.iter().map(|runs| of_each(runs)).collect()
}

fn shown([time, processor, peak]: Measured) -> String {
    format!("{time:.3} s, processor {processor:.3} s, {:.1} MB", peak / 1e6)
}

fn print_at(k: usize, file: &str, folder: &str) {
    let (k_text, kmc_k, output) = (k.to_string(), format!("-k{k}"), format!("{folder}/out"));
    let jellyfish = ["count", "-m", &k_text, "-s", "16M", "-t", "1", "-C", "--no-write", file];
    // 2 GB, the least that KMC lets itself be held to.
    let kmc = [&kmc_k[..], "-t1", "-m2", "-ci1", "-cs4294967295", "-fm", "-w", file, &output, folder];
    let ours = ["count", "--k", &k_text, "--no-listing", file];
    let programs = [(WONTIRJE, ours.to_vec()), ("jellyfish", jellyfish.to_vec()), ("kmc", kmc.to_vec())];
    let found = medians(&programs);
    let Ok(ours) = found[0] else {
        return println!("k {k}: {WONTIRJE} does not run: build it in host/ with cargo build --release");
    };
    println!("k {k}: wontirje {}", shown(ours));
    for ((name, _), found) in programs.iter().zip(found).skip(1) {
        match found {
            Err(why) => println!("k {k}: {name} {why}, left out"),
            Ok(theirs) => {
                let [time, processor, peak] = [0, 1, 2].map(|which| ours[which] / theirs[which]);
                let ratios = format!("time {time:.2}, processor {processor:.2}, memory {peak:.2}");
                println!("k {k}: {name} {}; wontirje / {name}: {ratios}", shown(theirs));
            }
        }
    }
}

/// The command writes the test load: this process must stay small, since the system counts its memory as part
/// of that of the programs that it starts. Gives whether the file is there.
fn has_written(file: &Path) -> bool {
    let mut command = Command::new(WONTIRJE);
    command.arg("generate").arg(format!("--start={START}")).arg("--records=1");
    command.arg(format!("--length={LETTERS}")).arg("--output").arg(file);
    command.status().is_ok_and(|status| status.success())
}

pub fn print() {
    let folder = std::env::temp_dir().join(format!("wontirje-bench-{}", std::process::id()));
    fs::create_dir_all(&folder).expect("a folder for the file");
    let file = folder.join("drawn.fa");
    if has_written(&file) {
        assert_eq!(fs::metadata(&file).expect("the file").len(), BYTES, "the file has another length");
        println!(
            "whole processes on {BYTES} bytes, median of {RUNS} runs, one thread each, no result written"
        );
        for k in [11, 12] {
            print_at(k, &file.to_string_lossy(), &folder.to_string_lossy());
        }
        assert!(own_peak() < 9_000_000, "this process is too large to measure others");
    } else {
        println!("{WONTIRJE} writes no test load: build it in host/ with cargo build --release");
    }
    fs::remove_dir_all(&folder).expect("the folder goes away again");
}
