//! The oracle: the original Rust, asked case by case, at scalar width but for the twiddles and single stages. It stands in
//! place of the original's crate root.
//!
//! `oracle KIND` prints a record for each case, and `oracle sample KIND` the recorded ones among them: planning and scaling,
//! of twiddles layouts, places, fillings, words and lent, of stages stages, cells and runs, and of spectra forward, inverse, ends
//! and whole. text.rs says what stands in a record. The counts go to standard error.
extern crate alloc;

mod asked;
mod butterflies;
mod draws;
#[allow(dead_code, unused_imports, unused_macros)]
mod fft;
mod lists;
mod planning;
#[allow(dead_code)]
mod rates;
mod rust;
mod scaling;
mod spectra;
mod stages;
mod table;
mod text;
mod twiddles;

use fft::{Complex32, Radix};
use rates::{SampleRate, SampleRateFamily};
use std::io::{stdout, BufWriter, Write};

/// Prints the lines, and says how many there are and how many are refusals.
fn print(kind: &str, lines: impl Iterator<Item = (String, bool)>) -> std::io::Result<()> {
    let mut out = BufWriter::new(stdout().lock());
    let (mut all, mut refused) = (0, 0);
    for (line, is_refused) in lines {
        writeln!(out, "{line}")?;
        all += 1;
        refused += usize::from(is_refused);
    }
    out.flush()?;
    eprintln!("oracle: {kind}: {all} cases, {refused} of them refused");
    Ok(())
}

fn main() -> std::io::Result<()> {
    let words: Vec<String> = std::env::args().skip(1).collect();
    let words: Vec<&str> = words.iter().map(String::as_str).collect();
    let planning = |cases: Vec<planning::Case>| {
        cases
            .into_iter()
            .map(|case| (case.line(), case.is_refused()))
    };
    let scaling = |cases: Vec<scaling::Case>| {
        cases
            .into_iter()
            .map(|case| (case.line(), case.is_refused()))
    };
    let none_refused = |records: Vec<String>| records.into_iter().map(|record| (record, false));
    match words.as_slice() {
        ["planning"] => print("planning", planning(planning::cases())),
        ["scaling"] => print("scaling", scaling(scaling::cases())),
        ["sample", "planning"] => print("recorded planning", planning(planning::sample())),
        ["sample", "scaling"] => print("recorded scaling", scaling(scaling::sample())),
        [kind @ ("layouts" | "places" | "fillings" | "words" | "lent")] => {
            print(kind, none_refused(twiddles::records(kind)))
        }
        ["sample", kind @ ("layouts" | "places" | "fillings" | "words" | "lent")] => {
            print(&format!("recorded {kind}"), none_refused(twiddles::sample(kind)))
        }
        [kind @ ("stages" | "cells" | "runs")] => {
            print(kind, none_refused(stages::records(kind)))
        }
        ["sample", kind @ ("stages" | "cells" | "runs")] => {
            print(&format!("recorded {kind}"), none_refused(stages::sample(kind)))
        }
        [kind @ ("forward" | "inverse" | "ends" | "whole")] => {
            print(kind, none_refused(spectra::records(kind)))
        }
        ["sample", kind @ ("forward" | "inverse" | "ends" | "whole")] => {
            print(&format!("recorded {kind}"), none_refused(spectra::sample(kind)))
        }
        _ => {
            eprintln!("usage: oracle [sample] planning|scaling|layouts|places|fillings|words|lent|stages|cells|runs|forward|inverse|ends|whole");
            std::process::exit(2)
        }
    }
}
