//! Stages: what the transcribed kernels and the original's driver make of cells and lent twiddles, and the recorded ones among them.
use crate::asked;
use crate::butterflies::butterfly;
use crate::draws::{lines, seed, sum, Draws, LENDINGS, TURNS};
use crate::fft::stockham_autosort::OutputLocation;
use crate::fft::{Complex32, Forward, RadixFFT};
use crate::lists::{product, Dice, RADICES};
use crate::rust::radices;
use crate::text::{list, number, word, LENT};
use crate::twiddles::{lists, stages, Stage, WIDTHS};

/// The kinds of cells: near 1, extreme, with zeros of both signs, and subnormal.
const CELLS: [char; 4] = ['N', 'E', 'Z', 'S'];

/// The kinds whose runs stay within what a stage takes.
const RUN: [char; 3] = ['N', 'Z', 'S'];

/// The largest half of which every word is given.
const SMALL: usize = 20;

/// A stage of a plan, with the original's twiddles for a width.
struct Group {
    list: Vec<u8>,
    half: usize,
    index: usize,
    stage: Stage,
    width: usize,
    own: Vec<Complex32>,
}

/// The stages of a list for a width.
fn of_list(list: &[u8], width: usize) -> Vec<Group> {
    let fft = asked::with(width, false, || RadixFFT::<Forward>::new(radices(list)));
    let mut rest = fft.stockham_twiddles.as_slice();
    let mut groups = Vec::new();
    for (index, stage) in stages(fft.n2, &fft.factors).into_iter().enumerate() {
        let count = if index == 0 {
            0
        } else {
            stage.iterations * (stage.radix - 1)
        };
        let (own, others) = rest.split_at(count);
        rest = others;
        groups.push(Group {
            list: list.to_vec(),
            half: fft.n2,
            index,
            stage,
            width,
            own: own.to_vec(),
        });
    }
    assert!(rest.is_empty(), "twiddles are left over");
    groups
}

/// All stages: every one of every length that can be planned, for every width.
fn groups() -> Vec<Group> {
    let mut all = Vec::new();
    for list in lists() {
        for width in WIDTHS {
            all.extend(of_list(&list, width));
        }
    }
    all
}

/// A stage with its cells and the twiddles lent to it.
struct Case {
    lending: char,
    kind: char,
    seed: u32,
    input: Vec<Complex32>,
    twiddles: Vec<Complex32>,
    output: Vec<Complex32>,
}

impl Group {
    /// The stage's list, its number, the width and how many words its twiddles have.
    fn asks(&self) -> String {
        let columns = [
            list(&self.list, LENT),
            number(self.index, 1),
            number(self.width, 1),
            number(2 * self.own.len(), 4),
        ];
        columns.join(" ")
    }

    /// A number of its own for each stage and width.
    fn name(&self) -> u64 {
        ((product(&self.list) * 8 + self.index) * 8 + self.width) as u64
    }

    /// What the kernel makes of cells of a kind and of the lent twiddles.
    fn case(&self, lending: char, kind: char, seed: u32) -> Case {
        let mut draws = Draws::from(seed);
        let input = draws.numbers(kind, self.half);
        let twiddles = match lending {
            'R' => self.own.clone(),
            _ => draws.numbers(TURNS, self.own.len()),
        };
        let mut output = vec![Complex32::zero(); self.half];
        asked::with(self.width, false, || {
            let Stage { radix, stride, .. } = self.stage;
            butterfly(radix, &input, &mut output, &twiddles, stride)
        });
        Case {
            lending,
            kind,
            seed,
            input,
            twiddles,
            output,
        }
    }

    /// All cases: both lendings with every kind of cells.
    fn cases(&self) -> Vec<Case> {
        let mut dice = Dice(self.name());
        let mut all = Vec::new();
        for lending in LENDINGS {
            for kind in CELLS {
                all.push(self.case(lending, kind, seed(&mut dice)));
            }
        }
        all
    }

    /// The lines of all cases by their checksums, with the original's twiddles in front.
    fn record(&self) -> String {
        let mut all = vec![self.asks()];
        all.extend(lines(&self.own));
        all.extend(self.cases().iter().map(Case::line));
        all.join("\n")
    }

    /// The lines of a case's words: the cells, the twiddles, and what the stage makes of them.
    fn whole(&self, case: &Case) -> String {
        let mut all = vec![self.asks()];
        for numbers in [&case.input, &case.twiddles, &case.output] {
            all.extend(lines(numbers));
        }
        all.join("\n")
    }
}

impl Case {
    /// The line of a case.
    fn line(&self) -> String {
        let columns = [
            self.lending.to_string(),
            self.kind.to_string(),
            word(Some(&self.seed)),
            sum(&self.output),
        ];
        columns.join(" ")
    }
}

/// A run of the original's driver on cells of a kind, at scalar width.
fn run(lent: &[u8], kind: char) -> String {
    let fft = RadixFFT::<Forward>::new(radices(lent));
    let seed = seed(&mut Dice(product(lent) as u64));
    let mut cells = Draws::from(seed).numbers(kind, 2 * fft.n2);
    cells.resize(fft.scratchpad_size(), Complex32::zero());
    let buffer = match fft.process_forward_complex(&mut cells) {
        OutputLocation::Data => 0,
        OutputLocation::Scratchpad => 1,
    };
    let columns = [
        list(lent, LENT),
        kind.to_string(),
        word(Some(&seed)),
        number(buffer, 1),
        sum(&cells[..fft.n2]),
        sum(&cells[fft.n2..2 * fft.n2]),
    ];
    let mut all = vec![columns.join(" ")];
    all.extend(lines(&fft.stockham_twiddles));
    all.join("\n")
}

/// The runs of lists.
fn runs(lists: &[Vec<u8>]) -> Vec<String> {
    let of = |list: &Vec<u8>| RUN.map(|kind| run(list, kind));
    lists.iter().flat_map(of).collect()
}

/// The cases of small stages, all of them or every so many.
fn whole(step: usize) -> Vec<String> {
    let mut all = Vec::new();
    for group in groups().iter().filter(|group| group.half <= SMALL) {
        all.extend(group.cases().iter().map(|case| group.whole(case)));
    }
    all.into_iter().step_by(step).collect()
}

/// The records of a kind, each with all its lines.
pub fn records(kind: &str) -> Vec<String> {
    match kind {
        "stages" => groups().iter().map(Group::record).collect(),
        "cells" => whole(1),
        _ => runs(&lists()),
    }
}

/// The lengths whose stages and runs are recorded.
const NAMED: [usize; 15] = [2, 4, 6, 8, 10, 12, 14, 16, 24, 30, 40, 56, 70, 112, 128];

/// The recorded ones: all stages and runs of the lengths named, and some of the small stages whole.
pub fn sample(kind: &str) -> Vec<String> {
    let is_named = |list: &[u8]| NAMED.contains(&product(list));
    match kind {
        "stages" => {
            let mut kept = groups();
            kept.retain(|group| is_named(&group.list));
            check_spread(&kept);
            kept.iter().map(Group::record).collect()
        }
        "cells" => whole(11),
        _ => {
            let mut kept = lists();
            kept.retain(|list| is_named(list));
            runs(&kept)
        }
    }
}

/// Ends with a failure where the recorded stages miss a radix, first or later, at a width.
fn check_spread(kept: &[Group]) {
    for width in WIDTHS {
        for radix in RADICES.map(usize::from) {
            // planning leaves one 2 at most, and in front
            for is_first in [true, false] {
                let is = |group: &Group| {
                    group.width == width
                        && group.stage.radix == radix
                        && (group.index == 0) == is_first
                };
                assert!(
                    kept.iter().any(is) || radix == 2 && !is_first,
                    "no recorded stage of radix {radix} at width {width}"
                );
            }
        }
    }
}
