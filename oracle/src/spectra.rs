//! Spectra: what the original's transforms, and the steps at their ends alone, make of samples, bins and lent twiddles, and the
//! recorded ones among them. They are the original's own at scalar width, over the transcribed kernels.
use crate::asked;
use crate::butterflies::place;
use crate::draws::{
    floats, lines, lines_of_floats, numbers, seed, sum, sum_of_floats, Draws, LENDINGS, TURNS,
};
use crate::fft::{Complex32, Forward, Inverse, RadixFFT};
use crate::lists::{product, Dice, RADICES};
use crate::rust::{bytes, radices};
use crate::text::{list, number, word, LENT};
use crate::twiddles::{lists, stages, words, Stage, WIDTHS};

/// The kinds of samples: near 1, extreme, the largest alone, with zeros of both signs, zeros alone, small whole numbers, and
/// subnormal.
const SAMPLES: [char; 7] = ['N', 'L', 'M', 'Z', 'O', 'W', 'S'];

/// The same kinds of bins and of the cells of the steps at the ends.
const BINS: [char; 7] = ['N', 'E', 'B', 'Z', 'O', 'W', 'S'];

/// The kind of what output and scratch hold beforehand.
const BEFORE: char = 'N';

/// How many cases of a kind and a lending are asked.
const SEEDS: usize = 3;

/// How many words and cells more than needed are lent at most.
const MORE: usize = 9;

/// The lengths of which every word is given.
const SMALL: [usize; 5] = [2, 4, 6, 8, 12];

/// The directions.
const DIRECTIONS: [char; 2] = ['F', 'I'];

/// The original's transform of a direction.
enum Transform {
    Forward(RadixFFT<Forward>),
    Inverse(RadixFFT<Inverse>),
}

impl Transform {
    /// The transform of a list in a direction.
    fn new(list: &[u8], direction: char) -> Transform {
        match direction {
            'F' => Transform::Forward(RadixFFT::new(radices(list))),
            _ => Transform::Inverse(RadixFFT::new(radices(list))),
        }
    }

    /// Puts other twiddles in place of its own.
    fn lend(&mut self, stage: &[Complex32], end: &[Complex32]) {
        match self {
            Transform::Forward(fft) => {
                fft.stockham_twiddles = stage.to_vec();
                fft.real_complex_expansion_twiddles = end.to_vec();
            }
            Transform::Inverse(fft) => {
                fft.stockham_twiddles = stage.to_vec();
                fft.complex_real_reduction_twiddles = end.to_vec();
            }
        }
    }

    /// Runs it.
    fn run(&self, input: &[f32], output: &mut [f32], scratch: &mut [Complex32]) {
        match self {
            Transform::Forward(fft) => {
                let mut bins = numbers(output);
                fft.process(input, &mut bins, scratch);
                output.copy_from_slice(&floats(&bins));
            }
            Transform::Inverse(fft) => fft.process(&numbers(input), output, scratch),
        }
    }

    /// Runs the step at its end alone, in place on all cells.
    fn run_end(&self, cells: &mut [Complex32]) {
        match self {
            Transform::Forward(fft) => {
                let stages_made = cells[..fft.n2].to_vec();
                fft.postprocess_fft(&stages_made, cells)
            }
            Transform::Inverse(fft) => fft.preprocess_ifft(cells),
        }
    }
}

/// A length in a direction, with the original's twiddles as packed for width 1.
struct Length {
    list: Vec<u8>,
    direction: char,
    n: usize,
    half: usize,
    factors: Vec<u8>,
    stages: Vec<Stage>,
    stage: Vec<Complex32>,
    end: Vec<Complex32>,
}

impl Length {
    /// The length of a list in a direction.
    fn new(list: &[u8], direction: char) -> Length {
        let fft = |width| asked::with(width, false, || RadixFFT::<Forward>::new(radices(list)));
        let own = fft(1);
        let length = Length {
            list: list.to_vec(),
            direction,
            n: own.n,
            half: own.n2,
            factors: bytes(&own.factors),
            stages: stages(own.n2, &own.factors),
            stage: own.stockham_twiddles,
            end: match direction {
                'F' => own.real_complex_expansion_twiddles,
                _ => own.complex_real_reduction_twiddles,
            },
        };
        for width in WIDTHS {
            let (here, there) = (length.packed(&length.stage, width), fft(width));
            let there = there.stockham_twiddles;
            assert!(
                here.iter().map(words).eq(there.iter().map(words)),
                "the original packs twiddles otherwise"
            );
        }
        length
    }

    /// Twiddles as packed for width 1, packed for a width.
    fn packed(&self, twiddles: &[Complex32], width: usize) -> Vec<Complex32> {
        let mut all = twiddles.to_vec();
        let mut start = 0;
        for stage in self.stages.iter().skip(1) {
            let (m, r) = (stage.iterations, stage.radix);
            for i in 0..m {
                for k in 1..r {
                    all[start + place(m, r, width, i, k)] = twiddles[start + place(m, r, 1, i, k)];
                }
            }
            start += m * (r - 1);
        }
        all
    }

    /// The kinds of what its transform reads.
    fn kinds(&self) -> [char; 7] {
        match self.direction {
            'F' => SAMPLES,
            _ => BINS,
        }
    }

    /// How many words its transform reads, and how many it writes with so many more.
    fn sizes(&self, more: usize) -> (usize, usize) {
        match self.direction {
            'F' => (self.n, 2 * (self.half + 1)),
            _ => (2 * (self.half + 1), self.n + more),
        }
    }

    /// A number of its own for each length and direction.
    fn name(&self) -> u64 {
        (2 * self.n + usize::from(self.direction == 'I')) as u64
    }

    /// The twiddles lent: its own, or the next that are drawn.
    fn lent(&self, lending: char, draws: &mut Draws) -> (Vec<Complex32>, Vec<Complex32>) {
        match lending {
            'R' => (self.stage.clone(), self.end.clone()),
            _ => {
                let stage = draws.numbers(TURNS, self.stage.len());
                (stage, draws.numbers(TURNS, self.end.len()))
            }
        }
    }

    /// What its transform makes of words of a kind and of the lent twiddles.
    fn case(&self, transform: &mut Transform, lending: char, kind: char, dice: &mut Dice) -> Case {
        let (seed, more) = (seed(dice), dice.below(MORE + 1));
        let mut draws = Draws::from(seed);
        let (stage, end) = self.lent(lending, &mut draws);
        let (reads, writes) = self.sizes(more);
        let input = draws.floats(kind, reads);
        let mut output = draws.floats(BEFORE, writes);
        let mut scratch = draws.numbers(BEFORE, 3 * self.n + more);
        let before = (output.clone(), scratch.clone());
        transform.lend(&stage, &end);
        transform.run(&input, &mut output, &mut scratch);
        assert!(
            output
                .iter()
                .chain(&floats(&scratch))
                .all(|x| x.is_finite()),
            "a number is not finite"
        );
        Case {
            lending,
            kind,
            seed,
            more,
            input,
            stage,
            end,
            before,
            after: (output, scratch),
        }
    }

    /// So many cases of both lendings with every kind.
    fn cases(&self, seeds: usize) -> Vec<Case> {
        let mut dice = Dice(self.name());
        let mut transform = Transform::new(&self.list, self.direction);
        let mut all = Vec::new();
        for _ in 0..seeds {
            for lending in LENDINGS {
                for kind in self.kinds() {
                    all.push(self.case(&mut transform, lending, kind, &mut dice));
                }
            }
        }
        all
    }

    /// The lines of the transform by checksums, with the original's twiddles in front.
    fn record(&self) -> String {
        let columns = [
            list(&self.list, LENT),
            number(2 * self.stage.len(), 5),
            number(2 * self.end.len(), 4),
        ];
        let mut all = vec![columns.join(" ")];
        all.extend(lines(&self.stage));
        all.extend(lines(&self.end));
        all.extend(self.cases(SEEDS).iter().map(Case::line));
        all.join("\n")
    }

    /// The line of the step at its transform's end alone, of cells of a kind.
    fn end_line(
        &self,
        transform: &mut Transform,
        lending: char,
        kind: char,
        dice: &mut Dice,
    ) -> String {
        let seed = seed(dice);
        let mut draws = Draws::from(seed);
        let end = match lending {
            'R' => self.end.clone(),
            _ => draws.numbers(TURNS, self.end.len()),
        };
        let mut cells = draws.numbers(kind, self.half + 1);
        transform.lend(&[], &end);
        transform.run_end(&mut cells);
        let columns = [
            lending.to_string(),
            kind.to_string(),
            word(Some(&seed)),
            sum(&cells),
        ];
        columns.join(" ")
    }

    /// The lines of the step at the end alone by checksums, with the original's twiddles in front.
    fn end_record(&self) -> String {
        let columns = [
            list(&self.list, LENT),
            self.direction.to_string(),
            number(2 * self.end.len(), 4),
        ];
        let mut all = vec![columns.join(" ")];
        all.extend(lines(&self.end));
        let mut dice = Dice(self.name());
        let mut transform = Transform::new(&self.list, self.direction);
        for _ in 0..SEEDS {
            for lending in LENDINGS {
                for kind in BINS {
                    all.push(self.end_line(&mut transform, lending, kind, &mut dice));
                }
            }
        }
        all.join("\n")
    }

    /// The lines of a case's words at a width: what is lent, and what output and scratch hold before and after.
    fn whole(&self, case: &Case, width: usize) -> String {
        let columns = [
            list(&self.list, LENT),
            self.direction.to_string(),
            number(width, 1),
            number(case.more, 1),
            number(2 * self.stage.len(), 5),
            number(2 * self.end.len(), 4),
        ];
        let mut all = vec![columns.join(" ")];
        all.extend(lines_of_floats(&case.input));
        all.extend(lines(&self.packed(&case.stage, width)));
        all.extend(lines(&case.end));
        for (output, scratch) in [&case.before, &case.after] {
            all.extend(lines_of_floats(output));
            all.extend(lines(scratch));
        }
        all.join("\n")
    }
}

/// A transform with all that is lent to it, and with what output and scratch hold before and after.
struct Case {
    lending: char,
    kind: char,
    seed: u32,
    more: usize,
    input: Vec<f32>,
    stage: Vec<Complex32>,
    end: Vec<Complex32>,
    before: (Vec<f32>, Vec<Complex32>),
    after: (Vec<f32>, Vec<Complex32>),
}

impl Case {
    /// The line of a case.
    fn line(&self) -> String {
        let columns = [
            self.lending.to_string(),
            self.kind.to_string(),
            word(Some(&self.seed)),
            number(self.more, 1),
            sum_of_floats(&self.after.0),
            sum(&self.after.1),
        ];
        columns.join(" ")
    }
}

/// The cases of small lengths at every width, all of them or every so many.
fn whole(step: usize) -> Vec<String> {
    let mut all = Vec::new();
    for list in lists().iter().filter(|list| SMALL.contains(&product(list))) {
        for direction in DIRECTIONS {
            let length = Length::new(list, direction);
            for width in WIDTHS {
                let cases = length.cases(1);
                all.extend(cases.iter().map(|case| length.whole(case, width)));
            }
        }
    }
    all.into_iter().step_by(step).collect()
}

/// The records of a kind of some lists.
fn of_lists(kind: &str, lists: &[Vec<u8>]) -> Vec<String> {
    let of = |direction| {
        let length = move |list: &Vec<u8>| Length::new(list, direction);
        lists.iter().map(length)
    };
    match kind {
        "forward" => of('F').map(|length| length.record()).collect(),
        "inverse" => of('I').map(|length| length.record()).collect(),
        _ => {
            let both = of('F').chain(of('I'));
            both.map(|length| length.end_record()).collect()
        }
    }
}

/// The records of a kind, each with all its lines.
pub fn records(kind: &str) -> Vec<String> {
    match kind {
        "whole" => whole(1),
        _ => of_lists(kind, &lists()),
    }
}

/// The lengths that are recorded.
const NAMED: [usize; 20] = [
    2, 4, 6, 8, 10, 12, 14, 16, 24, 30, 40, 56, 70, 112, 128, 324, 588, 640, 972, 2916,
];

/// The recorded ones: all cases of the lengths named, and some of those with every word.
pub fn sample(kind: &str) -> Vec<String> {
    match kind {
        "whole" => whole(5),
        _ => {
            let mut kept = lists();
            kept.retain(|list| NAMED.contains(&product(list)));
            check_spread(&kept);
            of_lists(kind, &kept)
        }
    }
}

/// Ends with a failure where the recorded lengths miss a count of stages, or a radix, first or later.
fn check_spread(kept: &[Vec<u8>]) {
    let length = |list: &Vec<u8>| Length::new(list, 'F').factors;
    let factors: Vec<Vec<u8>> = kept.iter().map(length).collect();
    for count in 0..=7 {
        assert!(
            factors.iter().any(|factors| factors.len() == count),
            "no recorded length has {count} stages"
        );
    }
    for radix in RADICES {
        assert!(
            factors
                .iter()
                .any(|factors| factors.first() == Some(&radix)),
            "no recorded length starts with radix {radix}"
        );
        // planning leaves one 2 at most, and in front
        let is_later = |factors: &Vec<u8>| factors.iter().skip(1).any(|later| *later == radix);
        assert!(
            factors.iter().any(is_later) || radix == 2,
            "no recorded length has a later radix {radix}"
        );
    }
}
