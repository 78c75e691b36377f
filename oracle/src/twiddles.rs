//! Twiddles: where the original packs each of them, their words, and the recorded ones among them.
//!
//! The words are held against exact turns at whole quarters alone: there the original rounds cosines and sines of angles
//! that are not whole quarters themselves, and the few words that come of it are listed in `ODD`.
use crate::asked;
use crate::fft::{Complex32, Forward, Radix, RadixFFT};
use crate::lists::{product, LARGEST, RADICES};
use crate::rust::radices;
use crate::text::{list, number, word, LENT};

/// The widths that twiddles are packed for.
pub const WIDTHS: [usize; 3] = [1, 2, 4];

/// The circle of the house table.
const CIRCLE: usize = 6720;

/// The lengths of the hives, whose hosts lend the original's words, since the house table does not serve them.
const HIVES: [usize; 2] = [588, 640];

/// The checksum's modulus, a prime below 2^32.
pub const MODULUS: u64 = 4_294_967_291;

/// The quarter turns 0, 1, 2 and 3: the exact words of each.
const EXACT: [[u32; 2]; 4] = [
    [0x3f80_0000, 0],
    [0, 0xbf80_0000],
    [0xbf80_0000, 0],
    [0, 0x3f80_0000],
];

/// The original's words of the quarter turns.
const ODD: [[u32; 2]; 4] = [
    [0x3f80_0000, 0x8000_0000],
    [0x248d_3132, 0xbf80_0000],
    [0xbf80_0000, 0xa50d_3132],
    [0xa553_c9ca, 0x3f80_0000],
];

/// The checksum of a row of numbers.
pub fn checksum(numbers: impl Iterator<Item = u64>) -> u64 {
    numbers.fold(0, |sum, next| (sum * 31 + next) % MODULUS)
}

/// The prime factors of a length in ascending order, where they are all radices.
fn factored(n: usize) -> Option<Vec<u8>> {
    let (mut rest, mut list) = (n, Vec::new());
    for prime in [2, 3, 5, 7] {
        while rest % usize::from(prime) == 0 {
            rest /= usize::from(prime);
            list.push(prime);
        }
    }
    (rest == 1).then_some(list)
}

/// The lists of the lengths that can be planned, a list for each.
pub fn lists() -> Vec<Vec<u8>> {
    (2..=LARGEST).step_by(2).filter_map(factored).collect()
}

/// The two words of a number.
pub fn words(twiddle: &Complex32) -> [u32; 2] {
    [twiddle.re.to_bits(), twiddle.im.to_bits()]
}

/// A stage.
pub struct Stage {
    pub stride: usize,
    pub radix: usize,
    pub iterations: usize,
}

/// The stages of a plan, the first among them.
pub fn stages(half: usize, factors: &[Radix]) -> Vec<Stage> {
    let mut stride = 1;
    factors
        .iter()
        .map(|factor| {
            let radix = factor.radix();
            let stage = Stage {
                stride,
                radix,
                iterations: half / radix,
            };
            stride *= radix;
            stage
        })
        .collect()
}

/// Where one twiddle stands among those of its stage.
struct Standing {
    stage: usize,
    iteration: usize,
    k: usize,
    place: usize,
}

/// The packing of a length for a width: what stands at each place, in the original's order.
struct Layout {
    list: Vec<u8>,
    width: usize,
    stages: Vec<Stage>,
    standing: Vec<Standing>,
    raw: Vec<Complex32>,
    forward: Vec<Complex32>,
    inverse: Vec<Complex32>,
}

/// The layout of a list for a width, by a trace, with the words of a second run that is not traced.
fn layout(list: &[u8], width: usize) -> Layout {
    let fft = |is_traced| asked::with(width, is_traced, || RadixFFT::<Forward>::new(radices(list)));
    let (traced, plain) = (fft(true), fft(false));
    let stages = stages(plain.n2, &plain.factors);
    let mut standing: Vec<Standing> = Vec::new();
    for code in &traced.stockham_twiddles {
        let (stage, iteration, k) = asked::decoded(code);
        let place = match standing.last() {
            Some(last) if last.stage == stage => last.place + 1,
            _ => 0,
        };
        standing.push(Standing {
            stage,
            iteration,
            k,
            place,
        });
    }
    let made = Layout {
        list: list.to_vec(),
        width,
        stages,
        standing,
        raw: plain.stockham_twiddles,
        forward: plain.real_complex_expansion_twiddles,
        inverse: plain.complex_real_reduction_twiddles,
    };
    made.check();
    made
}

impl Layout {
    /// Twiddle k of an iteration is that of the index, in the circle of so many.
    fn turn(&self, at: &Standing) -> (usize, usize) {
        let stage = &self.stages[at.stage];
        (
            at.iteration % stage.stride * at.k,
            stage.stride * stage.radix,
        )
    }

    /// Ends with a failure where the trace does not explain the run that is not traced, or leaves a twiddle out.
    fn check(&self) {
        assert_eq!(self.standing.len(), self.raw.len(), "places are lost");
        for (at, raw) in self.standing.iter().zip(&self.raw) {
            let (index, circle) = self.turn(at);
            let own = RadixFFT::<Forward>::compute_twiddle_f32(index, circle);
            assert_eq!(words(&own), words(raw), "the trace shows another twiddle");
        }
        let seen: Vec<_> = self.ordered().iter().map(|at| at.key()).collect();
        let mut all = Vec::new();
        for (stage, of) in self.stages.iter().enumerate().skip(1) {
            for iteration in 0..of.iterations {
                all.extend((1..of.radix).map(|k| (stage, iteration, k)));
            }
        }
        assert_eq!(seen, all, "a twiddle does not stand once");
    }

    /// The twiddles in the order of their stages, iterations and numbers.
    fn ordered(&self) -> Vec<&Standing> {
        let mut all: Vec<&Standing> = self.standing.iter().collect();
        all.sort_by_key(|at| at.key());
        all
    }

    /// The line of a layout: a checksum of the places.
    fn line(&self) -> String {
        let sum = checksum(self.ordered().iter().map(|at| at.place as u64));
        let columns = [self.asks(), number(sum as usize, 10)];
        columns.join(" ")
    }

    /// The list, the width and how many twiddles there are.
    fn asks(&self) -> String {
        let columns = [
            list(&self.list, LENT),
            number(self.width, 1),
            number(self.standing.len(), 5),
        ];
        columns.join(" ")
    }

    /// The lines of all places.
    fn whole(&self) -> String {
        let each = |at: &Standing| format!("{} {}", number(at.iteration, 4), number(at.k, 1));
        let mut lines = vec![self.asks()];
        lines.extend(self.standing.iter().map(each));
        lines.join("\n")
    }

    /// The fillings of both directions.
    fn fillings(&self) -> [Filling<'_>; 2] {
        [
            Filling {
                layout: self,
                direction: 'F',
                end: &self.forward,
            },
            Filling {
                layout: self,
                direction: 'I',
                end: &self.inverse,
            },
        ]
    }
}

impl Standing {
    /// Which twiddle it is.
    fn key(&self) -> (usize, usize, usize) {
        (self.stage, self.iteration, self.k)
    }
}

/// The words of a length, a width and a direction.
struct Filling<'a> {
    layout: &'a Layout,
    direction: char,
    end: &'a [Complex32],
}

impl Filling<'_> {
    /// Its length, width and direction.
    fn name(&self) -> (usize, usize, char) {
        let layout = self.layout;
        (product(&layout.list), layout.width, self.direction)
    }

    /// The list, the width, the direction, and how many words the stages and the ends have.
    fn asks(&self) -> String {
        let columns = [
            list(&self.layout.list, LENT),
            number(self.layout.width, 1),
            self.direction.to_string(),
            number(2 * self.layout.raw.len(), 5),
            number(2 * self.end.len(), 4),
        ];
        columns.join(" ")
    }

    /// The words of the stages with those of whole quarters put right, and how often each quarter was. Ends with a
    /// failure where the original's words of a whole quarter are others than listed.
    fn put_right(&self) -> (Vec<u32>, [usize; 4]) {
        let (mut all, mut replaced) = (Vec::new(), [0; 4]);
        for (at, raw) in self.layout.standing.iter().zip(&self.layout.raw) {
            let (index, circle) = self.layout.turn(at);
            if 4 * index % circle == 0 {
                let quarter = 4 * index / circle;
                assert_eq!(words(raw), ODD[quarter], "quarter {quarter} of {circle}");
                replaced[quarter] += 1;
                all.extend(EXACT[quarter]);
            } else {
                all.extend(words(raw));
            }
        }
        (all, replaced)
    }

    /// The words of the ends, which have no whole quarter.
    fn ends(&self) -> Vec<u32> {
        self.end.iter().flat_map(words).collect()
    }

    /// The line of a filling: its first and last words, how many whole quarters were put right, and a checksum.
    fn line(&self) -> String {
        let (stage, replaced) = self.put_right();
        let end = self.ends();
        let sum = checksum(stage.iter().chain(&end).map(|&word| u64::from(word)));
        let mut columns = vec![self.asks()];
        columns.extend([stage.first(), stage.last(), end.first(), end.last()].map(word));
        columns.extend(replaced.map(|count| number(count, 4)));
        columns.push(number(sum as usize, 10));
        columns.join(" ")
    }

    /// All words, as the original has them.
    fn all(&self) -> Vec<u32> {
        let stage = self.layout.raw.iter().flat_map(words);
        stage.chain(self.ends()).collect()
    }

    /// The lines of all words.
    fn whole(&self) -> String {
        let mut lines = vec![self.asks()];
        lines.extend(self.all().iter().map(|each| word(Some(each))));
        lines.join("\n")
    }

    /// The line of words that a host lends: a checksum of them.
    fn lent(&self) -> String {
        let sum = checksum(self.all().iter().map(|&word| u64::from(word)));
        let columns = [self.asks(), number(sum as usize, 10)];
        columns.join(" ")
    }
}

/// All layouts: every length that can be planned, for every width.
fn layouts() -> Vec<Layout> {
    let of = |list: &Vec<u8>| WIDTHS.map(|width| layout(list, width));
    lists().iter().flat_map(of).collect()
}

/// The layouts of lengths that pass a test.
fn layouts_of(is_kept: impl Fn(usize) -> bool) -> Vec<Layout> {
    let mut all = layouts();
    all.retain(|layout| is_kept(product(&layout.list)));
    all
}

/// The layouts whose lengths divide the circle.
fn housed() -> Vec<Layout> {
    layouts_of(|n| CIRCLE % n == 0)
}

/// The layouts of the hives' lengths.
fn hives() -> Vec<Layout> {
    layouts_of(|n| HIVES.contains(&n))
}

/// The records of a kind, each with all its lines.
pub fn records(kind: &str) -> Vec<String> {
    match kind {
        "layouts" => layouts().iter().map(Layout::line).collect(),
        "places" => layouts().iter().map(Layout::whole).collect(),
        "fillings" => fillings(&housed()).iter().map(Filling::line).collect(),
        "lent" => fillings(&hives()).iter().map(Filling::lent).collect(),
        _ => fillings(&housed()).iter().map(Filling::whole).collect(),
    }
}

/// The fillings of layouts.
fn fillings(layouts: &[Layout]) -> Vec<Filling<'_>> {
    layouts.iter().flat_map(Layout::fillings).collect()
}

/// The lengths, widths and directions whose words are recorded.
const NAMED: [(usize, usize, char); 12] = [
    (12, 1, 'F'),
    (24, 2, 'I'),
    (20, 4, 'F'),
    (28, 1, 'I'),
    (30, 2, 'F'),
    (32, 4, 'I'),
    (42, 2, 'F'),
    (48, 1, 'I'),
    (64, 4, 'F'),
    (70, 2, 'I'),
    (96, 1, 'F'),
    (112, 4, 'I'),
];

/// The recorded ones: every layout and every filling by its checksum; all places and all words of those named; the hives' words.
pub fn sample(kind: &str) -> Vec<String> {
    let kept = housed();
    match kind {
        "layouts" | "fillings" | "lent" => records(kind),
        "places" => kept.iter().filter(is_named).map(Layout::whole).collect(),
        _ => {
            let named = |filling: &&Filling| NAMED.contains(&filling.name());
            let all = fillings(&kept);
            let kept: Vec<&Filling> = all.iter().filter(named).collect();
            check_spread(&kept);
            kept.iter().map(|filling| filling.whole()).collect()
        }
    }
}

/// Whether a filling of a layout is named.
fn is_named(layout: &&Layout) -> bool {
    let named = |filling: &Filling| NAMED.contains(&filling.name());
    layout.fillings().iter().any(named)
}

/// Ends with a failure where the recorded words miss a kind that they are to have.
fn check_spread(kept: &[&Filling]) {
    let has = |what: &str, holds: &dyn Fn(&Filling) -> bool| {
        assert!(
            kept.iter().any(|filling| holds(filling)),
            "no recorded words have {what}"
        )
    };
    for named in NAMED {
        has("a name", &|filling| filling.name() == named);
    }
    for width in WIDTHS {
        for direction in ['F', 'I'] {
            has("a width and a direction", &|filling| {
                filling.layout.width == width && filling.direction == direction
            });
        }
    }
    // planning leaves one 2 at most, and in front
    for radix in RADICES.into_iter().filter(|&radix| radix > 2) {
        let is = |stage: &Stage| stage.radix == usize::from(radix);
        has("a stage's radix", &|filling| {
            filling.layout.stages.iter().skip(1).any(is)
        });
    }
    for quarter in 0..4 {
        has("a whole quarter", &|filling| {
            filling.put_right().1[quarter] > 0
        });
    }
}
