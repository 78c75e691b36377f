//! Planning: the lists, the original's answers, and the recorded ones among them.
use crate::fft::optimizer::{apply_transformations, optimize_factors};
use crate::fft::stockham_autosort::OutputLocation;
use crate::fft::{Complex32, Forward, Radix, RadixFFT};
use crate::lists::{ascending, ordered, product, Dice, LARGEST, RADICES};
use crate::rust::{bytes, radices};
use crate::table::{refused_plan, Refusal};
use crate::text::{list, no_radices, number, HELD, LENT};
use std::collections::BTreeSet;

/// What planning answers; every field but the refusal is empty or 0 where there is one.
#[derive(Default)]
struct Answer {
    refusal: Option<Refusal>,
    n: usize,
    half: usize,
    factors: Vec<u8>,
    letters: Vec<u8>,
    half_list: Vec<u8>,
    stage: usize,
    end: usize,
    buffer: usize,
}

/// A list with its answer.
pub struct Case {
    list: Vec<u8>,
    answer: Answer,
}

impl Case {
    /// The case's line.
    pub fn line(&self) -> String {
        let a = &self.answer;
        let (no, place) = a.refusal.map_or((0, 0), |r| (r.number, r.place));
        let columns = [
            list(&self.list, LENT),
            number(no, 2),
            number(place, 2),
            number(a.n, 4),
            number(a.half, 4),
            number(a.factors.len(), 2),
            list(&a.factors, HELD),
            number(a.letters.len(), 2),
            list(&a.letters, HELD),
            number(a.half_list.len(), 2),
            list(&a.half_list, HELD),
            number(a.stage, 5),
            number(a.end, 4),
            number(a.buffer, 1),
        ];
        columns.join(" ")
    }

    pub fn is_refused(&self) -> bool {
        self.answer.refusal.is_some()
    }
}

/// How many of each power of two are gained or lost between two lists: of 2, 4 and 8.
fn gains(before: &[Radix], after: &[Radix]) -> [isize; 3] {
    let count =
        |all: &[Radix], radix: usize| all.iter().filter(|f| f.radix() == radix).count() as isize;
    [2, 4, 8].map(|radix| count(after, radix) - count(before, radix))
}

/// The letters of the merges, by stepping the original's own transformations as `optimize_factors` does.
fn letters(half: &[Radix]) -> Vec<u8> {
    let descending = |all: &mut Vec<Radix>| all.sort_by_key(|f| std::cmp::Reverse(f.radix()));
    let mut factors = half.to_vec();
    let mut letters = Vec::new();
    descending(&mut factors);
    loop {
        let before = factors.clone();
        if !apply_transformations(&mut factors) {
            break;
        }
        letters.push(match gains(&before, &factors) {
            [-1, -1, 1] => b'A',
            [-3, 0, 1] => b'B',
            [1, -2, 1] => b'C',
            [-2, 1, 0] => b'D',
            other => panic!("no merge changes the 2s, 4s and 8s by {other:?}"),
        });
        descending(&mut factors);
    }
    factors.sort_by_key(|f| f.radix());
    assert_eq!(
        factors,
        optimize_factors(half.to_vec()),
        "stepping ends in other factors"
    );
    letters
}

/// The answer for a list: the table's, or else the original's.
fn answered(list: &[u8]) -> Answer {
    if let Some(refusal) = refused_plan(list) {
        return Answer {
            refusal: Some(refusal),
            ..Answer::default()
        };
    }
    let lent = radices(list);
    let half_list = RadixFFT::<Forward>::compute_factors(&lent);
    let fft = RadixFFT::<Forward>::new(lent);
    let mut scratch = vec![Complex32::zero(); fft.scratchpad_size()];
    Answer {
        refusal: None,
        n: fft.n,
        half: fft.n2,
        factors: bytes(&fft.factors),
        letters: letters(&half_list),
        half_list: bytes(&half_list),
        stage: fft.stockham_twiddles.len(),
        end: fft.real_complex_expansion_twiddles.len(),
        buffer: match fft.process_forward_complex(&mut scratch) {
            OutputLocation::Data => 0,
            OutputLocation::Scratchpad => 1,
        },
    }
}

/// Every multiset of radices within the largest length in four orders.
fn multisets() -> Vec<Vec<u8>> {
    let mut dice = Dice(8192);
    let mut all = Vec::new();
    for up in ascending(&[], 2) {
        let down = up.iter().rev().copied().collect();
        all.extend([dice.shuffled(&up), dice.shuffled(&up), up, down]);
    }
    all
}

/// Lists with bytes that are no radix, at every place, once or twice, also where the product is too large.
fn spoilt() -> Vec<Vec<u8>> {
    let bad = no_radices();
    let mut dice = Dice(2);
    let mut all: Vec<Vec<u8>> = bad.iter().map(|&byte| vec![byte]).collect();
    for count in 2..=LENT {
        for at in 0..count {
            let mut list = dice.radices(count);
            list[at] = *dice.of(&bad);
            all.push(list.clone());
            list[dice.below(count)] = *dice.of(&bad);
            all.push(list);
        }
    }
    all.push(vec![8, 8, 8, 8, 8, 9]);
    all.push(vec![2, 3, 6]);
    all
}

/// Lists whose product is too large: one radix alone, one more than the largest length takes, and mixed ones.
fn too_large() -> Vec<Vec<u8>> {
    let mut dice = Dice(3);
    let mut all = Vec::new();
    for radix in RADICES {
        for count in 1..=LENT {
            all.push(vec![radix; count]);
        }
    }
    for full in multisets()
        .into_iter()
        .filter(|list| product(list) > LARGEST / 2)
    {
        all.push([full, vec![*dice.of(&RADICES)]].concat());
    }
    for count in 5..=LENT {
        all.extend((0..20).map(|_| dice.radices(count)));
    }
    all.retain(|list| product(list) > LARGEST);
    all
}

/// All cases, each list once.
pub fn cases() -> Vec<Case> {
    let mut lists = ordered(&[], 5);
    lists.extend(multisets());
    lists.extend(spoilt());
    lists.extend(too_large());
    let mut seen = BTreeSet::new();
    lists.retain(|list| seen.insert(list.clone()));
    lists
        .into_iter()
        .map(|list| Case {
            answer: answered(&list),
            list,
        })
        .collect()
}

/// Lists that are always recorded, since they are well-known cases.
const NAMED: [&[u8]; 12] = [
    &[],
    &[2, 3, 6],
    &[3, 5],
    &[2; 14],
    &[2; 13],
    &[2],
    &[2, 2, 2, 2],
    &[4, 4, 4, 4],
    &[8, 3],
    &[8, 4],
    &[2, 2, 3],
    &[8, 8, 8, 8, 8, 9],
];

/// The recorded cases: the named lists, every hundredth, and of each kind the first. An accepted list is of the kind of
/// its n, and of the kind of its stages, letters and length; a refused one of the kind of its number, place and length.
pub fn sample() -> Vec<Case> {
    let mut seen = BTreeSet::new();
    let mut at = 0;
    let mut kept = cases();
    kept.retain(|case| {
        let a = &case.answer;
        let kinds = match a.refusal {
            Some(r) => vec![format!(
                "refused {} {} {}",
                r.number,
                r.place,
                case.list.len()
            )],
            None => vec![
                format!("n {}", a.n),
                format!("{} {:?} {}", a.factors.len(), a.letters, case.list.len()),
            ],
        };
        let firsts = kinds
            .into_iter()
            .filter(|kind| seen.insert(kind.clone()))
            .count();
        at += 1;
        firsts > 0 || at % 100 == 0 || NAMED.contains(&case.list.as_slice())
    });
    check_spread(&kept);
    kept
}

/// Ends with a failure where the recorded cases miss a kind that they are to have.
fn check_spread(kept: &[Case]) {
    let has = |what: &str, holds: &dyn Fn(&Case) -> bool| {
        assert!(kept.iter().any(holds), "no recorded case has {what}")
    };
    for no in 1..=4 {
        has("a refusal", &|case| {
            case.answer.refusal.is_some_and(|r| r.number == no)
        });
    }
    for count in 0..=7 {
        has("a count of stages", &|case| {
            !case.is_refused() && case.answer.factors.len() == count
        });
    }
    for count in 0..=4 {
        has("a number of merges", &|case| {
            !case.is_refused() && case.answer.letters.len() == count
        });
    }
    for letter in b'A'..=b'D' {
        has("a letter", &|case| case.answer.letters.contains(&letter));
    }
    for radix in RADICES {
        has("a radix", &|case| {
            !case.is_refused() && case.list.contains(&radix)
        });
        has("a stage's radix", &|case| {
            case.answer.factors.contains(&radix)
        });
    }
    for n in [2, 4, 8, 588, 640, 8192] {
        has("a length", &|case| case.answer.n == n);
    }
    for named in NAMED {
        has("a named list", &|case| case.list == named);
    }
    assert!(kept.len() >= 500, "only {} recorded cases", kept.len());
}
