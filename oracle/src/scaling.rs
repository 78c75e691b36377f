//! Scaling: the pairs of base lists, the original's answers, and the recorded ones among them.
use crate::fft::planner::ConversionConfig;
use crate::lists::{ascending, product, Dice, LARGEST, RADICES};
use crate::rust::{bytes, radices};
use crate::table::{refused_bases, refused_scaled, Refusal};
use crate::text::{list, no_radices, number, HELD, LENT};
use std::collections::BTreeSet;

/// How many pairs are asked.
const PAIRS: usize = 20_000;

/// What the in-product is scaled to at least.
const TARGET: usize = 512;

/// What scaling answers; every field but the refusal is empty or 0 where there is one.
#[derive(Default)]
struct Answer {
    refusal: Option<Refusal>,
    p: usize,
    in_product: usize,
    out_product: usize,
    in_list: Vec<u8>,
    out_list: Vec<u8>,
}

/// Two base lists with their answer.
pub struct Case {
    in_list: Vec<u8>,
    out_list: Vec<u8>,
    answer: Answer,
}

impl Case {
    /// The case's line.
    pub fn line(&self) -> String {
        let a = &self.answer;
        let (no, place) = a.refusal.map_or((0, 0), |r| (r.number, r.place));
        let columns = [
            list(&self.in_list, LENT),
            list(&self.out_list, LENT),
            number(no, 2),
            number(place, 2),
            number(a.p, 3),
            number(a.in_product, 4),
            number(a.out_product, 4),
            number(a.in_list.len(), 2),
            list(&a.in_list, HELD),
            number(a.out_list.len(), 2),
            list(&a.out_list, HELD),
        ];
        columns.join(" ")
    }

    pub fn is_refused(&self) -> bool {
        self.answer.refusal.is_some()
    }
}

/// The answer for two base lists: the table's, or else the original's.
fn answered(in_list: &[u8], out_list: &[u8]) -> Answer {
    let refused = |refusal| Answer {
        refusal: Some(refusal),
        ..Answer::default()
    };
    if let Some(refusal) = refused_bases(in_list, out_list) {
        return refused(refusal);
    }
    let base = ConversionConfig {
        base_fft_size_in: product(in_list),
        base_fft_size_out: product(out_list),
        base_factors_in: radices(in_list),
        base_factors_out: radices(out_list),
    };
    let (in_product, in_factors, out_product, out_factors) = base.scale_for_throughput();
    if let Some(refusal) = refused_scaled(out_product, in_list, out_list) {
        return refused(refusal);
    }
    assert_eq!(
        in_product % base.base_fft_size_in,
        0,
        "the in-product is not scaled by a whole number"
    );
    Answer {
        refusal: None,
        p: in_product / base.base_fft_size_in,
        in_product,
        out_product,
        in_list: bytes(&in_factors),
        out_list: bytes(&out_factors),
    }
}

/// Where base lists are drawn from.
struct Pool {
    dice: Dice,
    /// every ascending list, the empty one too
    all: Vec<Vec<u8>>,
    /// bytes that are no radix
    bad: Vec<u8>,
}

impl Pool {
    /// A list, in any order, whose product is one of the two next below or above a bound, or the bound itself.
    fn near(&mut self, bound: usize) -> Vec<u8> {
        let products: BTreeSet<usize> = self.all.iter().map(|list| product(list)).collect();
        let below = products.range(..=bound).rev().take(3);
        let close: Vec<usize> = below
            .chain(products.range(bound + 1..).take(2))
            .copied()
            .collect();
        let wanted = *self.dice.of(&close);
        let found: Vec<Vec<u8>> = self
            .all
            .iter()
            .filter(|list| product(list) == wanted)
            .cloned()
            .collect();
        let list = self.dice.of(&found).clone();
        self.dice.shuffled(&list)
    }

    /// A list with a byte that is no radix.
    fn spoilt(&mut self) -> Vec<u8> {
        let count = 1 + self.dice.below(LENT);
        let mut list = self.dice.radices(count);
        list[self.dice.below(count)] = *self.dice.of(&self.bad);
        list
    }

    /// A list of one of the kinds: empty, single, any within the largest length, long, too large or spoilt.
    fn any(&mut self) -> Vec<u8> {
        match self.dice.below(12) {
            0 => Vec::new(),
            1 => self.dice.radices(1),
            2 => {
                let count = 6 + self.dice.below(LENT - 5);
                self.dice.radices(count)
            }
            3 => self.spoilt(),
            4 => vec![*self.dice.of(&RADICES); 1 + self.dice.below(LENT)],
            _ => {
                let list = self.dice.of(&self.all).clone();
                self.dice.shuffled(&list)
            }
        }
    }

    /// An in-list: of any kind, or near the target or one of its divisors.
    fn in_list(&mut self) -> Vec<u8> {
        if self.dice.below(2) == 0 {
            return self.any();
        }
        let bound = TARGET >> self.dice.below(10);
        self.near(bound)
    }

    /// An out-list: of any kind, one whose scaled product is just within or just above the largest length, or one within it.
    fn out_list(&mut self, in_list: &[u8]) -> Vec<u8> {
        let kind = self.dice.below(8);
        if kind == 0 || refused_bases(in_list, &[]).is_some() {
            return self.any();
        }
        let most = LARGEST / TARGET.div_ceil(product(in_list)).next_power_of_two();
        if kind < 3 {
            return self.near(most);
        }
        let within: Vec<Vec<u8>> = self
            .all
            .iter()
            .filter(|list| product(list) <= most)
            .cloned()
            .collect();
        let list = self.dice.of(&within).clone();
        self.dice.shuffled(&list)
    }
}

/// Pairs that stand first, with in-bases 147, 252, 256, 512 and 126, with empty lists and with the longest.
const NAMED: [(&[u8], &[u8]); 9] = [
    (&[], &[]),
    (&[3, 7, 7], &[4, 4, 2, 5]),
    (&[4, 7, 3, 3], &[2]),
    (&[4, 4, 4, 4], &[3]),
    (&[8, 8, 8], &[]),
    (&[2, 7, 3, 3], &[5]),
    (&[3, 3, 3, 3, 3, 3], &[]),
    (&[2; 13], &[2; 13]),
    (&[2; 16], &[2; 16]),
];

/// All cases, each pair once.
pub fn cases() -> Vec<Case> {
    let mut pool = Pool {
        dice: Dice(512),
        all: ascending(&[], 2),
        bad: no_radices(),
    };
    let mut pairs: Vec<(Vec<u8>, Vec<u8>)> = NAMED
        .iter()
        .map(|(i, o)| (i.to_vec(), o.to_vec()))
        .collect();
    let mut seen: BTreeSet<(Vec<u8>, Vec<u8>)> = pairs.iter().cloned().collect();
    while pairs.len() < PAIRS {
        let in_list = pool.in_list();
        let out_list = pool.out_list(&in_list);
        let pair = (in_list, out_list);
        if seen.insert(pair.clone()) {
            pairs.push(pair);
        }
    }
    let case = |(in_list, out_list): (Vec<u8>, Vec<u8>)| Case {
        answer: answered(&in_list, &out_list),
        in_list,
        out_list,
    };
    pairs.into_iter().map(case).collect()
}

/// The recorded cases: of each kind the first. An accepted pair is of the kind of p with the lengths of its scaled lists;
/// a refused one of the kind of its number and place, and which is at fault: the in-list, the out-list or the scaled product.
pub fn sample() -> Vec<Case> {
    let mut seen = BTreeSet::new();
    let mut kept = cases();
    kept.retain(|case| {
        let a = &case.answer;
        seen.insert(match a.refusal {
            Some(r) => format!(
                "refused {} {} {} {}",
                r.number,
                r.place,
                refused_bases(&case.in_list, &[]).is_some(),
                refused_bases(&case.in_list, &case.out_list).is_some()
            ),
            None => format!("{} {} {}", a.p, a.in_list.len(), a.out_list.len()),
        })
    });
    check_spread(&kept);
    kept
}

/// Ends with a failure where the recorded cases miss a kind that they are to have.
fn check_spread(kept: &[Case]) {
    let has = |what: &str, holds: &dyn Fn(&Case) -> bool| {
        assert!(kept.iter().any(holds), "no recorded case has {what}")
    };
    for no in 2..=3 {
        has("a refusal of the in-list", &|case| {
            refused_bases(&case.in_list, &[]).is_some_and(|r| r.number == no)
        });
        has("a refusal of the out-list", &|case| {
            refused_bases(&case.in_list, &[]).is_none()
                && refused_bases(&[], &case.out_list).is_some_and(|r| r.number == no)
        });
    }
    has("a scaled product too large", &|case| {
        case.is_refused() && refused_bases(&case.in_list, &case.out_list).is_none()
    });
    for g in 0..=9 {
        has("a power of two", &|case| case.answer.p == 1 << g);
    }
    has("an empty in-list", &|case| {
        !case.is_refused() && case.in_list.is_empty()
    });
    has("an empty out-list", &|case| {
        !case.is_refused() && case.out_list.is_empty()
    });
    has("a full in-list", &|case| case.answer.in_list.len() == HELD);
    has("the largest out-product", &|case| {
        case.answer.out_product == LARGEST
    });
    assert!(kept.len() >= 200, "only {} recorded cases", kept.len());
}
