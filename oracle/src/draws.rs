//! Words drawn from a seed, by a generator that the programs draw from too, and what is said of rows of words.
//!
//! Each number x follows from the one before by 279,470,273 x modulo the checksum's modulus, and gives one word: its highest
//! binary digit is the sign, the lowest 23 the fraction, and the 8 between choose the exponent in a way of their own for each
//! kind.
use crate::fft::Complex32;
use crate::lists::Dice;
use crate::text::{number, word};
use crate::twiddles::{checksum, words, MODULUS};

/// What the generator multiplies by.
const FACTOR: u64 = 279_470_273;

/// The kind of lent twiddles: at most 1 in magnitude.
pub const TURNS: char = 'T';

/// Whose twiddles are lent: the original's, or drawn ones.
pub const LENDINGS: [char; 2] = ['R', 'D'];

/// The draws from a seed.
pub struct Draws(u64);

impl Draws {
    /// The draws from a seed that is not 0.
    pub fn from(seed: u32) -> Draws {
        Draws(u64::from(seed))
    }

    /// The next word of a kind.
    fn word(&mut self, kind: char) -> u32 {
        self.0 = self.0 * FACTOR % MODULUS;
        let x = self.0 as u32;
        let (sign, chosen, fraction) = (x >> 31, x >> 23 & 255, x & 0x7f_ffff);
        let (exponent, fraction) = match (kind, chosen) {
            // 2^-16 to 1
            ('N', _) => (126 - chosen % 16, fraction),
            // 2^48 itself, and 2^-80 to 2^48
            ('E', 255) => (175, 0),
            ('E', _) => (174 - chosen % 128, fraction),
            // 2^32 itself, and 2^-96 to 2^32
            ('L', 255) => (159, 0),
            ('L', _) => (158 - chosen % 128, fraction),
            // 2^48 and 2^32 alone
            ('B', _) => (175, 0),
            ('M', _) => (159, 0),
            // zeros every other time, and else 2^-16 to 1
            ('Z', 0..128) => (0, 0),
            ('Z', _) => (126 - chosen % 16, fraction),
            // zeros alone
            ('O', _) => (0, 0),
            // 0, 1, 2 and 4
            ('W', _) if chosen % 4 == 0 => (0, 0),
            ('W', _) => (126 + chosen % 4, 0),
            // subnormal three times of four, and else up to 2^-117
            ('S', 0..192) => (0, fraction),
            ('S', _) => (1 + chosen % 9, fraction),
            // 1 and 0, and 2^-16 to 1
            ('T', 255) => (127, 0),
            ('T', 254) => (0, 0),
            ('T', _) => (126 - chosen % 16, fraction),
            _ => panic!("{kind} is no kind"),
        };
        sign << 31 | exponent << 23 | fraction
    }

    /// The next so many floats of a kind.
    pub fn floats(&mut self, kind: char, count: usize) -> Vec<f32> {
        (0..count)
            .map(|_| f32::from_bits(self.word(kind)))
            .collect()
    }

    /// The next so many numbers of a kind.
    pub fn numbers(&mut self, kind: char, count: usize) -> Vec<Complex32> {
        numbers(&self.floats(kind, 2 * count))
    }
}

/// A seed, which is not 0.
pub fn seed(dice: &mut Dice) -> u32 {
    1 + dice.below(MODULUS as usize - 1) as u32
}

/// The numbers of floats, two each.
pub fn numbers(floats: &[f32]) -> Vec<Complex32> {
    let number = |pair: &[f32]| Complex32::new(pair[0], pair[1]);
    floats.chunks_exact(2).map(number).collect()
}

/// The floats of numbers.
pub fn floats(numbers: &[Complex32]) -> Vec<f32> {
    numbers.iter().flat_map(|z| [z.re, z.im]).collect()
}

/// The checksum of the words of numbers.
pub fn sum(numbers: &[Complex32]) -> String {
    let each = numbers.iter().flat_map(words);
    shown(checksum(each.map(u64::from)))
}

/// The checksum of the words of floats.
pub fn sum_of_floats(floats: &[f32]) -> String {
    shown(checksum(floats.iter().map(|x| u64::from(x.to_bits()))))
}

/// A checksum in its column.
fn shown(checksum: u64) -> String {
    number(checksum as usize, 10)
}

/// The lines of the words of numbers.
pub fn lines(numbers: &[Complex32]) -> Vec<String> {
    lines_of_floats(&floats(numbers))
}

/// The lines of the words of floats.
pub fn lines_of_floats(floats: &[f32]) -> Vec<String> {
    floats.iter().map(|x| word(Some(&x.to_bits()))).collect()
}
