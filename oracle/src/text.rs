//! The text of an answer: a line for each case, every column at its own place, so that a program reads it by counting bytes.
//!
//! A planning line has 97 bytes, its line end among them; the columns, parted by a blank, with their widths:
//! lent list 16, number 2, place 2, n 4, half 4, count of stages 2, radices 13, count of merges 2, letters 13,
//! count of the half list 2, half list 13, stage twiddles 5, end twiddles 4, buffer of the result 1 (0 Data, 1 Scratchpad).
//!
//! A scaling line has 88 bytes: in-list 16, out-list 16, number 2, place 2, p 3, in-product 4, out-product 4,
//! count of the scaled in-list 2, that list 13, count of the scaled out-list 2, that list 13.
//!
//! Of twiddles and transforms, F is the forward direction and I the inverse; a word is the bits of an f32, in hexadecimal.
//!
//! A layout's line has 36 bytes: lent list 16, width 1, twiddles of the stages 5, checksum 10. The checksum is taken over
//! where each twiddle stands among those of its stage, by stages from the second on, iterations and numbers.
//!
//! Places start with a line of 25 bytes: lent list 16, width 1, twiddles of the stages 5. A line of 7 bytes follows for each
//! place, in the original's order, with what stands there: iteration 4, number 1 (from 1 to r - 1).
//!
//! A filling's line has 99 bytes: lent list 16, width 1, direction 1, words of the stages 5, words of the ends 4, first and
//! last word of the stages 8 each, first and last word of the ends 8 each (dots where there is none), how many twiddles of
//! the stages are turned by no, one, two and three whole quarters 4 each, checksum 10. The checksum is taken over the words
//! of the stages and then of the ends. The words are the original's but for those of whole quarters, which are put right:
//! each is held to the one that is listed for its quarter, and the exact word takes its place.
//!
//! Words start with a line of 32 bytes: lent list 16, width 1, direction 1, words of the stages 5, words of the ends 4. A line
//! of 9 bytes follows for each word of the stages and then of the ends, all as the original has them.
//!
//! A line of lent words has 43 bytes: the same columns and a checksum 10, taken over these words.
//!
//! Stages start with a line of 26 bytes: lent list 16, number of the stage 1, width 1, words of its twiddles 4. A line of 9
//! bytes follows for each word of the original's twiddles of that stage, packed for the width, and eight lines of 24 bytes, each
//! with a case: twiddles 1 (R the original's, D drawn), kind of the cells 1, seed 8 in hexadecimal, checksum 10. The cells are
//! drawn from the seed, and after them the twiddles where they are drawn; draws.rs says how. The checksum is taken over the words
//! that the stage writes.
//!
//! Cells start with the same line of 26 bytes. A line of 9 bytes follows for each word that the stage reads, for each word of
//! the twiddles lent, and for each word that the stage writes.
//!
//! Runs start with a line of 52 bytes: lent list 16, kind of the cells 1, seed 8, buffer of the result 1, checksum of the data
//! 10, checksum of the scratchpad 10, both as the original's driver leaves them. The cells of both are drawn from the seed,
//! the data first. A line of 9 bytes follows for each word of the twiddles of all stages, packed for width 1.
//!
//! Forward and inverse transforms start with a line of 28 bytes: lent list 16, words of the twiddles of the stages 5, words of
//! those of the end 4. A line of 9 bytes follows for each word of the original's twiddles of the stages, packed for width 1,
//! and of the end, and 42 lines of 37 bytes, each with a case: twiddles 1 (R the original's, D drawn), kind of what is read 1,
//! seed 8, how much more than needed is lent 1, checksum of the output 10, checksum of the scratch 10. The scratch has so many
//! cells more, and an inverse's output so many words. From the seed are drawn, in this order, the twiddles of the stages, as
//! packed for width 1, and those of the end where they are drawn, what the transform reads, and what output and scratch hold
//! beforehand. The checksums are taken over all words of output and scratch.
//!
//! Ends start with a line of 24 bytes: lent list 16, direction 1, words of the twiddles 4. A line of 9 bytes follows for each
//! word of the original's twiddles of the end, and 42 lines of 24 bytes, each with a case: twiddles 1, kind of the cells 1, seed
//! 8, checksum 10. From the seed are drawn the twiddles where they are drawn, and then the cells. The checksum is taken over
//! the words of all cells afterwards.
//!
//! Whole transforms start with a line of 34 bytes: lent list 16, direction 1, width 1, how much more than needed is lent 1, words
//! of the twiddles of the stages 5, words of those of the end 4. A line of 9 bytes follows for each word that the transform
//! reads, for each word of the twiddles of the stages, packed for the width, and of the end, for each word that output and scratch
//! hold beforehand, and for each word that they hold afterwards.
//!
//! A checksum starts from 0; each number x takes a sum s to 31 s + x modulo 4,294,967,291.
//!
//! Numbers are decimal with zeros in front. A list has a character for each byte and `.` where there is none: a digit
//! stands for its own value, a capital letter for its own byte in ASCII, a to y for 10, 20 and so on to 250, and z for 255.
use crate::lists::RADICES;

/// How many entries a lent list has at most.
pub const LENT: usize = 16;

/// How many entries a list in an answer has at most.
pub const HELD: usize = 13;

/// The character that stands for a byte.
fn glyph(byte: u8) -> char {
    match byte {
        0..=9 => char::from(b'0' + byte),
        b'A'..=b'Z' => char::from(byte),
        255 => 'z',
        _ if byte % 10 == 0 => char::from(b'a' + byte / 10 - 1),
        _ => panic!("no character stands for byte {byte}"),
    }
}

/// The bytes that are no radix and that a character stands for.
pub fn no_radices() -> Vec<u8> {
    let has_glyph = |byte: u8| matches!(byte, 0..=9 | b'A'..=b'Z' | 255) || byte % 10 == 0;
    (0..=255)
        .filter(|&byte| has_glyph(byte) && !RADICES.contains(&byte))
        .collect()
}

/// A list in a column of its width.
pub fn list(bytes: &[u8], width: usize) -> String {
    assert!(
        bytes.len() <= width,
        "a list of {} does not fit {width} columns",
        bytes.len()
    );
    let text: String = bytes.iter().map(|&byte| glyph(byte)).collect();
    format!("{text:.<width$}")
}

/// A number in a column of its width.
pub fn number(value: usize, width: usize) -> String {
    let text = format!("{value:0width$}");
    assert!(text.len() == width, "{value} does not fit {width} columns");
    text
}

/// A word in hexadecimal, or dots where there is none.
pub fn word(bits: Option<&u32>) -> String {
    bits.map_or(".".repeat(8), |bits| format!("{bits:08x}"))
}
