//! Between bytes and the original's `Radix`.
use crate::Radix;

/// The original's radices for a list whose bytes are all radices.
pub fn radices(list: &[u8]) -> Vec<Radix> {
    let radix = |&byte: &u8| match byte {
        2 => Radix::Factor2,
        3 => Radix::Factor3,
        4 => Radix::Factor4,
        5 => Radix::Factor5,
        7 => Radix::Factor7,
        8 => Radix::Factor8,
        _ => panic!("{byte} is no radix"),
    };
    list.iter().map(radix).collect()
}

/// The bytes of the original's radices.
pub fn bytes(radices: &[Radix]) -> Vec<u8> {
    radices.iter().map(|radix| radix.radix() as u8).collect()
}
