//! The table of refusals, for planning and scaling, where the original Rust panics or goes on.
use crate::lists::{product, LARGEST, RADICES};

/// A refusal: its number and its place.
#[derive(Clone, Copy)]
pub struct Refusal {
    pub number: usize,
    pub place: usize,
}

/// Refusals 2 and 3 of one list whose first index counts as `from`: over the whole list 2 comes before 3.
fn refused_list(list: &[u8], from: usize) -> Option<Refusal> {
    if let Some(at) = list.iter().position(|byte| !RADICES.contains(byte)) {
        return Some(Refusal {
            number: 2,
            place: from + at,
        });
    }
    let mut running = 1;
    for (at, &radix) in list.iter().enumerate() {
        running *= usize::from(radix);
        if running > LARGEST {
            return Some(Refusal {
                number: 3,
                place: from + at,
            });
        }
    }
    None
}

/// The refusal of a list by planning.
pub fn refused_plan(list: &[u8]) -> Option<Refusal> {
    if list.is_empty() {
        return Some(Refusal {
            number: 1,
            place: 0,
        });
    }
    refused_list(list, 0).or_else(|| {
        (product(list) % 2 == 1).then_some(Refusal {
            number: 4,
            place: 0,
        })
    })
}

/// The refusal of two base lists by scaling, but for the last: the scaled out-product is the Rust's to say.
pub fn refused_bases(in_list: &[u8], out_list: &[u8]) -> Option<Refusal> {
    refused_list(in_list, 0).or_else(|| refused_list(out_list, in_list.len()))
}

/// The last refusal of scaling, of a scaled out-product.
pub fn refused_scaled(out_product: usize, in_list: &[u8], out_list: &[u8]) -> Option<Refusal> {
    (out_product > LARGEST).then_some(Refusal {
        number: 3,
        place: in_list.len() + out_list.len(),
    })
}
