//! Lists of radices: all of them within the largest length, in several orders, and a generator with a fixed seed.

/// The radices.
pub const RADICES: [u8; 6] = [2, 3, 4, 5, 7, 8];

/// The largest length.
pub const LARGEST: usize = 8192;

/// The product of a list, and 1 for the empty one.
pub fn product(list: &[u8]) -> usize {
    list.iter().map(|&radix| usize::from(radix)).product()
}

/// Every list of the given count or fewer that follows `front` and whose product stays within the largest length.
pub fn ordered(front: &[u8], count: usize) -> Vec<Vec<u8>> {
    let mut all = vec![front.to_vec()];
    if count > 0 {
        for radix in RADICES {
            let next = [front, &[radix]].concat();
            if product(&next) <= LARGEST {
                all.extend(ordered(&next, count - 1));
            }
        }
    }
    all
}

/// Every ascending list that follows `front`, from one radix on, whose product stays within the largest length.
pub fn ascending(front: &[u8], least: u8) -> Vec<Vec<u8>> {
    let mut all = vec![front.to_vec()];
    for radix in RADICES.into_iter().filter(|&radix| radix >= least) {
        let next = [front, &[radix]].concat();
        if product(&next) <= LARGEST {
            all.extend(ascending(&next, radix));
        }
    }
    all
}

/// A generator of numbers (SplitMix64), the same from the same seed.
pub struct Dice(pub u64);

impl Dice {
    fn next(&mut self) -> u64 {
        self.0 = self.0.wrapping_add(0x9e37_79b9_7f4a_7c15);
        let mut z = self.0;
        z = (z ^ (z >> 30)).wrapping_mul(0xbf58_476d_1ce4_e5b9);
        z = (z ^ (z >> 27)).wrapping_mul(0x94d0_49bb_1331_11eb);
        z ^ (z >> 31)
    }

    /// A number below a bound.
    pub fn below(&mut self, bound: usize) -> usize {
        (self.next() % bound as u64) as usize
    }

    /// One of a slice.
    pub fn of<'a, T>(&mut self, all: &'a [T]) -> &'a T {
        &all[self.below(all.len())]
    }

    /// A list in another order.
    pub fn shuffled(&mut self, list: &[u8]) -> Vec<u8> {
        let mut list = list.to_vec();
        for i in (1..list.len()).rev() {
            list.swap(i, self.below(i + 1));
        }
        list
    }

    /// A list of a given count, with no bound on its product.
    pub fn radices(&mut self, count: usize) -> Vec<u8> {
        (0..count).map(|_| *self.of(&RADICES)).collect()
    }
}
