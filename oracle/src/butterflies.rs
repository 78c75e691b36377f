//! The butterfly kernels. The original's are not among its files: these are transcribed from the scope, operation by operation.
//!
//! Iteration i of M reads the cells i + q M; from the second stage on those with q at least 1 are multiplied in full by the lent
//! twiddle. Output p is cell 0, then plus cell q turned by p q of r parts of a circle, q ascending. It is written to cell
//! (i div s) s r + i mod s + p s of the output.
use crate::asked;
use crate::Complex32;

/// Where twiddle k of iteration i stands among those of its stage: m iterations of radix r, packed for a width.
pub(crate) fn place(m: usize, r: usize, width: usize, i: usize, k: usize) -> usize {
    if i < m / width * width {
        i / width * width * (r - 1) + (k - 1) * width + i % width
    } else {
        i * (r - 1) + k - 1
    }
}

/// The cosine and the negated sine of t of r parts of a circle that are no whole quarters: the house table's numbers, which
/// crates/turn/src/inner/kernel.rt has too.
fn numbers(t: usize, r: usize) -> Complex32 {
    let (cosine, sine) = match (r, t) {
        (3, 1) => (-0.5, -0.8660253882408142),
        (3, 2) => (-0.5, 0.8660253882408142),
        (5, 1) => (0.30901700258255005, -0.9510565400123596),
        (5, 2) => (-0.80901700258255, -0.5877852439880371),
        (5, 3) => (-0.80901700258255, 0.5877852439880371),
        (5, 4) => (0.30901700258255005, 0.9510565400123596),
        (7, 1) => (0.6234897971153259, -0.7818315029144287),
        (7, 2) => (-0.22252093255519867, -0.9749279022216797),
        (7, 3) => (-0.9009688496589661, -0.4338837265968323),
        (7, 4) => (-0.9009688496589661, 0.4338837265968323),
        (7, 5) => (-0.22252093255519867, 0.9749279022216797),
        (7, 6) => (0.6234897971153259, 0.7818315029144287),
        (8, 1) => (0.7071067690849304, -0.7071067690849304),
        (8, 3) => (-0.7071067690849304, -0.7071067690849304),
        (8, 5) => (-0.7071067690849304, 0.7071067690849304),
        (8, 7) => (0.7071067690849304, 0.7071067690849304),
        _ => panic!("{t} of {r} parts are whole quarters"),
    };
    Complex32::new(cosine, sine)
}

/// A cell turned by t of r parts of a circle: whole quarters exchange and flip signs, any other turn multiplies in full.
fn turned(x: &Complex32, t: usize, r: usize) -> Complex32 {
    if 4 * t % r != 0 {
        return x.mul(&numbers(t, r));
    }
    match 4 * t / r {
        0 => *x,
        1 => Complex32::new(x.im, -x.re),
        2 => Complex32::new(-x.re, -x.im),
        _ => Complex32::new(-x.im, x.re),
    }
}

/// A stage of radix r at a stride, with its own twiddles packed for the width that is asked for.
pub(crate) fn butterfly(
    r: usize,
    input: &[Complex32],
    output: &mut [Complex32],
    twiddles: &[Complex32],
    stride: usize,
) {
    let m = input.len() / r;
    for i in 0..m {
        let read = |q: usize| {
            let x = &input[i + q * m];
            if stride == 1 || q == 0 {
                *x
            } else {
                x.mul(&twiddles[place(m, r, asked::width(), i, q)])
            }
        };
        let cells: Vec<Complex32> = (0..r).map(read).collect();
        for p in 0..r {
            let mut sum = cells[0];
            for (q, cell) in cells.iter().enumerate().skip(1) {
                sum = sum.add(&turned(cell, p * q % r, r));
            }
            output[i / stride * stride * r + i % stride + p * stride] = sum;
        }
    }
}

macro_rules! kernel {
    ($name:ident, $radix:literal) => {
        pub(crate) fn $name(
            input: &[Complex32],
            output: &mut [Complex32],
            twiddles: &[Complex32],
            stride: usize,
        ) {
            butterfly($radix, input, output, twiddles, stride)
        }
    };
}

kernel!(butterfly_radix2_dispatch, 2);
kernel!(butterfly_radix3_dispatch, 3);
kernel!(butterfly_radix4_dispatch, 4);
kernel!(butterfly_radix5_dispatch, 5);
kernel!(butterfly_radix7_dispatch, 7);
kernel!(butterfly_radix8_dispatch, 8);
