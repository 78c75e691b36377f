//! The edits that the missing kernels, a width to choose and the trace of places need, and the program that makes them.
//!
//! `edits FROM TO` copies the original's files from FROM/src to TO and edits the copies. An edit names a file, the
//! text that it expects there exactly once, and the text that takes its place. Nothing else is changed: code that
//! is shut off stays where it is, under a condition that never holds.
use std::{env, fs, path::Path, process::exit};

/// The original's files, and where the copies stand.
const FILES: &[(&str, &str)] = &[
    ("src/lib.rs", "rates.rs"),
    ("src/fft/mod.rs", "fft/mod.rs"),
    ("src/fft/optimizer.rs", "fft/optimizer.rs"),
    ("src/fft/planner.rs", "fft/planner.rs"),
    ("src/fft/radix_fft.rs", "fft/radix_fft.rs"),
    ("src/fft/stockham_autosort.rs", "fft/stockham_autosort.rs"),
    ("src/fft/real_complex/mod.rs", "fft/real_complex/mod.rs"),
];

/// One edit of a copy.
struct Edit {
    file: &'static str,
    old: &'static str,
    new: &'static str,
}

const EDITS: &[Edit] = &[
    // The crate's root is ours: of the original's, the rates alone are kept.
    Edit {
        file: "rates.rs",
        old: r#"#![cfg_attr(feature = "no_std", no_std)]
#![forbid(missing_docs)]

extern crate alloc;

mod error;
mod fft;
mod fir;
mod resampler_fft;
mod resampler_fir;
mod window;

pub use error::ResampleError;
pub(crate) use fft::*;
pub use resampler_fft::*;
pub use resampler_fir::{Attenuation, Latency, ResamplerFir};
"#,
        new: "",
    },
    Edit {
        file: "rates.rs",
        old: "\nenum SampleRateFamily {",
        new: "\npub(crate) enum SampleRateFamily {",
    },
    // The kernels are not among the files.
    Edit {
        file: "fft/mod.rs",
        old: "pub(crate) mod butterflies;",
        new: "pub(crate) use crate::butterflies;",
    },
    // What the oracle asks one by one.
    Edit {
        file: "fft/optimizer.rs",
        old: "\nfn apply_transformations(",
        new: "\npub(crate) fn apply_transformations(",
    },
    Edit {
        file: "fft/radix_fft.rs",
        old: "\n    fn compute_factors(",
        new: "\n    pub(crate) fn compute_factors(",
    },
    Edit {
        file: "fft/radix_fft.rs",
        old: "\n    fn process_forward_complex(",
        new: "\n    pub(crate) fn process_forward_complex(",
    },
    Edit {
        file: "fft/radix_fft.rs",
        old: "\n    fn postprocess_fft(",
        new: "\n    pub(crate) fn postprocess_fft(",
    },
    Edit {
        file: "fft/radix_fft.rs",
        old: "\n    fn preprocess_ifft(",
        new: "\n    pub(crate) fn preprocess_ifft(",
    },
    Edit {
        file: "fft/radix_fft.rs",
        old: r#"    n: usize,
    n2: usize,
    factors: Vec<Radix>,
    stockham_twiddles: Vec<Complex32>,
    real_complex_expansion_twiddles: Vec<Complex32>,
    complex_real_reduction_twiddles: Vec<Complex32>,
"#,
        new: r#"    pub(crate) n: usize,
    pub(crate) n2: usize,
    pub(crate) factors: Vec<Radix>,
    pub(crate) stockham_twiddles: Vec<Complex32>,
    pub(crate) real_complex_expansion_twiddles: Vec<Complex32>,
    pub(crate) complex_real_reduction_twiddles: Vec<Complex32>,
"#,
    },
    Edit {
        file: "fft/radix_fft.rs",
        old: "\n    fn compute_twiddle_f32(",
        new: "\n    pub(crate) fn compute_twiddle_f32(",
    },
    // The layout of the twiddles is the one asked for, scalar unless another is.
    Edit {
        file: "fft/radix_fft.rs",
        old: "let simd_width = Self::detect_simd_width();",
        new: r#"let simd_width = match crate::asked::width() {
            4 => SimdWidth::Width4,
            2 => SimdWidth::Width2,
            _ => SimdWidth::Scalar,
        };"#,
    },
    // Places are told apart: in a trace a stage has as many columns as iterations, and its twiddles are codes.
    // The packing between these edits is as it was, and so is all of it outside a trace.
    Edit {
        file: "fft/radix_fft.rs",
        old: "            // Generate base twiddles for this stage (one per column).\n",
        new: r#"            {
            let stride = crate::asked::columns(stride, iterations);
            // Generate base twiddles for this stage (one per column).
"#,
    },
    Edit {
        file: "fft/radix_fft.rs",
        old: "base_twiddles.push(Self::compute_twiddle_f32(col * k, stage_size));",
        new: r#"base_twiddles.push(
                        crate::asked::code(stage_index, col, k)
                            .unwrap_or_else(|| Self::compute_twiddle_f32(col * k, stage_size)),
                    );"#,
    },
    Edit {
        file: "fft/radix_fft.rs",
        old: "            stride = stage_size;\n        }\n\n        twiddles\n",
        new: "            }\n            stride = stage_size;\n        }\n\n        twiddles\n",
    },
    // Scalar width: the driver and both ends.
    Edit {
        file: "fft/radix_fft.rs",
        old: "        let (postprocess_fft, preprocess_ifft): (PostprocessFn, PreprocessFn) =\n",
        new: r#"        #[cfg(any())]
        let (postprocess_fft, preprocess_ifft): (PostprocessFn, PreprocessFn) =
"#,
    },
    Edit {
        file: "fft/radix_fft.rs",
        old: "        let stockham_autosort_fn: StockhamAutosortFn = ",
        new: "        #[cfg(any())]\n        let stockham_autosort_fn: StockhamAutosortFn = ",
    },
    Edit {
        file: "fft/radix_fft.rs",
        old: r#"            #[cfg(all(target_arch = "x86_64", not(feature = "no_std")))]
            postprocess_fft,
            #[cfg(any(not(target_arch = "x86_64"), feature = "no_std"))]
            postprocess_fft: super::real_complex::select_postprocess_fn(),
"#,
        new: "            postprocess_fft: super::real_complex::postprocess_fft_scalar,\n",
    },
    Edit {
        file: "fft/radix_fft.rs",
        old: r#"            #[cfg(all(target_arch = "x86_64", not(feature = "no_std")))]
            preprocess_ifft,
            #[cfg(any(not(target_arch = "x86_64"), feature = "no_std"))]
            preprocess_ifft: super::real_complex::select_preprocess_fn(),
"#,
        new: "            preprocess_ifft: super::real_complex::preprocess_ifft_scalar,\n",
    },
    Edit {
        file: "fft/radix_fft.rs",
        old: r#"            #[cfg(all(target_arch = "x86_64", not(feature = "no_std")))]
            stockham_autosort_fn,
            #[cfg(any(not(target_arch = "x86_64"), feature = "no_std"))]
            stockham_autosort_fn: super::stockham_autosort::stockham_autosort,
"#,
        new: "            stockham_autosort_fn: super::stockham_autosort::stockham_autosort,\n",
    },
    Edit {
        file: "fft/stockham_autosort.rs",
        old: "define_stockham_autosort!(\n    stockham_autosort_avx_fma,",
        new: r#"#[cfg(any())]
define_stockham_autosort!(
    stockham_autosort_avx_fma,"#,
    },
    Edit {
        file: "fft/stockham_autosort.rs",
        old: "define_stockham_autosort!(\n    stockham_autosort_sse2,",
        new: r#"#[cfg(any())]
define_stockham_autosort!(
    stockham_autosort_sse2,"#,
    },
    Edit {
        file: "fft/stockham_autosort.rs",
        old: "define_stockham_autosort!(\n    stockham_autosort_sse4_2,",
        new: r#"#[cfg(any())]
define_stockham_autosort!(
    stockham_autosort_sse4_2,"#,
    },
    Edit {
        file: "fft/stockham_autosort.rs",
        old: r#"#[cfg(any(not(target_arch = "x86_64"), feature = "no_std"))]
#[must_use]
pub(crate) fn stockham_autosort("#,
        new: "#[must_use]\npub(crate) fn stockham_autosort(",
    },
    Edit {
        file: "fft/real_complex/mod.rs",
        old: "mod avx;",
        new: "#[cfg(any())]\nmod avx;",
    },
    Edit {
        file: "fft/real_complex/mod.rs",
        old: "mod sse2;",
        new: "#[cfg(any())]\nmod sse2;",
    },
    Edit {
        file: "fft/real_complex/mod.rs",
        old: "mod neon;",
        new: "#[cfg(any())]\nmod neon;",
    },
    Edit {
        file: "fft/real_complex/mod.rs",
        old: r#"/// Scalar implementation of postprocess_fft (fallback).
#[cfg(any(
    test,
    all(
        not(all(target_arch = "x86_64", target_feature = "sse2")),
        not(target_arch = "aarch64")
    )
))]
"#,
        new: "/// Scalar implementation of postprocess_fft (fallback).\n",
    },
    Edit {
        file: "fft/real_complex/mod.rs",
        old: r#"/// Scalar implementation of preprocess_ifft (fallback)
#[cfg(any(
    test,
    all(
        not(all(target_arch = "x86_64", target_feature = "sse2")),
        not(target_arch = "aarch64")
    )
))]
"#,
        new: "/// Scalar implementation of preprocess_ifft (fallback)\n",
    },
    Edit {
        file: "fft/real_complex/mod.rs",
        old: "pub(crate) fn postprocess_fft_avx_fma_wrapper(",
        new: "#[cfg(any())]\npub(crate) fn postprocess_fft_avx_fma_wrapper(",
    },
    Edit {
        file: "fft/real_complex/mod.rs",
        old: "pub(crate) fn preprocess_ifft_avx_fma_wrapper(",
        new: "#[cfg(any())]\npub(crate) fn preprocess_ifft_avx_fma_wrapper(",
    },
    Edit {
        file: "fft/real_complex/mod.rs",
        old: "pub(crate) fn postprocess_fft_sse2_wrapper(",
        new: "#[cfg(any())]\npub(crate) fn postprocess_fft_sse2_wrapper(",
    },
    Edit {
        file: "fft/real_complex/mod.rs",
        old: "pub(crate) fn preprocess_ifft_sse2_wrapper(",
        new: "#[cfg(any())]\npub(crate) fn preprocess_ifft_sse2_wrapper(",
    },
    Edit {
        file: "fft/real_complex/mod.rs",
        old: "pub(crate) fn postprocess_fft_neon_wrapper(",
        new: "#[cfg(any())]\npub(crate) fn postprocess_fft_neon_wrapper(",
    },
    Edit {
        file: "fft/real_complex/mod.rs",
        old: "pub(crate) fn preprocess_ifft_neon_wrapper(",
        new: "#[cfg(any())]\npub(crate) fn preprocess_ifft_neon_wrapper(",
    },
    Edit {
        file: "fft/real_complex/mod.rs",
        old: "pub(crate) fn select_postprocess_fn(",
        new: "#[cfg(any())]\npub(crate) fn select_postprocess_fn(",
    },
    Edit {
        file: "fft/real_complex/mod.rs",
        old: "pub(crate) fn select_preprocess_fn(",
        new: "#[cfg(any())]\npub(crate) fn select_preprocess_fn(",
    },
];

/// Says what is wrong and ends with a failure.
fn fail(what: String) -> ! {
    eprintln!("edits: {what}");
    exit(1)
}

/// A file of the original with its edits made.
fn edited(text: String, file: &str) -> String {
    let mut text = text;
    for edit in EDITS.iter().filter(|edit| edit.file == file) {
        let found = text.matches(edit.old).count();
        if found != 1 {
            fail(format!(
                "{file}: expected once and found {found} times: {}",
                edit.old
            ));
        }
        text = text.replacen(edit.old, edit.new, 1);
    }
    text
}

fn main() {
    let words: Vec<String> = env::args().collect();
    let [_, from, to] = words.as_slice() else {
        fail("usage: edits FROM TO".to_string());
    };
    for edit in EDITS {
        if !FILES.iter().any(|&(_, copy)| copy == edit.file) {
            fail(format!("an edit names {}, which is not copied", edit.file));
        }
    }
    for (source, copy) in FILES {
        let source = Path::new(from).join(source);
        let copied = Path::new(to).join(copy);
        let text = fs::read_to_string(&source)
            .unwrap_or_else(|why| fail(format!("{}: {why}", source.display())));
        let made = copied
            .parent()
            .map_or(Ok(()), fs::create_dir_all)
            .and_then(|()| fs::write(&copied, edited(text, copy)));
        made.unwrap_or_else(|why| fail(format!("{}: {why}", copied.display())));
    }
}
