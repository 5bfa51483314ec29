//! Feature bits by which libraries choose the code that computes. Where such a bit comes or goes, a program that starts may print another last
//! decimal.
//!
//! glibc's libm: sysdeps/x86_64/fpu/multiarch, ifunc-fma.h (FMA with AVX2), ifunc-fma4.h and ifunc-avx-fma4.h (then FMA4). Its vector library,
//! libmvec: ifunc-mathvec-avx2.h (FMA with AVX2) and ifunc-mathvec-avx512-skx.h (AVX512DQ), in the same folder. OpenBLAS 0.3.21:
//! driver/others/dynamic.c, `support_avx`, `support_avx2` and `support_avx512`. The last asks for AVX512VL alone and runs kernels of AVX512F, DQ and
//! BW, so those bits choose nothing by themselves.

use crate::features::{EBX, ECX, FeatureBit};

const LIBM: &str = "libm";
const LIBMVEC: &str = "libmvec";
const OPENBLAS: &str = "OpenBLAS";

/// Leaf, register and bit, and the libraries that choose by it.
#[rustfmt::skip]
const MARKED: &[(u32, usize, u32, &[&str])] = &[
    (0x1, ECX, 12, &[LIBM, LIBMVEC]),            // FMA
    (0x1, ECX, 28, &[OPENBLAS]),                 // AVX
    (0x7, EBX, 5, &[LIBM, LIBMVEC, OPENBLAS]),   // AVX2
    (0x7, EBX, 17, &[LIBMVEC]),                  // AVX512DQ
    (0x7, EBX, 31, &[OPENBLAS]),                 // AVX512VL
    (0x8000_0001, ECX, 16, &[LIBM]),             // FMA4
];

/// The libraries that choose their code by a bit; none for most bits.
pub fn chosen_by(bit: &FeatureBit) -> &'static [&'static str] {
    let marked = MARKED.iter().find(|(leaf, register, own, _)| (*leaf, *register, *own) == (bit.leaf, bit.register, bit.bit));
    marked.map_or(&[], |(.., libraries)| libraries)
}
