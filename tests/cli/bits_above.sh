#!/bin/sh
# Compiles the three ways of `bits_above` with their tests into a folder, as x86-64, arm-64 and plain: that of 64-bit
# ARM with functions that do what its five instructions do.
# usage: sh tests/cli/bits_above.sh FOLDER
set -eu

source=$(dirname "$0")/../../rust/hand/src/bits_above.rs
cp "$source" "$1/x86-64.rs"
sed 's/"x86_64"/"none"/; s/"aarch64"/"none"/' "$source" > "$1/plain.rs"
sed 's/"x86_64"/"none"/; s/"aarch64"/"x86_64"/; s/std::arch::aarch64/crate::neon/' "$source" > "$1/arm-64.rs"
cat >> "$1/arm-64.rs" << 'END'
mod neon {
    type Lanes = [u16; 8];
    pub unsafe fn vdupq_n_u16(one: u16) -> Lanes { [one; 8] }
    pub unsafe fn vld1q_u16(from: *const u16) -> Lanes { *(from as *const Lanes) }
    pub unsafe fn vcgtq_u16(a: Lanes, b: Lanes) -> Lanes { std::array::from_fn(|i| u16::from(a[i] > b[i]) * 65535) }
    pub unsafe fn vandq_u16(a: Lanes, b: Lanes) -> Lanes { std::array::from_fn(|i| a[i] & b[i]) }
    pub unsafe fn vaddvq_u16(a: Lanes) -> u16 { a.iter().sum() }
}
END
for way in x86-64 arm-64 plain; do
    rustc --edition 2021 --test -A dead_code -O -o "$1/$way" "$1/$way.rs"
done
