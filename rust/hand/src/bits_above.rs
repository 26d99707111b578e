//! Finds which of sixteen samples are above a level, with the processor's own instructions for it. The source uses
//! std::simd, which no stable compiler has.

/// One bit for each sample, the lowest for the first. It is set if the sample is above `low`.
#[cfg(target_arch = "x86_64")]
#[inline(always)]
pub(crate) fn bits_above(samples: [u16; 16], low: u16) -> u64 {
    use std::arch::x86_64::*;
    // Each x86-64 processor has SSE2, and the loads need no alignment. SSE2 compares only numbers with a sign, so the
    // top bit is turned in all of them, which keeps their order.
    unsafe {
        let halves = samples.as_ptr() as *const __m128i;
        let (low, turn) = (_mm_set1_epi16((low ^ 0x8000) as i16), _mm_set1_epi16(i16::MIN));
        let first = _mm_cmpgt_epi16(_mm_xor_si128(_mm_loadu_si128(halves), turn), low);
        let second = _mm_cmpgt_epi16(_mm_xor_si128(_mm_loadu_si128(halves.add(1)), turn), low);
        u64::from(_mm_movemask_epi8(_mm_packs_epi16(first, second)) as u16)
    }
}

/// One bit for each sample, the lowest for the first. It is set if the sample is above `low`.
#[cfg(target_arch = "aarch64")]
#[inline(always)]
pub(crate) fn bits_above(samples: [u16; 16], low: u16) -> u64 {
    use std::arch::aarch64::*;
    const BITS: [u16; 8] = [1, 2, 4, 8, 16, 32, 64, 128];
    // Each 64-bit ARM processor for which Rust's library is built has NEON.
    unsafe {
        let (low, bits) = (vdupq_n_u16(low), vld1q_u16(BITS.as_ptr()));
        let first = vandq_u16(vcgtq_u16(vld1q_u16(samples.as_ptr()), low), bits);
        let second = vandq_u16(vcgtq_u16(vld1q_u16(samples.as_ptr().add(8)), low), bits);
        u64::from(vaddvq_u16(first)) | u64::from(vaddvq_u16(second)) << 8
    }
}

/// One bit for each sample, the lowest for the first. It is set if the sample is above `low`.
#[allow(dead_code)] // Other processors have it, and tests.
mod plain {
    pub(crate) fn bits_above(samples: [u16; 16], low: u16) -> u64 {
        let above = samples.iter().enumerate().filter(|(_, sample)| **sample > low);
        above.fold(0, |bits, (i, _)| bits | 1 << i)
    }
}
#[cfg(not(any(target_arch = "x86_64", target_arch = "aarch64")))]
pub(crate) use plain::bits_above;

#[cfg(test)]
mod tests {
    /// Each position, among low ones and among high ones, for levels at the ends and near powers of two.
    #[test]
    fn is_the_plain_loop() {
        let mut edges = vec![0u16, 1, 2, 16384, 51200, 65533, 65534, 65535];
        edges.extend((2..16).flat_map(|power| [(1 << power) - 1, 1 << power, (1 << power) + 1]));
        for &low in &edges {
            for &sample in &edges {
                for &other in &[0, low, low.wrapping_add(1), 65535] {
                    for place in 0..16 {
                        let mut samples = [other; 16];
                        samples[place] = sample;
                        assert_eq!(super::bits_above(samples, low), super::plain::bits_above(samples, low));
                    }
                }
            }
        }
    }

    #[test]
    fn is_so_of_mixed_samples() {
        // Numbers that repeat only after all 32 bits' worth of them
        let mut state = 1u32;
        for _ in 0..100_000 {
            let samples = [0; 16].map(|_: u16| {
                state = state.wrapping_mul(1_664_525).wrapping_add(1_013_904_223);
                (state >> 16) as u16
            });
            let low = samples[usize::from(samples[0] % 16)];
            assert_eq!(super::bits_above(samples, low), super::plain::bits_above(samples, low));
        }
    }
}
