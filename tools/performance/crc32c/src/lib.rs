//! CRC32C by one table of 256 numbers.

const POLY: u32 = 0x82F6_3B78;

const TABLE: [u32; 256] = table();

const fn table() -> [u32; 256] {
    let mut t = [0; 256];
    let mut i = 0;
    while i < 256 {
        let mut crc = i as u32;
        let mut bit = 0;
        while bit < 8 {
            crc = if crc & 1 == 1 { (crc >> 1) ^ POLY } else { crc >> 1 };
            bit += 1;
        }
        t[i] = crc;
        i += 1;
    }
    t
}

pub fn crc32c(data: &[u8]) -> u32 {
    !data.iter().fold(!0, |crc, b| TABLE[((crc ^ *b as u32) & 255) as usize] ^ (crc >> 8))
}

pub fn crc32c_combine(crc1: u32, crc2: u32, len2: usize) -> u32 {
    if len2 == 0 {
        return crc1;
    }
    let mut power: [u32; 32] = std::array::from_fn(|i| {
        let x = 1 << i;
        TABLE[(x & 255) as usize] ^ (x >> 8)
    });
    let (mut crc, mut n) = (crc1, len2);
    loop {
        if n & 1 == 1 {
            crc = times(&power, crc);
        }
        n >>= 1;
        if n == 0 {
            return crc ^ crc2;
        }
        power = std::array::from_fn(|i| times(&power, power[i]));
    }
}

fn times(m: &[u32; 32], mut v: u32) -> u32 {
    let (mut sum, mut i) = (0, 0);
    while v != 0 {
        if v & 1 == 1 {
            sum ^= m[i];
        }
        v >>= 1;
        i += 1;
    }
    sum
}

/// The same by the processor's instruction, which the crate crc32c uses where there is one.
#[cfg(target_arch = "x86_64")]
#[target_feature(enable = "sse4.2")]
pub fn by_instruction(data: &[u8]) -> u32 {
    use std::arch::x86_64::{_mm_crc32_u8, _mm_crc32_u64};
    let words = data.chunks_exact(8);
    let rest = words.remainder();
    let crc = words.fold(!0u32 as u64, |crc, w| _mm_crc32_u64(crc, u64::from_le_bytes(w.try_into().unwrap())));
    !rest.iter().fold(crc as u32, |crc, b| _mm_crc32_u8(crc, *b))
}
