//! A journal whose bytes are no pattern.

pub fn journal(n: usize) -> Vec<u8> {
    let mut x = 88172645463325252u64;
    let next = || {
        x ^= x << 13;
        x ^= x >> 7;
        x ^= x << 17;
        x as u8
    };
    std::iter::repeat_with(next).take(n).collect()
}
