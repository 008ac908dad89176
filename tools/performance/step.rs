//! The checksum before and after, two static libraries, timed in one run. tools/performance/step builds both and runs it.
#[path = "src/journal.rs"]
mod journal;
#[path = "src/time.rs"]
mod time;

unsafe extern "C" {
    fn before_bytewise(start: u32, bytes: *const u8, length: usize) -> u32;
    fn before_crc32c(bytes: *const u8, length: usize) -> u32;
    fn before_combine(crc1: u32, crc2: u32, len2: u64) -> u32;
    fn after_bytewise(start: u32, bytes: *const u8, length: usize) -> u32;
    fn after_crc32c(bytes: *const u8, length: usize) -> u32;
    fn after_combine(crc1: u32, crc2: u32, len2: u64) -> u32;
}

/// What each side takes for one of `n` like things; it does them all in a round, and both sides come to the same.
fn row(name: &str, n: usize, before: impl Fn() -> u32, after: impl Fn() -> u32) {
    assert_eq!(before(), after(), "{name}");
    let (b, a) = time::side_by_side(|| _ = before(), || _ = after());
    println!("| {name} | {} | {} | {:.2} |", three_digits(b / n as f64), three_digits(a / n as f64), a / b);
}

/// With three digits or more that count.
fn three_digits(ns: f64) -> String {
    let behind = if ns < 10.0 {
        2
    } else if ns < 100.0 {
        1
    } else {
        0
    };
    format!("{ns:.behind$}")
}

/// A byte by the step alone, over a long run: each waits for the one before.
fn byte_row(name: &str, data: &[u8]) {
    let (at, n) = (data.as_ptr(), data.len());
    row(name, n, || unsafe { before_bytewise(0, at, n) }, || unsafe { after_bytewise(0, at, n) });
}

fn sum_row(name: &str, data: &[u8], often: usize) {
    let (at, n) = (data.as_ptr(), data.len());
    let all = |sum: unsafe extern "C" fn(*const u8, usize) -> u32| (0..often).fold(0, |x, _| x ^ unsafe { sum(at, n) });
    row(name, often, || all(before_crc32c), || all(after_crc32c));
}

fn join_row(name: &str, length: u64, often: usize) {
    let all = |join: unsafe extern "C" fn(u32, u32, u64) -> u32| (0..often).fold(1, |x, _| unsafe { join(x, 2, length) });
    row(name, often, || all(before_combine), || all(after_combine));
}

fn main() {
    let data = journal::journal(1 << 20);
    println!("| | before, ns | after, ns | ratio |\n|---|---|---|---|");
    byte_row("a byte, by the step alone", &data);
    sum_row("the sum of 7 bytes", &data[..7], 200_000);
    sum_row("the sum of no byte", &data[..0], 200_000);
    sum_row("the sum of 6,000 bytes", &data[..6000], 2000);
    sum_row("the sum of 6,007 bytes", &data[..6007], 2000);
    join_row("a join behind 6,000 bytes", 6000, 1000);
    join_row("a join behind 1 byte", 1, 20_000);
}
