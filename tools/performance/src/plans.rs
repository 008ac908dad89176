//! Lists for a plan, of the most entries that it takes, and the same numbers by the obvious loop.
use crate::journal::journal;
use crate::ours::PlanNumbers;
use std::iter::repeat;

pub const ENTRIES: usize = 65536;

/// A list that came again would be known to the processor, with the branches it leads to.
pub const LISTS: usize = 20;

/// Lists of one kind, one behind the other.
pub struct Lists {
    pub name: String,
    pub limit: usize,
    lengths: Vec<u32>,
}

impl Lists {
    fn new(name: &str, limit: usize, lengths: impl Iterator<Item = u32>) -> Lists {
        Lists { name: name.into(), limit, lengths: lengths.take(LISTS * ENTRIES).collect() }
    }

    pub fn each(&self) -> impl Iterator<Item = &[u32]> {
        self.lengths.chunks(ENTRIES)
    }
}

pub fn lists() -> [Lists; 5] {
    [
        Lists::new("6,000 and a flush in turn, C 4,096", 4096, [6000, 0].into_iter().cycle()),
        Lists::new("any lengths, C 4,096", 4096, numbers()),
        Lists::new("the longest lengths, C 1", 1, repeat(u32::MAX)),
        Lists::new("the longest lengths, C 2,097,151", 2_097_151, repeat(u32::MAX)),
        mixed(),
    ]
}

/// Neither where a flush stands nor where what is left over fills a chunk follows a pattern.
fn mixed() -> Lists {
    let mut numbers = numbers();
    let limit = 1 + numbers.next().unwrap() % (2 << 20);
    let entry = |n| match n % 4 {
        0 => 0,
        1 => n / 4 % (2 * limit),
        _ => n,
    };
    Lists::new(&format!("flushes, short and long lengths mixed, C {limit}"), limit as usize, numbers.map(entry))
}

/// Enough, and one more, of 32 bits.
fn numbers() -> impl Iterator<Item = u32> {
    let bytes = journal(4 * (LISTS * ENTRIES + 1));
    (0..bytes.len()).step_by(4).map(move |at| u32::from_le_bytes(bytes[at..at + 4].try_into().unwrap()))
}

/// An entry's division waits for what the entry before it left held.
#[inline(never)]
pub fn obvious(limit: usize, lengths: &[u32]) -> PlanNumbers {
    let limit = limit as u64;
    let mut p = PlanNumbers::default();
    for &n in lengths {
        if n == 0 {
            let cut = u64::from(p.held != 0);
            p.chunks += cut;
            p.stored += p.held;
            p.held = 0;
            p.flushes += 1 + cut;
        } else {
            let bytes = p.held + u64::from(n);
            let whole = bytes / limit;
            p.held = bytes % limit;
            p.chunks += whole;
            p.stored += whole * limit;
            p.appends += whole + u64::from(p.held != 0);
        }
    }
    p
}
