//! The processor's time: unlike the clock's, it leaves out what else the machine does.

/// `struct rusage` of Linux on x86-64: seconds and microseconds of user and of system time, and fourteen other numbers.
#[repr(C)]
#[derive(Default)]
struct Usage {
    user: [i64; 2],
    system: [i64; 2],
    others: [i64; 14],
}

const SELF: i32 = 0;
const CHILDREN: i32 = -1;

unsafe extern "C" {
    fn getrusage(who: i32, usage: *mut Usage) -> i32;
}

/// Nanoseconds that this process and those that it started and that have ended took so far.
fn spent() -> f64 {
    [SELF, CHILDREN].into_iter().map(spent_by).sum()
}

fn spent_by(who: i32) -> f64 {
    let mut u = Usage::default();
    assert_eq!(unsafe { getrusage(who, &mut u) }, 0);
    [u.user, u.system].into_iter().map(|[s, us]| s as f64 * 1e9 + us as f64 * 1e3).sum()
}

const WARM_UP: usize = 3;
const ROUNDS: usize = 25;

/// Nanoseconds of the fastest round of each. What else the machine does only adds to a round.
pub fn side_by_side(one: impl FnMut(), other: impl FnMut()) -> (f64, f64) {
    let (one, other) = rounds(one, other);
    (one[0], other[0])
}

/// Nanoseconds of the rounds of each, the fastest first: a round of one follows a round of the other.
pub fn rounds(mut one: impl FnMut(), mut other: impl FnMut()) -> (Vec<f64>, Vec<f64>) {
    for _ in 0..WARM_UP {
        one();
        other();
    }
    let (mut ones, mut others): (Vec<f64>, Vec<f64>) = (0..ROUNDS).map(|_| (nanoseconds(&mut one), nanoseconds(&mut other))).unzip();
    ones.sort_by(f64::total_cmp);
    others.sort_by(f64::total_cmp);
    (ones, others)
}

fn nanoseconds(f: &mut impl FnMut()) -> f64 {
    let from = spent();
    f();
    spent() - from
}
