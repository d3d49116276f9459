//! Holds another implementation to the oracle: many cases a second, in one process. ../compare links the C library to it.
//! Here the checks of bundles and plans; `render` has the whole call, `sheets` the speed of it.
//!
//! The bytes of a case are lent with other bytes behind them, so that reading too far is noticed, and must come back as they were.
//! The table is lent full of other numbers and with a guard on either side.

/// The library's C boundary, as the crate for Rust declares it.
#[path = "../../rust/src/library.rs"]
pub mod library;
pub mod render;
pub mod sheets;

use std::collections::BTreeMap;
use std::hint::black_box;

use serde_json::value::Value as Json;

use crate::batch::{check_serde, Counts};
use crate::call::check_bundle;
use crate::plan::{check_plan, MAX_VALUES};

/// 0, 2, 3 or 4. What is lent is not to be changed; it is `&mut` so that a change can be seen.
pub type CheckBundle<'a> = &'a dyn Fn(&mut [u8]) -> u32;
/// 0, 7, 8, 9 or 10, with the table of the plan's values.
pub type CheckPlan<'a> = &'a dyn Fn(&mut [u8], &mut [u64]) -> u32;

/// Differences that are kept; the others are only counted.
const KEPT: usize = 10;
const GUARD: usize = 64;

/// What differs, and the bytes of the case.
pub struct Difference {
    pub case: usize,
    pub what: String,
    pub bytes: Vec<u8>,
}

/// What a run met.
#[derive(Default)]
pub struct Report {
    pub cases: usize,
    /// Cases by the oracle's number.
    pub numbers: BTreeMap<u32, usize>,
    pub differ: usize,
    /// The first differences.
    pub first: Vec<Difference>,
    /// Plans only: those that serde_json was asked about.
    pub serde: usize,
}

impl Report {
    fn note(&mut self, number: u32, bytes: Vec<u8>, outcome: Result<(), String>) {
        *self.numbers.entry(number).or_default() += 1;
        if let Err(what) = outcome {
            self.differs(what, || bytes);
        }
        self.cases += 1;
    }

    /// Only the first difference of a case is kept.
    fn differs(&mut self, what: String, bytes: impl FnOnce() -> Vec<u8>) {
        self.differ += 1;
        let kept = self.first.last().is_some_and(|d| d.case == self.cases);
        if !kept && self.first.len() < KEPT {
            self.first.push(Difference { case: self.cases, what, bytes: bytes() });
        }
    }
}

/// Compares on bundles.
pub fn bundles(check: CheckBundle<'_>, bundles: impl Iterator<Item = Vec<u8>>) -> Report {
    let mut report = Report::default();
    for bundle in bundles {
        let wanted = check_bundle(&bundle);
        let outcome = lent(&bundle, report.cases, check).and_then(|got| same(got, wanted));
        report.note(wanted, bundle, outcome);
    }
    report
}

/// Compares on plans.
pub fn plans(check: CheckPlan<'_>, plans: impl Iterator<Item = Vec<u8>>) -> Report {
    let mut report = Report::default();
    let mut counts = Counts::default();
    for plan in plans {
        let wanted = check_plan(&plan);
        let outcome = one_plan(check, &plan, report.cases, wanted, &mut counts);
        report.note(wanted, plan, outcome);
    }
    report.serde = counts.compared;
    report
}

fn one_plan(
    check: CheckPlan<'_>,
    plan: &[u8],
    case: usize,
    wanted: u32,
    counts: &mut Counts,
) -> Result<(), String> {
    let (got, table) = with_table(check, plan, case, 0xA5A5_A5A5_5A5A_5A5A)?;
    same(got, wanted)?;
    if got != 0 {
        zero(&table)?;
    }
    let other = with_table(check, plan, case + 1, !(case as u64))?;
    if other != (got, table) {
        return Err("the answer depends on what stood in the table or behind the plan".to_owned());
    }
    let mut asked = |p: &[u8]| with_table(check, p, case, 1).map_or(u32::MAX, |(n, _)| n);
    check_serde(&mut asked, plan, counts)
}

fn same(got: u32, wanted: u32) -> Result<(), String> {
    if got == wanted {
        Ok(())
    } else {
        Err(format!("the library gives {got}, the oracle {wanted}"))
    }
}

fn zero(table: &[u64]) -> Result<(), String> {
    match table.iter().position(|n| *n != 0) {
        None => Ok(()),
        Some(i) => Err(format!("entry {i} of the table is {:#x} after a refusal", table[i])),
    }
}

/// Calls with `bytes` and a tail behind them that depends on the case.
fn lent(bytes: &[u8], case: usize, f: impl FnOnce(&mut [u8]) -> u32) -> Result<u32, String> {
    let tails: [&[u8]; 4] = [b"\0\0\0\0", b"\xff\xff\xff\xff", b"0123", b"\"]} "];
    let tail = tails[case % 4];
    let mut all = [bytes, tail].concat();
    let got = f(&mut all[..bytes.len()]);
    if all == [bytes, tail].concat() {
        Ok(got)
    } else {
        Err("the bytes lent were changed".to_owned())
    }
}

/// The answer and the table, which was full of `filled` before.
fn with_table(
    check: CheckPlan<'_>,
    plan: &[u8],
    case: usize,
    filled: u64,
) -> Result<(u32, Vec<u64>), String> {
    let mut all = vec![filled; MAX_VALUES + 2 * GUARD];
    let table = GUARD..GUARD + MAX_VALUES;
    let got = lent(plan, case, |p| check(p, &mut all[table.clone()]))?;
    let guards = all[..table.start].iter().chain(&all[table.end..]);
    if guards.into_iter().any(|n| *n != filled) {
        return Err("written beside the table".to_owned());
    }
    Ok((got, all[table].to_vec()))
}

/// MB a second of processor time of both, the medians of some rounds.
pub struct Speed {
    pub library: f64,
    pub serde: f64,
}

/// Reads `plan` again and again: by the library, then by serde_json into a `Value`, round by round.
pub fn speed(check: CheckPlan<'_>, plan: &[u8], rounds: usize) -> Result<Speed, String> {
    let mut plan = plan.to_vec();
    let mut table = vec![0; MAX_VALUES];
    same(check(&mut plan, &mut table), 0)?;
    let turns = 1 + 4_000_000 / plan.len();
    let (mut library, mut serde) = (Vec::new(), Vec::new());
    for _ in 0..rounds {
        library.push(rate(plan.len(), turns, || {
            black_box(check(black_box(&mut plan), black_box(&mut table)));
        }));
        serde.push(rate(plan.len(), turns, || {
            black_box(serde_json::from_slice::<Json>(black_box(&plan)).is_ok());
        }));
    }
    Ok(Speed { library: median(library), serde: median(serde) })
}

fn rate(bytes: usize, turns: usize, mut f: impl FnMut()) -> f64 {
    let begin = thread_seconds();
    for _ in 0..turns {
        f();
    }
    (bytes * turns) as f64 / (thread_seconds() - begin) / 1e6
}

/// Processor time of this thread: what others do on the machine does not count.
fn thread_seconds() -> f64 {
    extern "C" {
        fn clock_gettime(clock: i32, time: *mut [i64; 2]) -> i32;
    }
    const CLOCK_THREAD_CPUTIME_ID: i32 = 3;
    let mut time = [0; 2];
    // SAFETY: on 64-bit Linux a timespec is two numbers of 64 bits, seconds and nanoseconds
    assert_eq!(unsafe { clock_gettime(CLOCK_THREAD_CPUTIME_ID, &mut time) }, 0, "the thread's clock");
    time[0] as f64 + time[1] as f64 / 1e9
}

fn median(mut all: Vec<f64>) -> f64 {
    all.sort_by(f64::total_cmp);
    all[all.len() / 2]
}

#[cfg(test)]
mod test {
    use super::{bundles, plans, speed, Report};
    use crate::call::check_bundle;
    use crate::gen::{cases, Order};
    use crate::plan::check_plan;

    fn order(profile: &str) -> Order {
        Order { profile: profile.to_owned(), seed: 1, count: 300, max_bytes: usize::MAX, cabinets: 3 }
    }

    fn over_bundles(check: &dyn Fn(&mut [u8]) -> u32) -> Report {
        bundles(check, cases(&order("damaged")).map(|c| c.bundle))
    }

    fn over_plans(check: &dyn Fn(&mut [u8], &mut [u64]) -> u32) -> Report {
        plans(check, cases(&order("json")).map(|c| c.plan))
    }

    /// A right check, whose table is one in its first entry and zeros, or zeros after a refusal.
    fn right(plan: &[u8], table: &mut [u64]) -> u32 {
        let number = check_plan(plan);
        table.fill(0);
        if number == 0 {
            table[0] = 1;
        }
        number
    }

    #[test]
    fn test_what_is_right_passes() {
        let report = over_bundles(&|b| check_bundle(b));
        assert_eq!((report.cases, report.differ), (300, 0));
        let report = over_plans(&|p, t| right(p, t));
        assert_eq!((report.cases, report.differ), (300, 0));
        assert!(report.serde > 250);
        assert!(speed(&|p, t| right(p, t), b"[1]", 1).is_ok());
    }

    fn noticed(report: &Report, what: &str) {
        assert!(report.differ > 0);
        assert!(report.first.iter().any(|d| d.what.contains(what)), "{}", report.first[0].what);
    }

    #[test]
    fn test_what_is_wrong_is_noticed() {
        noticed(&over_bundles(&|_| 3), "the library gives 3, the oracle 0");
        let changed = over_bundles(&|b| {
            let number = check_bundle(b);
            b.iter_mut().for_each(|b| *b = 0);
            number
        });
        noticed(&changed, "were changed");
        noticed(&over_plans(&|p, t| right(p, t).min(9)), "the library gives 9, the oracle 10");
        let dirty = |p: &mut [u8], t: &mut [u64]| {
            let number = right(p, t);
            t[4095] = u64::from(number == 9);
            number
        };
        noticed(&over_plans(&dirty), "entry 4095 of the table is 0x1 after a refusal");
        let kept = |p: &mut [u8], t: &mut [u64]| {
            let before = t[7];
            let number = right(p, t);
            if number == 0 {
                t[7] = before;
            }
            number
        };
        noticed(&over_plans(&kept), "depends on what stood in the table");
        assert!(speed(&|_, _| 8, b"1", 1).is_err());
    }
}
