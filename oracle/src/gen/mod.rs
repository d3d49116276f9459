//! Generated cases: one module for each profile, and what they share.

pub mod calls;
pub mod damaged;
pub mod deep;
pub mod json;
pub mod limits;
mod limits_draw;
mod limits_room;
pub mod marks;
pub mod nest;
mod plan;
pub mod rich;
mod rich_fail;
pub mod rng;
mod scope;
pub mod sheets;
pub mod sheets_even;
pub mod tree;
pub mod vectors;
pub mod write;

use crate::batch;
use crate::call::{try_render_call, Answer, Options};
use rng::Rng;

pub const STRICT: u8 = 1;
pub const RECURSIVE: u8 = 2;
pub const GUIDE: u8 = 4;

/// The page that the paper's program lends.
pub const PAGE: u32 = 65_536;

/// The cases that `--small` leaves out are larger than this.
pub const SMALL: usize = 6_000;

/// What a call is given.
#[derive(Clone, Debug, PartialEq, Eq)]
pub struct Case {
    pub options: u8,
    pub start: Vec<u8>,
    pub page: u32,
    pub bundle: Vec<u8>,
    pub plan: Vec<u8>,
}

impl Case {
    /// Options off, `main` as start, the full page.
    pub fn new(bundle: Vec<u8>, plan: Vec<u8>) -> Case {
        Case { options: 0, start: b"main".to_vec(), page: PAGE, bundle, plan }
    }

    /// A case of a batch.
    pub fn of_batch(case: &batch::Case<'_>) -> Case {
        let options = case.options;
        let bits = [(options.strict, STRICT), (options.recursive_lookup, RECURSIVE), (options.guide_truth, GUIDE)];
        Case {
            options: bits.iter().filter(|(set, _)| *set).map(|(_, bit)| bit).sum(),
            start: case.start.to_vec(),
            page: case.page,
            bundle: case.bundle.to_vec(),
            plan: case.plan.to_vec(),
        }
    }

    pub fn size(&self) -> usize {
        self.bundle.len() + self.plan.len()
    }

    pub fn call_options(&self) -> Options {
        Options {
            strict: self.options & STRICT != 0,
            recursive_lookup: self.options & RECURSIVE != 0,
            guide_truth: self.options & GUIDE != 0,
        }
    }

    /// Appends the case to a batch.
    pub fn write(&self, out: &mut Vec<u8>) {
        let case = batch::Case {
            options: self.call_options(),
            start: &self.start,
            page: self.page,
            bundle: &self.bundle,
            plan: &self.plan,
        };
        batch::write(&case, out);
    }

    /// The oracle's answer; an error is a fault of the oracle.
    pub fn answer(&self) -> Result<Answer, String> {
        let page = self.page as usize;
        try_render_call(&self.bundle, &self.plan, &self.start, self.call_options(), page)
    }
}

/// What to generate.
#[derive(Clone, Debug)]
pub struct Order {
    pub profile: String,
    pub seed: u64,
    pub count: usize,
    /// Cases whose bundle and plan are larger together are left out.
    pub max_bytes: usize,
    pub cabinets: usize,
}

/// `marks`, `nest` and `calls` are narrower than `rich`, and denser: indents, paths, and calls.
pub const PROFILES: [&str; 8] =
    ["rich", "marks", "nest", "limits", "damaged", "json", "sheets", "calls"];

/// One case of a run.
fn one(order: &Order, index: u64) -> Case {
    let mut rng = Rng::of_case(order.seed, &order.profile, index);
    match order.profile.as_str() {
        "rich" => rich::case(&mut rng),
        "marks" => marks::case(&mut rng),
        "nest" => nest::case(&mut rng),
        "limits" => limits::case(&mut rng, index).0,
        "damaged" => damaged::case(&mut rng),
        "json" => json::case(&mut rng),
        "calls" => calls::case(&mut rng),
        _ => sheets::case(&mut rng, order.cabinets),
    }
}

/// The first `count` cases of the run that are not too large.
pub fn cases(order: &Order) -> impl Iterator<Item = Case> + '_ {
    let fits = |c: &Case| c.size() <= order.max_bytes;
    // A limit that nothing meets must not run for ever.
    let tries = order.count as u64 * 50 + 1_000;
    (0..tries).map(|i| one(order, i)).filter(fits).take(order.count)
}
