// zerwydd {
//! Limits 21 to 25 (document 01), and the budget after which the oracle gives up.
//!
//! The Rust can copy itself out of time and memory on well-formed input. Steps (elements
//! drawn, turns of each) and bytes (cloned, merged or written) are counted; once a budget is
//! spent, values stay behind as null, the next element fails, and `gave_up` says so.

use std::cell::Cell;
use std::error::Error;
use std::fmt;
use std::io::Error as IOError;
use std::rc::Rc;

use serde_json::value::Value as Json;

use crate::error::{RenderError, RenderErrorReason};
use crate::template::Parameter;

/// Open scopes, the first included (23).
pub const SCOPES: usize = 32;
/// Bytes of an indent (21).
pub const INDENT: usize = 256;
/// Entries of merged objects and inline partials (22).
pub const ENTRIES: usize = 4_096;
/// Bytes of block texts (24).
pub const TEXTS: usize = 16_384;

/// Refuses with `number` where `used` passes `limit`.
pub fn within(used: usize, limit: usize, number: u32) -> Result<(), RenderError> {
    if used > limit {
        Err(RenderErrorReason::Limit(number).into())
    } else {
        Ok(())
    }
}

/// The bytes that may still be written, and the refusal of what does not fit.
#[derive(Clone, Debug)]
pub struct Room {
    left: Rc<Cell<usize>>,
    number: u32,
}

impl Room {
    pub fn new(bytes: usize, number: u32) -> Room {
        Room {
            left: Rc::new(Cell::new(bytes)),
            number,
        }
    }

    pub fn take(&self, bytes: usize) -> Result<(), IOError> {
        spend(bytes);
        let left = self.left.get().checked_sub(bytes);
        let left = left.ok_or_else(|| IOError::other(Full(self.number)))?;
        self.left.set(left);
        Ok(())
    }

    pub fn give_back(&self, bytes: usize) {
        self.left.set(self.left.get() + bytes);
    }
}

/// 24 or 25 as `Output::write` gives it back.
#[derive(Debug)]
pub struct Full(pub u32);

impl fmt::Display for Full {
    fn fmt(&self, f: &mut fmt::Formatter<'_>) -> fmt::Result {
        write!(f, "limit {}", self.0)
    }
}

impl Error for Full {}

const STEPS: usize = 2_000_000;
const BYTES: usize = 256 << 20;

/// Counting takes time that the Rust does not; the feature leaves it out where the core is measured.
const COUNTED: bool = !cfg!(feature = "uncounted");

thread_local! {
    static STEPS_LEFT: Cell<usize> = const { Cell::new(STEPS) };
    static BYTES_LEFT: Cell<usize> = const { Cell::new(BYTES) };
    static GAVE_UP: Cell<bool> = const { Cell::new(false) };
}

/// Fills the budgets; each call starts so.
pub fn begin() {
    STEPS_LEFT.set(STEPS);
    BYTES_LEFT.set(BYTES);
    GAVE_UP.set(false);
}

pub fn gave_up() -> bool {
    GAVE_UP.get()
}

fn draw(budget: &'static std::thread::LocalKey<Cell<usize>>, amount: usize) {
    if !COUNTED {
        return;
    }
    match budget.get().checked_sub(amount) {
        Some(left) => budget.set(left),
        None => GAVE_UP.set(true),
    }
}

fn go_on() -> Result<(), RenderError> {
    if COUNTED && gave_up() {
        Err(RenderErrorReason::GaveUp.into())
    } else {
        Ok(())
    }
}

/// One element or one turn of each.
pub fn step() -> Result<(), RenderError> {
    draw(&STEPS_LEFT, 1);
    go_on()
}

pub fn spend(bytes: usize) {
    draw(&BYTES_LEFT, bytes);
}

/// One expansion of a parameter; its text may be copied or looked up.
pub fn parameter(parameter: &Parameter) -> Result<(), RenderError> {
    if !COUNTED {
        return Ok(());
    }
    let text = match parameter {
        Parameter::Literal(value) => value.as_str(),
        _ => parameter.as_name(),
    };
    spend(32 + text.map_or(0, str::len));
    go_on()
}

/// About the bytes that a clone of `v` takes: a map is never smaller than one node of its tree.
fn weight(v: &Json) -> usize {
    match v {
        Json::String(s) => 32 + s.len(),
        Json::Array(a) => 32 + a.iter().map(weight).sum::<usize>(),
        Json::Object(m) if !m.is_empty() => {
            640 + m.iter().map(|(k, v)| 56 + k.len() + weight(v)).sum::<usize>()
        }
        _ => 32,
    }
}

pub fn may_clone(v: &Json) -> bool {
    if !COUNTED {
        return true;
    }
    spend(weight(v));
    !gave_up()
}

pub fn cloned(v: &Json) -> Json {
    if may_clone(v) {
        v.clone()
    } else {
        Json::Null
    }
}

/// A list or a string as base becomes a map of its places.
pub fn may_merge<'a>(base: &Json, mut addition: impl Iterator<Item = &'a Json>) -> bool {
    spend(match base {
        Json::Array(a) => a.len() * 128,
        Json::String(s) => s.len() * 128,
        _ => 0,
    });
    may_clone(base) && addition.all(may_clone)
}
// zerwydd }
