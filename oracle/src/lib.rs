//! The rendering core of handlebars 6.4.4 as an oracle.
//!
//! The source folder has no lib.rs: this one is ours. README.md beside Cargo.toml tells which
//! files are copied and how our lines in them are marked.

// The copied files keep lines that only the parser and the rest of the crate used.
#![allow(dead_code, unused_imports)]

#[cfg_attr(test, macro_use)]
extern crate serde_json;

/// The core logs what it draws; the oracle does not.
macro_rules! debug {
    ($($arg:tt)*) => {};
}

// Copied.
mod block;
mod context;
mod decorators;
mod error;
mod helpers;
pub mod json;
mod local_vars;
mod output;
mod partial;
mod registry;
mod render;
mod support;
pub mod template;

// The source has these files too, but its folder does not hold them.
pub mod grammar;
mod util;

// Ours.
pub mod batch;
pub mod bundle;
pub mod call;
pub mod compare;
pub mod form;
pub mod gen;
mod limits;
pub mod plan;
#[cfg(test)]
mod test;

// The names under which the core reaches its own crate's root.
use self::block::BlockParamHolder;
use self::error::RenderErrorReason;
use self::json::path::Path;
use self::output::{Output, StringOutput};
use self::template::Template;
