//! Safe calls of Zerwydd, the proved rendering core of handlebars 6.4.4: a compiled *bundle* of templates and a JSON *plan* go in;
//! text, or an error with its place, comes out.
//!
//! ```
//! use zerwydd::{render, Options, Reason};
//!
//! # let sample = concat!(env!("CARGO_MANIFEST_DIR"), "/../samples/cutting-list");
//! let bundle = std::fs::read(format!("{sample}/bundle.bin"))?;
//! let plan = std::fs::read(format!("{sample}/plan.json"))?;
//! let sheet = render(&bundle, &plan, "main", Options::default())?;
//! assert!(sheet.contains("Side"));
//!
//! let error = render(&bundle, b"{", "main", Options::default()).unwrap_err();
//! assert_eq!(error.reason, Reason::NotJson);
//! # Ok::<(), Box<dyn std::error::Error>>(())
//! ```
//!
//! A [`Renderer`] keeps its buffers (about 180 kB with a page of 65,536 bytes) from call to call; [`render`] makes one for its call.
//!
//! # Stack
//!
//! The core recurses as deeply as templates nest. The deepest bundles take 3,120 KiB of stack by measure (docs/BUFFERS.md, which
//! promises that 4 MiB do): more than the 2 MiB that a thread of Rust has by default. So every call here runs on a thread of its own
//! with 8 MiB, which takes some ten microseconds. To spare them, make many calls inside [`with_stack`]: it starts such a thread once,
//! and the calls inside it run right there.

#![warn(missing_docs)]

mod error;
mod library;
mod stack;

pub use error::{Reason, RenderError};
pub use stack::with_stack;

use library::Answer;

/// The page that a [`Renderer`] has unless it is told otherwise, in bytes.
pub const PAGE: usize = 65_536;

/// How templates are drawn. All are off by default.
#[derive(Clone, Copy, Debug, Default, PartialEq, Eq, Hash)]
pub struct Options {
    /// What is not there is refused ([`Reason::MissingVariable`]) instead of printing nothing.
    pub strict: bool,
    /// A lone name that the current value lacks is looked for in the values around that one in the plan, up to the whole plan.
    pub recursive_lookup: bool,
    /// For `if` and `unless` an empty object is true, as the Handlebars guide has it. Not together with `strict`.
    pub guide_truth: bool,
}

impl Options {
    fn bits(self) -> u32 {
        u32::from(self.strict) | u32::from(self.recursive_lookup) << 1 | u32::from(self.guide_truth) << 2
    }
}

/// Renders the template `start` of `bundle` with `plan`, on a page of [`PAGE`] bytes.
///
/// # Errors
/// Where the core refuses, by the number and at the place that the [`RenderError`] tells.
///
/// # Panics
/// If the system has no memory for a thread, see [`with_stack`].
pub fn render(bundle: &[u8], plan: &[u8], start: &str, options: Options) -> Result<String, RenderError> {
    Renderer::new().render(bundle, plan, start, options)
}

/// A renderer with its buffers.
///
/// ```
/// use zerwydd::{Options, Reason, Renderer};
///
/// # let sample = concat!(env!("CARGO_MANIFEST_DIR"), "/../samples/delivery-note");
/// # let bundle = std::fs::read(format!("{sample}/bundle.bin"))?;
/// # let plan = std::fs::read(format!("{sample}/plan.json"))?;
/// let mut small = Renderer::with_page(100);
/// let error = small.render(&bundle, &plan, "main", Options::default()).unwrap_err();
/// assert_eq!(error.reason, Reason::PageFull);
/// println!("{error}");
/// # Ok::<(), Box<dyn std::error::Error>>(())
/// ```
#[derive(Clone)]
pub struct Renderer {
    page: Vec<u8>,
    places: Vec<u64>,
    entries: Vec<u64>,
    texts: Vec<u8>,
    indent: Vec<u8>,
}

impl Renderer {
    /// With a page of [`PAGE`] bytes.
    pub fn new() -> Renderer {
        Renderer::with_page(PAGE)
    }

    /// With a page of so many bytes: a longer text is refused ([`Reason::PageFull`]).
    pub fn with_page(bytes: usize) -> Renderer {
        Renderer {
            page: vec![0; bytes],
            places: vec![0; library::PLACES],
            entries: vec![0; library::ENTRIES],
            texts: vec![0; library::TEXTS],
            indent: vec![0; library::INDENT],
        }
    }

    /// The bytes that the page has.
    pub fn page(&self) -> usize {
        self.page.len()
    }

    /// Renders the template `start` of `bundle` with `plan`. A call leaves nothing behind that another could see.
    ///
    /// # Errors
    /// Where the core refuses, by the number and at the place that the [`RenderError`] tells.
    ///
    /// # Panics
    /// If the system has no memory for a thread, see [`with_stack`].
    pub fn render(
        &mut self,
        bundle: &[u8],
        plan: &[u8],
        start: &str,
        options: Options,
    ) -> Result<String, RenderError> {
        let answer = stack::on_enough(|| self.call(bundle, plan, start, options));
        if answer.number != 0 {
            return Err(refusal(bundle, &answer));
        }
        let text = self.page[..answer.length].to_vec();
        // Bundle and plan are UTF-8, and only whole strings of theirs are written.
        Ok(String::from_utf8(text).expect("a page of UTF-8"))
    }

    /// On the caller's stack.
    fn call(&mut self, bundle: &[u8], plan: &[u8], start: &str, options: Options) -> Answer {
        let start = start.as_bytes();
        // SAFETY: each pointer goes with the length of its slice, and the slices that are written are ours alone. The stack is what
        // `on_enough` sees to.
        unsafe {
            library::handlebars_render(
                bundle.as_ptr(),
                bundle.len(),
                plan.as_ptr(),
                plan.len(),
                start.as_ptr(),
                start.len(),
                options.bits(),
                self.page.as_mut_ptr(),
                self.page.len(),
                self.places.as_mut_ptr(),
                self.places.len(),
                self.entries.as_mut_ptr(),
                self.entries.len(),
                self.texts.as_mut_ptr(),
                self.texts.len(),
                self.indent.as_mut_ptr(),
                self.indent.len(),
            )
        }
    }
}

impl Default for Renderer {
    fn default() -> Renderer {
        Renderer::new()
    }
}

fn refusal(bundle: &[u8], answer: &Answer) -> RenderError {
    RenderError {
        number: answer.number,
        // A test holds the reasons to include/handlebars.h.
        reason: Reason::of_number(answer.number).expect("a number of the header"),
        template: template_name(bundle, answer.template_name),
        line: answer.line,
        column: answer.column,
    }
}

/// The name at this place of the bundle; 0 is none.
fn template_name(bundle: &[u8], place: usize) -> Option<String> {
    if place == 0 {
        return None;
    }
    // No name is longer than a string of the layout can be.
    let mut name = vec![0; 65_535];
    // SAFETY: each pointer goes with the length of its slice
    let length = unsafe {
        library::handlebars_template_name(bundle.as_ptr(), bundle.len(), place, name.as_mut_ptr(), name.len())
    };
    name.truncate(length);
    Some(String::from_utf8(name).expect("a name of UTF-8"))
}

#[cfg(test)]
mod tests;
