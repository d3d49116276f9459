//! The whole call: checks 2 to 10 in document 01's order, then the core.

use std::cell::Cell;
use std::panic::{catch_unwind, resume_unwind, AssertUnwindSafe};
use std::thread;

use serde_json::value::Value as Json;

use crate::bundle::{decode, Bundle};
use crate::context::Context;
use crate::error::{RenderError, RenderErrorReason};
use crate::limits::{self, Full, Room};
use crate::output::StringOutput;
use crate::plan::check_plan;
use crate::registry::Registry;
use crate::template::{Parameter, Template, TemplateElement};

/// Bytes of a bundle (2).
pub const MAX_BUNDLE: usize = 65_536;

/// 32 scopes of 16 nested bodies need a few megabytes; the rest is never touched.
const STACK: usize = 512 << 20;

#[derive(Clone, Copy, Debug, Default, PartialEq, Eq)]
pub struct Options {
    pub strict: bool,
    pub recursive_lookup: bool,
    pub guide_truth: bool,
}

/// What a call returns. Where `gave_up` is set, the other fields say nothing.
#[derive(Clone, Debug, Default, PartialEq, Eq)]
pub struct Answer {
    pub number: u32,
    pub template: Option<String>,
    pub line: u64,
    pub column: u64,
    pub text: Vec<u8>,
    pub gave_up: bool,
}

/// Renders the template `start` into a page of `page` bytes.
///
/// A fault of the oracle itself is a panic, never an answer; see `try_render_call`.
pub fn render_call(
    bundle: &[u8],
    plan: &[u8],
    start: &[u8],
    options: Options,
    page: usize,
) -> Answer {
    with_big_stack(|| match Ready::new(bundle, plan, start, options) {
        Ok(ready) => ready.draw(page),
        Err(number) => Answer {
            number,
            ..Answer::default()
        },
    })
}

/// `render_call`, with a panic inside it as a message.
pub fn try_render_call(
    bundle: &[u8],
    plan: &[u8],
    start: &[u8],
    options: Options,
    page: usize,
) -> Result<Answer, String> {
    caught(|| render_call(bundle, plan, start, options, page))
}

/// What `f` gives, or the message of its panic.
pub(crate) fn caught<T>(f: impl FnOnce() -> T) -> Result<T, String> {
    catch_unwind(AssertUnwindSafe(f)).map_err(|panic| {
        let text = panic.downcast_ref::<&str>().map(|s| (*s).to_owned());
        text.or_else(|| panic.downcast_ref::<String>().cloned())
            .unwrap_or_else(|| "unknown panic".to_owned())
    })
}

thread_local! {
    static BIG_STACK: Cell<bool> = const { Cell::new(false) };
}

/// Runs `f` in a thread whose stack the core cannot use up. Calls inside `f` run there too,
/// so that a batch needs one thread only.
pub fn with_big_stack<T: Send>(f: impl FnOnce() -> T + Send) -> T {
    if BIG_STACK.get() {
        return f();
    }
    thread::scope(|scope| {
        let run = || {
            BIG_STACK.set(true);
            f()
        };
        let builder = thread::Builder::new().stack_size(STACK);
        let worker = builder.spawn_scoped(scope, run).expect("a thread with a big stack");
        worker.join().unwrap_or_else(|panic| resume_unwind(panic))
    })
}

/// Checks 2 to 10: what the core needs, or the refusal.
fn checked(
    bundle: &[u8],
    plan: &[u8],
    start: &[u8],
    options: Options,
) -> Result<(Bundle, String, Json), u32> {
    let bundle = checked_bundle(bundle)?;
    if options.strict && options.guide_truth {
        return Err(5);
    }
    let names = || bundle.templates.iter().map(|(name, _)| name);
    let start = names().find(|name| name.as_bytes() == start).ok_or(6_u32)?.clone();
    match check_plan(plan) {
        0 => {}
        number => return Err(number),
    }
    let plan = serde_json::from_slice(plan).expect("a plan that passed checks 7 to 10");
    Ok((bundle, start, plan))
}

/// Checks 2 to 4: the bundle, or the refusal.
fn checked_bundle(bundle: &[u8]) -> Result<Bundle, u32> {
    if bundle.len() > MAX_BUNDLE {
        return Err(2);
    }
    let bundle = decode(bundle).map_err(|()| 3_u32)?;
    if bundle.templates.iter().any(|(_, t)| has_partial_path(t)) {
        return Err(4);
    }
    Ok(bundle)
}

/// 0, or the first of 2, 3 and 4 that refuses `bundle`.
pub fn check_bundle(bundle: &[u8]) -> u32 {
    checked_bundle(bundle).err().unwrap_or(0)
}

/// Check 4, in all bodies, whatever the partial's name.
fn has_partial_path(template: &Template) -> bool {
    let inside = |body: &Option<Template>| body.as_ref().is_some_and(has_partial_path);
    template.elements.iter().any(|element| match element {
        TemplateElement::PartialExpression(dt) | TemplateElement::PartialBlock(dt) => {
            matches!(dt.params.first(), Some(Parameter::Name(_) | Parameter::Path(_)))
                || inside(&dt.template)
        }
        TemplateElement::DecoratorBlock(dt) => inside(&dt.template),
        TemplateElement::HelperBlock(ht) => inside(&ht.template) || inside(&ht.inverse),
        _ => false,
    })
}

/// A call past checks 2 to 10, which can be drawn on one page after another.
pub struct Ready {
    registry: Registry<'static>,
    start: String,
    context: Context,
}

impl Ready {
    /// An error is the refusal.
    pub fn new(bundle: &[u8], plan: &[u8], start: &[u8], options: Options) -> Result<Ready, u32> {
        let (bundle, start, plan) = checked(bundle, plan, start, options)?;
        let mut registry = Registry::new();
        for (name, template) in bundle.templates {
            registry.register_template(&name, template);
        }
        let context = Context::from(plan);
        let mut ready = Ready { registry, start, context };
        ready.set(options);
        Ok(ready)
    }

    /// Options that check 5 allows.
    pub fn set(&mut self, options: Options) {
        self.registry.set_strict_mode(options.strict);
        self.registry.set_recursive_lookup(options.recursive_lookup);
        self.registry.set_guide_truth(options.guide_truth);
    }

    /// Into a page of `page` bytes; `with_big_stack` has the stack that it needs.
    pub fn draw(&self, page: usize) -> Answer {
        limits::begin();
        let mut out = StringOutput::limited(Room::new(page, 25));
        let result = self.registry.render_to_output(&self.start, &self.context, &mut out);
        if limits::gave_up() {
            return Answer {
                gave_up: true,
                ..Answer::default()
            };
        }
        match result {
            Ok(()) => Answer {
                text: out.into_string().expect("text of strings").into_bytes(),
                ..Answer::default()
            },
            Err(e) => refusal(&e),
        }
    }
}

/// The core as a caller of the crate has it: a registry made once, no page. For measuring.
pub struct Made {
    registry: Registry<'static>,
}

impl Made {
    /// The templates of a bundle, options off; nothing if checks 2 to 4 refuse it.
    pub fn new(bundle: &[u8]) -> Option<Made> {
        let mut registry = Registry::new();
        for (name, template) in checked_bundle(bundle).ok()?.templates {
            registry.register_template(&name, template);
        }
        Some(Made { registry })
    }

    /// A plan read by serde_json and drawn, on the stack of the caller.
    pub fn render(&self, start: &str, plan: &[u8]) -> Option<String> {
        let plan: Json = serde_json::from_slice(plan).ok()?;
        self.registry.render_with_context(start, &Context::from(plan)).ok()
    }
}

fn refusal(e: &RenderError) -> Answer {
    Answer {
        number: number(e.reason()),
        template: e.template_name.clone(),
        line: e.line_no.expect("a line") as u64,
        column: e.column_no.expect("a column") as u64,
        ..Answer::default()
    }
}

/// Document 01's number of an error; the core gives no others.
fn number(reason: &RenderErrorReason) -> u32 {
    match reason {
        RenderErrorReason::MissingVariable(_) => 11,
        RenderErrorReason::PartialNotFound(_) => 12,
        RenderErrorReason::PartialBlockNotFound => 13,
        RenderErrorReason::HelperNotFound(_) => 14,
        RenderErrorReason::ParamNotFoundForIndex(_, _) => 15,
        RenderErrorReason::DecoratorNotFound(_) => 16,
        RenderErrorReason::CannotIncludeSelf => 17,
        RenderErrorReason::InvalidParamType(_) => 18,
        RenderErrorReason::BlockContentRequired => 19,
        RenderErrorReason::InvalidJsonIndex(_) => 20,
        RenderErrorReason::Limit(number) => *number,
        RenderErrorReason::IOError(e) => match e.get_ref().and_then(|e| e.downcast_ref::<Full>()) {
            Some(full) => full.0,
            None => panic!("unexpected error: {reason:?}"),
        },
        _ => panic!("unexpected error: {reason:?}"),
    }
}
