//! Stack enough for any bundle.
//!
//! The core has no guard of its own against a stack that is too small, so a safe call must know that there is enough. A thread of ours
//! knows where its stack begins; a call in it looks how much its caller has used up.

use std::cell::Cell;
use std::hint::black_box;
use std::panic::resume_unwind;
use std::thread;

/// What the deepest call may need. The measured need is in docs/BUFFERS.md.
const NEED: usize = 8 << 20;

/// What is left to the closure of `with_stack` before a call in it takes a thread of its own again.
const OWN: usize = 1 << 20;

thread_local! {
    /// The lowest address from which the need still fits below; none on a thread that is not ours.
    static LOWEST: Cell<Option<usize>> = const { Cell::new(None) };
}

/// Runs `f` on a thread with so much stack that calls of [`crate::render`] and [`crate::Renderer::render`] inside it need no thread of
/// their own. Of that stack `f` may use one MiB itself; a call made from deeper down takes a thread again.
///
/// ```
/// # use zerwydd::{with_stack, Options, Renderer};
/// # let sample = concat!(env!("CARGO_MANIFEST_DIR"), "/../samples/quotation");
/// # let bundle = std::fs::read(format!("{sample}/bundle.bin")).unwrap();
/// # let plans = vec![std::fs::read(format!("{sample}/plan.json")).unwrap(); 3];
/// let sheets: Vec<_> = with_stack(|| {
///     let mut renderer = Renderer::new();
///     plans.iter().map(|plan| renderer.render(&bundle, plan, "main", Options::default())).collect()
/// });
/// # assert!(sheets.iter().all(|s| s.is_ok()));
/// ```
///
/// # Panics
/// If the system has no memory for a thread. A panic of `f` goes on here.
pub fn with_stack<T: Send>(f: impl FnOnce() -> T + Send) -> T {
    thread::scope(|scope| {
        // Some more, for what stands above the first address that is looked at.
        let builder = thread::Builder::new().stack_size(NEED + OWN + (64 << 10));
        let run = || {
            LOWEST.set(Some(here() - OWN));
            f()
        };
        let thread = builder.spawn_scoped(scope, run).expect("a thread with enough stack");
        thread.join().unwrap_or_else(|panic| resume_unwind(panic))
    })
}

/// Runs `f` right here if there is enough stack, else on a thread that has it.
pub fn on_enough<T: Send>(f: impl FnOnce() -> T + Send) -> T {
    match LOWEST.get() {
        Some(lowest) if here() >= lowest => f(),
        _ => with_stack(f),
    }
}

/// About the address to which the stack has grown down.
#[inline(never)]
fn here() -> usize {
    let mark = 0_u8;
    black_box(&mark) as *const u8 as usize
}

#[cfg(test)]
mod tests {
    use super::{on_enough, with_stack};
    use std::hint::black_box;
    use std::thread;

    #[test]
    fn a_call_outside_has_its_own_thread() {
        let me = thread::current().id();
        assert_ne!(on_enough(|| thread::current().id()), me);
    }

    #[test]
    fn calls_inside_share_one() {
        with_stack(|| {
            let me = thread::current().id();
            assert_eq!(on_enough(|| thread::current().id()), me);
        });
    }

    /// Uses stack up, then asks on which thread a call would be.
    fn after(kib: usize) -> thread::ThreadId {
        let used = black_box([1_u8; 1024]);
        let id = if kib == 0 { on_enough(|| thread::current().id()) } else { after(kib - 1) };
        black_box(used);
        id
    }

    #[test]
    fn a_call_from_deep_down_has_its_own_again() {
        with_stack(|| {
            let me = thread::current().id();
            assert_eq!(after(100), me);
            assert_ne!(after(1_500), me);
        });
    }

    #[test]
    #[should_panic(expected = "passed on")]
    fn a_panic_goes_on() {
        with_stack(|| panic!("passed on"));
    }
}
