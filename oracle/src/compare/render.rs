//! The whole call of another implementation, held to the oracle's: every field of the answer and every byte lent.
//!
//! Each case is called with its own page, with pages of 0 and 1 bytes, with one that its text fills exactly and one that is a byte
//! shorter, with another choice of options, and with a scratch buffer that is too short. Page and scratch are lent full of other bytes.

use std::ops::BitOr;
use std::time::Instant;

use super::library::{ENTRIES, INDENT, PLACES, TEXTS};
use super::Report;
use crate::call::{caught, Answer, Ready};
use crate::gen::{Case, GUIDE, STRICT};

/// What a call gives.
pub use super::library::Answer as Given;

pub type In = (*const u8, usize);
pub type Out<T> = (*mut T, usize);

/// What a call is lent, in the order of `handlebars_render`.
#[derive(Clone, Copy)]
pub struct Lent {
    pub bundle: In,
    pub plan: In,
    pub start: In,
    pub options: u32,
    pub page: Out<u8>,
    pub places: Out<u64>,
    pub entries: Out<u64>,
    pub texts: Out<u8>,
    pub indent: Out<u8>,
}

/// The two functions that are compared.
///
/// # Safety
/// Both are called with pointers and lengths of memory that is there for the call.
pub trait Library {
    unsafe fn render(&self, lent: &Lent) -> Given;
    unsafe fn template_name(&self, bundle: In, template_name: usize, out: Out<u8>) -> usize;
}

/// The lengths of places, entries, texts and indent.
pub const SCRATCH: [usize; 4] = [PLACES, ENTRIES, TEXTS, INDENT];

/// A page on which the length of a text is learnt; texts that are longer have no exact page.
const LARGE: usize = 1 << 20;
const GUARD: usize = 64;

type Outcome = Result<(), String>;

/// How buffers are lent.
#[derive(Clone, Copy, PartialEq, Eq)]
pub enum Lending {
    /// Full of other bytes, with a guard on either side.
    Guarded,
    /// Exactly as long as said, and never written before: for valgrind, which sees what is read or written past the end, and where
    /// an answer depends on what stood there.
    Exact,
}

/// A buffer that is lent again and again.
struct Area<T> {
    all: Vec<T>,
    guard: usize,
    len: usize,
    other: T,
}

/// What buffers hold: `u8` and `u64`.
trait Number: Copy + Default + PartialEq + BitOr<Output = Self> {}

impl Number for u8 {}
impl Number for u64 {}

impl<T: Number> Area<T> {
    fn new() -> Area<T> {
        Area { all: Vec::new(), guard: 0, len: 0, other: T::default() }
    }

    fn lend(&mut self, len: usize, other: T, lending: Lending) -> Out<T> {
        (self.len, self.other) = (len, other);
        if lending == Lending::Exact {
            self.guard = 0;
            self.all = Vec::with_capacity(len);
            return (self.all.as_mut_ptr(), len);
        }
        self.guard = GUARD;
        self.all.clear();
        self.all.resize(len + 2 * GUARD, other);
        (self.all[GUARD..].as_mut_ptr(), len)
    }

    /// What the buffer holds after a call.
    fn back(&mut self, name: &str) -> Result<&[T], String> {
        if self.guard == 0 {
            // SAFETY: so much was reserved; what was not written is valgrind's to notice, numbers have no wrong bits
            unsafe { self.all.set_len(self.len) };
        }
        let (front, rest) = self.all.split_at(self.guard);
        let (lent, behind) = rest.split_at(self.len);
        if front.iter().chain(behind).any(|x| *x != self.other) {
            return Err(format!("written beside {name}"));
        }
        Ok(lent)
    }

    fn zero(&mut self, name: &str) -> Outcome {
        zero_from(self.back(name)?, 0, name)
    }
}

/// Whether all is zero from `from` on.
fn zero_from<T: Number>(lent: &[T], from: usize, name: &str) -> Outcome {
    // Whole pieces first: nearly always all is zero, and there is much to look at.
    let zero = T::default();
    for (i, piece) in lent[from..].chunks(1_024).enumerate() {
        if piece.iter().fold(zero, |all, x| all | *x) != zero {
            let at = piece.iter().position(|x| *x != zero).unwrap_or(0);
            return Err(format!("{name} is not zero at {}", from + i * 1_024 + at));
        }
    }
    Ok(())
}

/// What may stand behind an input: reading too far must not change the answer.
const TAILS: [&[u8]; 4] = [b"\0", b"\xff", b"0123", b"\"]} "];

/// An input with other bytes around it.
struct Input {
    all: Vec<u8>,
    guard: usize,
    len: usize,
}

impl Input {
    fn new() -> Input {
        Input { all: Vec::new(), guard: 0, len: 0 }
    }

    fn lend(&mut self, bytes: &[u8], turn: usize, lending: Lending) -> In {
        self.len = bytes.len();
        self.guard = if lending == Lending::Exact { 0 } else { GUARD };
        let around = || TAILS[turn % TAILS.len()].iter().cycle().take(self.guard);
        if lending == Lending::Exact {
            self.all = Vec::with_capacity(bytes.len());
        }
        self.all.clear();
        self.all.extend(around());
        self.all.extend_from_slice(bytes);
        self.all.extend(around());
        (self.all[self.guard..].as_ptr(), self.len)
    }

    fn unchanged(&self, bytes: &[u8], turn: usize, name: &str) -> Outcome {
        let around = || TAILS[turn % TAILS.len()].iter().cycle().take(self.guard);
        let (front, rest) = self.all.split_at(self.guard);
        let (lent, behind) = rest.split_at(self.len);
        if lent == bytes && front.iter().eq(around()) && behind.iter().eq(around()) {
            Ok(())
        } else {
            Err(format!("{name} was changed"))
        }
    }
}

/// One call: a case, the lengths of the scratch buffers, and what is due.
struct Call<'a> {
    case: &'a Case,
    scratch: [usize; 4],
    wanted: &'a Answer,
}

/// What a run met.
#[derive(Default)]
pub struct Rendered {
    /// `cases` counts cases, `numbers` and `differ` count calls.
    pub report: Report,
    pub calls: usize,
    /// Calls that are left out since the oracle gave up.
    pub gave_up: usize,
    /// Seconds in the library.
    pub library: f64,
    /// Seconds of its slowest call, and the case of it.
    pub slowest: (f64, usize),
}

/// Compares on cases; an error is a fault of the oracle.
pub fn cases(
    library: &dyn Library,
    cases: &mut dyn Iterator<Item = Case>,
    lending: Lending,
) -> Result<Rendered, String> {
    let mut run = Run::new(library, lending);
    for case in cases {
        run.case(&case).map_err(|e| format!("case {}: fault of the oracle: {e}", run.met.report.cases))?;
        run.met.report.cases += 1;
    }
    Ok(run.met)
}

struct Run<'a> {
    library: &'a dyn Library,
    lending: Lending,
    met: Rendered,
    bundle: Input,
    plan: Input,
    start: Input,
    page: Area<u8>,
    places: Area<u64>,
    entries: Area<u64>,
    texts: Area<u8>,
    indent: Area<u8>,
    name: Area<u8>,
}

impl<'a> Run<'a> {
    fn new(library: &'a dyn Library, lending: Lending) -> Run<'a> {
        Run {
            library,
            lending,
            met: Rendered::default(),
            bundle: Input::new(),
            plan: Input::new(),
            start: Input::new(),
            page: Area::new(),
            places: Area::new(),
            entries: Area::new(),
            texts: Area::new(),
            indent: Area::new(),
            name: Area::new(),
        }
    }

    fn case(&mut self, case: &Case) -> Outcome {
        match caught(|| Ready::new(&case.bundle, &case.plan, &case.start, case.call_options()))? {
            Ok(mut ready) => {
                self.all_pages(case, &ready)?;
                self.other_options(case, |other| {
                    ready.set(other.call_options());
                    caught(|| ready.draw(other.page as usize))
                })?;
            }
            // Checks 2 to 10 come before the page is looked at.
            Err(number) => {
                let wanted = Answer { number, ..Answer::default() };
                for page in [case.page, 0, 1] {
                    self.call(&Call { case: &on_page(case, page), scratch: SCRATCH, wanted: &wanted });
                }
                self.other_options(case, Case::answer)?;
            }
        }
        self.short_scratch(case);
        Ok(())
    }

    /// The pages of a case: its own, 0, 1, exactly full, one short.
    fn all_pages(&mut self, case: &Case, ready: &Ready) -> Outcome {
        let large = caught(|| ready.draw(LARGE))?;
        let mut pages = vec![case.page as usize, 0, 1];
        if large.number == 0 && !large.gave_up {
            let full = large.text.len();
            pages.extend([full, full.saturating_sub(1)]);
        }
        for (i, page) in pages.iter().enumerate() {
            if pages[..i].contains(page) {
                continue;
            }
            // A text that leaves room is printed on both pages; whether it just fits is asked again.
            let leaves_room = large.number == 0 && !large.gave_up && large.text.len() < *page;
            let wanted = if leaves_room { large.clone() } else { caught(|| ready.draw(*page))? };
            self.call(&Call { case: &on_page(case, *page as u32), scratch: SCRATCH, wanted: &wanted });
        }
        Ok(())
    }

    /// Another choice of options, with scratch buffers that are longer than they must be. Choices are scattered: profiles go through
    /// their makers in turn, and each maker is to meet all.
    fn other_options(
        &mut self,
        case: &Case,
        mut answer: impl FnMut(&Case) -> Result<Answer, String>,
    ) -> Outcome {
        let turn = self.met.report.cases;
        let mut other = case.clone();
        let scattered = (turn as u32).wrapping_mul(0x9e37_79b9) >> 29;
        other.options = scattered as u8;
        if other.options == case.options {
            other.options = (other.options + 3) % 8;
        }
        let clash = other.options & STRICT != 0 && other.options & GUIDE != 0;
        let wanted = match clash {
            // `Ready` is past check 5.
            true => other.answer()?,
            false => answer(&other)?,
        };
        let scratch = SCRATCH.map(|n| n + turn % 5);
        self.call(&Call { case: &other, scratch, wanted: &wanted });
        Ok(())
    }

    /// One buffer after the other, mostly one short.
    fn short_scratch(&mut self, case: &Case) {
        let turn = self.met.report.cases;
        let mut scratch = SCRATCH;
        let which = turn % 4;
        scratch[which] = match turn / 4 % 4 {
            0 => 0,
            1 => scratch[which] / 2,
            _ => scratch[which] - 1,
        };
        let wanted = Answer { number: 1, ..Answer::default() };
        self.call(&Call { case, scratch, wanted: &wanted });
    }

    fn call(&mut self, call: &Call<'_>) {
        if call.wanted.gave_up {
            self.met.gave_up += 1;
            return;
        }
        let outcome = self.one(call);
        self.met.calls += 1;
        let report = &mut self.met.report;
        *report.numbers.entry(call.wanted.number).or_default() += 1;
        if let Err(what) = outcome {
            let what = format!("page {}, options {}, scratch {:?}: {what}", call.case.page, call.case.options, call.scratch);
            report.differs(what, || {
                let mut batch = Vec::new();
                call.case.write(&mut batch);
                batch
            });
        }
    }

    /// Lends all, calls, and looks at all that came back.
    fn one(&mut self, call: &Call<'_>) -> Outcome {
        let (case, turn, lending) = (call.case, self.met.calls, self.lending);
        let other = [0xa5, 0xff, 0x01, 0x5a, 0x80][turn % 5];
        let others = u64::from_ne_bytes([other; 8]);
        let lent = Lent {
            bundle: self.bundle.lend(&case.bundle, turn, lending),
            plan: self.plan.lend(&case.plan, turn / 4, lending),
            start: self.start.lend(&case.start, turn / 2, lending),
            options: case.options.into(),
            page: self.page.lend(case.page as usize, other, lending),
            places: self.places.lend(call.scratch[0], others, lending),
            entries: self.entries.lend(call.scratch[1], others, lending),
            texts: self.texts.lend(call.scratch[2], other, lending),
            indent: self.indent.lend(call.scratch[3], other, lending),
        };
        let begin = Instant::now();
        // SAFETY: all pointers and lengths are those of the areas lent above
        let given = unsafe { self.library.render(&lent) };
        self.timed(begin.elapsed().as_secs_f64());
        same_fields(&given, call.wanted)?;
        self.same_name(lent.bundle, given.template_name, call.wanted)?;
        self.same_page(call.wanted)?;
        self.places.zero("places")?;
        self.entries.zero("entries")?;
        self.texts.zero("texts")?;
        self.indent.zero("indent")?;
        self.bundle.unchanged(&case.bundle, turn, "the bundle")?;
        self.plan.unchanged(&case.plan, turn / 4, "the plan")?;
        self.start.unchanged(&case.start, turn / 2, "the starting name")
    }

    fn timed(&mut self, seconds: f64) {
        self.met.library += seconds;
        if seconds > self.met.slowest.0 {
            self.met.slowest = (seconds, self.met.report.cases);
        }
    }

    fn same_page(&mut self, wanted: &Answer) -> Outcome {
        let page = self.page.back("the page")?;
        let text = &wanted.text;
        if let Some(at) = (0..text.len()).find(|i| page[*i] != text[*i]) {
            return Err(format!("byte {at} of the page is {:#x}, the oracle's {:#x}", page[at], text[at]));
        }
        zero_from(page, text.len(), "the page")
    }

    /// The template's name, into buffers that it fills, that are longer and that are too short.
    fn same_name(&mut self, bundle: In, place: usize, wanted: &Answer) -> Outcome {
        let turn = self.met.calls;
        if turn % 8 == 0 {
            self.any_name(bundle, turn.wrapping_mul(0x9e37_79b9) % (bundle.1 * 8 + 9))?;
        }
        let Some(name) = wanted.template.as_deref().map(str::as_bytes) else {
            return match place {
                0 => self.name_in(bundle, 0, turn % 9, b""),
                _ => Err(format!("a template's name at {place}, where the oracle has none")),
            };
        };
        if place == 0 {
            return Err("no template's name, where the oracle has one".to_owned());
        }
        self.name_in(bundle, place, name.len(), name)?;
        match turn % 2 {
            0 if !name.is_empty() => self.name_in(bundle, place, name.len() - 1, b""),
            _ => self.name_in(bundle, place, name.len() + 1 + turn % 7, name),
        }
    }

    /// The name at `place` in a buffer of `len` bytes: these bytes, then zeros.
    fn name_in(&mut self, bundle: In, place: usize, len: usize, wanted: &[u8]) -> Outcome {
        let out = self.name.lend(len, 0xc3, self.lending);
        // SAFETY: bundle and name are lent
        let given = unsafe { self.library.template_name(bundle, place, out) };
        let name = self.name.back("the name")?;
        if given != wanted.len() || !name.starts_with(wanted) {
            let name = String::from_utf8_lossy(&name[..given.min(len)]);
            let wanted = String::from_utf8_lossy(wanted);
            return Err(format!("the template's name is {name:?} ({given} bytes of {len}), the oracle's {wanted:?}"));
        }
        zero_from(name, given, "the name")
    }

    /// Any place may be asked for: what is given fits, with zeros behind it.
    fn any_name(&mut self, bundle: In, place: usize) -> Outcome {
        let out = self.name.lend(40, 0xc3, self.lending);
        // SAFETY: bundle and name are lent
        let given = unsafe { self.library.template_name(bundle, place, out) };
        let name = self.name.back("the name")?;
        if given > name.len() {
            return Err(format!("a name of {given} bytes in a buffer of 40"));
        }
        zero_from(name, given, "the name")
    }
}

fn on_page(case: &Case, page: u32) -> Case {
    Case { page, ..case.clone() }
}

fn same_fields(given: &Given, wanted: &Answer) -> Outcome {
    let given = [u64::from(given.number), given.line, given.column, given.length as u64];
    let wanted = [u64::from(wanted.number), wanted.line, wanted.column, wanted.text.len() as u64];
    if given == wanted {
        return Ok(());
    }
    Err(format!("number, line, column, length are {given:?}, the oracle's {wanted:?}"))
}

#[cfg(test)]
mod test {
    use std::cell::RefCell;
    use std::slice::{from_raw_parts, from_raw_parts_mut};

    use super::{cases, Given, In, Lending, Lent, Library, Out, Rendered, SCRATCH};
    use crate::compare::library::has_place;
    use crate::call::with_big_stack;
    use crate::gen::{self, Case, Order};

    unsafe fn read(lent: In) -> Vec<u8> {
        from_raw_parts(lent.0, lent.1).to_vec()
    }

    unsafe fn write<T: Copy>(out: Out<T>) -> &'static mut [T] {
        from_raw_parts_mut(out.0, out.1)
    }

    /// The oracle behind the functions of the library; `spoil` makes it wrong.
    struct Fake<F: Fn(&mut Given, &Lent)> {
        names: RefCell<Vec<String>>,
        spoil: F,
    }

    impl<F: Fn(&mut Given, &Lent)> Library for Fake<F> {
        unsafe fn render(&self, lent: &Lent) -> Given {
            let scratch = [lent.places.1, lent.entries.1, lent.texts.1, lent.indent.1];
            write(lent.page).fill(0);
            write(lent.places).fill(0);
            write(lent.entries).fill(0);
            write(lent.texts).fill(0);
            write(lent.indent).fill(0);
            let mut given = Given { number: 1, template_name: 0, line: 0, column: 0, length: 0 };
            if scratch.iter().zip(SCRATCH).all(|(n, m)| *n >= m) {
                let (bundle, plan, start) = (read(lent.bundle), read(lent.plan), read(lent.start));
                let case = Case { options: lent.options as u8, start, page: lent.page.1 as u32, bundle, plan };
                let answer = case.answer().expect("an answer");
                write(lent.page)[..answer.text.len()].copy_from_slice(&answer.text);
                given.template_name = answer.template.map_or(0, |name| {
                    self.names.borrow_mut().push(name);
                    1_000_000_000 + self.names.borrow().len()
                });
                (given.number, given.length) = (answer.number, answer.text.len());
                (given.line, given.column) = (answer.line, answer.column);
            }
            (self.spoil)(&mut given, lent);
            given
        }

        unsafe fn template_name(&self, _: In, template_name: usize, out: Out<u8>) -> usize {
            let out = write(out);
            out.fill(0);
            let names = self.names.borrow();
            let name = template_name.checked_sub(1_000_000_001).and_then(|i| names.get(i));
            match name.filter(|n| n.len() <= out.len()) {
                Some(name) => {
                    out[..name.len()].copy_from_slice(name.as_bytes());
                    name.len()
                }
                None => 0,
            }
        }
    }

    fn run(lending: Lending, spoil: impl Fn(&mut Given, &Lent) + Send) -> Rendered {
        with_big_stack(|| {
            let order =
                Order { profile: "rich".to_owned(), seed: 1, count: 60, max_bytes: usize::MAX, cabinets: 3 };
            let fake = Fake { names: RefCell::default(), spoil };
            let met = cases(&fake, &mut gen::cases(&order), lending);
            met.expect("no fault of the oracle")
        })
    }

    #[test]
    fn test_what_is_right_passes() {
        for lending in [Lending::Guarded, Lending::Exact] {
            let met = run(lending, |_, _| {});
            assert_eq!((met.report.cases, met.report.differ), (60, 0));
            assert!(met.calls > 300, "{} calls", met.calls);
            assert!(met.report.numbers[&25] > 60 && met.report.numbers[&1] == 60);
        }
    }

    fn noticed(what: &str, spoil: impl Fn(&mut Given, &Lent) + Send) {
        let met = run(Lending::Guarded, spoil);
        assert!(met.report.differ > 0, "{what}");
        assert!(met.report.first.iter().all(|d| d.what.contains(what)), "{}", met.report.first[0].what);
    }

    #[test]
    fn test_what_is_wrong_is_noticed() {
        noticed("number, line, column, length are", |g, _| g.length += usize::from(g.number == 0));
        noticed("number, line, column, length are", |g, _| g.column += u64::from(has_place(g.number)));
        noticed("no template's name", |g, _| g.template_name = 0);
        noticed("the template's name is", |g, _| {
            g.template_name = usize::from(has_place(g.number));
        });
        noticed("where the oracle has none", |g, _| {
            if g.number == 0 {
                g.template_name = 1;
            }
        });
        // SAFETY: the buffers are lent
        noticed("the page is not zero at", |g, l| unsafe {
            if let Some(behind) = write(l.page).get_mut(g.length) {
                *behind = 1;
            }
        });
        noticed("byte 0 of the page", |g, l| unsafe {
            if g.length > 0 {
                *l.page.0 ^= 1;
            }
        });
        noticed("places is not zero at 4095", |_, l| unsafe {
            if l.places.1 == 4_096 {
                *l.places.0.add(4_095) = 1;
            }
        });
        noticed("indent is not zero at 3", |g, l| unsafe {
            if g.number == 25 {
                *l.indent.0.add(3) = 1;
            }
        });
        noticed("written beside the page", |_, l| unsafe { *l.page.0.add(l.page.1) ^= 0xff });
        noticed("written beside entries", |_, l| unsafe { *l.entries.0.sub(1) ^= 0xff });
        noticed("the plan was changed", |_, l| unsafe { *l.plan.0.cast_mut() ^= 1 });
        noticed("the starting name was changed", |_, l| unsafe {
            *l.start.0.cast_mut().add(l.start.1) ^= 1;
        });
    }
}
