//! The functions of the C library. ../compare sets `check_bundle`, `check_plan` and `render` for those that it has.

use oracle_core::compare::library::{self as declared, ENTRIES, INDENT, PLACES, TEXTS};
use oracle_core::compare::render::{Given, In, Lent, Library, Out};

pub const HAS_BUNDLE: bool = cfg!(check_bundle);
pub const HAS_PLAN: bool = cfg!(check_plan);
pub const HAS_RENDER: bool = cfg!(render);

#[cfg(check_bundle)]
pub fn check_bundle(bundle: &mut [u8]) -> u32 {
    // SAFETY: pointer and length are those of the slice
    unsafe { declared::handlebars_check_bundle(bundle.as_mut_ptr(), bundle.len()) }
}

#[cfg(not(check_bundle))]
pub fn check_bundle(_: &mut [u8]) -> u32 {
    unreachable!("not called where the library lacks it")
}

#[cfg(check_plan)]
pub fn check_plan(plan: &mut [u8], table: &mut [u64]) -> u32 {
    // SAFETY: pointers and lengths are those of the slices
    unsafe { declared::handlebars_check_plan(plan.as_mut_ptr(), plan.len(), table.as_mut_ptr(), table.len()) }
}

#[cfg(not(check_plan))]
pub fn check_plan(_: &mut [u8], _: &mut [u64]) -> u32 {
    unreachable!("not called where the library lacks it")
}

/// `handlebars_render` and `handlebars_template_name`.
pub struct Linked;

#[cfg(render)]
impl Library for Linked {
    unsafe fn render(&self, l: &Lent) -> Given {
        declared::handlebars_render(
            l.bundle.0, l.bundle.1, l.plan.0, l.plan.1, l.start.0, l.start.1, l.options, l.page.0, l.page.1,
            l.places.0, l.places.1, l.entries.0, l.entries.1, l.texts.0, l.texts.1, l.indent.0, l.indent.1,
        )
    }

    unsafe fn template_name(&self, bundle: In, template_name: usize, out: Out<u8>) -> usize {
        declared::handlebars_template_name(bundle.0, bundle.1, template_name, out.0, out.1)
    }
}

#[cfg(not(render))]
impl Library for Linked {
    unsafe fn render(&self, _: &Lent) -> Given {
        unreachable!("not called where the library lacks it")
    }

    unsafe fn template_name(&self, _: In, _: usize, _: Out<u8>) -> usize {
        unreachable!("not called where the library lacks it")
    }
}

/// Buffers of the lengths that a call needs, for calls whose buffers are not looked at.
pub struct Buffers {
    pub page: Vec<u8>,
    places: Vec<u64>,
    entries: Vec<u64>,
    texts: Vec<u8>,
    indent: Vec<u8>,
}

impl Buffers {
    pub fn new(page: usize) -> Buffers {
        Buffers {
            page: vec![0; page],
            places: vec![0; PLACES],
            entries: vec![0; ENTRIES],
            texts: vec![0; TEXTS],
            indent: vec![0; INDENT],
        }
    }

    /// With all options off.
    pub fn render(&mut self, bundle: &[u8], plan: &[u8], start: &[u8]) -> Given {
        let indent = self.indent.len();
        self.render_lending(bundle, plan, start, indent)
    }

    /// A call that is refused at once, since the indent's buffer is one short: it clears the buffers, once, and does no more.
    pub fn clear(&mut self, bundle: &[u8], plan: &[u8], start: &[u8]) -> Given {
        let indent = self.indent.len() - 1;
        self.render_lending(bundle, plan, start, indent)
    }

    fn render_lending(&mut self, bundle: &[u8], plan: &[u8], start: &[u8], indent: usize) -> Given {
        let lent = Lent {
            bundle: (bundle.as_ptr(), bundle.len()),
            plan: (plan.as_ptr(), plan.len()),
            start: (start.as_ptr(), start.len()),
            options: 0,
            page: (self.page.as_mut_ptr(), self.page.len()),
            places: (self.places.as_mut_ptr(), self.places.len()),
            entries: (self.entries.as_mut_ptr(), self.entries.len()),
            texts: (self.texts.as_mut_ptr(), self.texts.len()),
            indent: (self.indent.as_mut_ptr(), indent),
        };
        // SAFETY: pointers and lengths are those of the slices and of the buffers
        unsafe { Linked.render(&lent) }
    }
}
