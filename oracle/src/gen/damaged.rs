//! The damaged profile: bundles with one thing wrong, or something that only looks so.

use super::limits::varied;
use super::plan::{text_of, Style};
use super::rng::Rng;
use super::tree::*;
use super::write::{Field, What, Writer};
use super::{rich, Case};

/// The tree's bundle with the bytes of a string `mark` changed for others of the same length.
pub fn with_bytes(tree: &Tree, mark: &str, bytes: &[u8]) -> Vec<u8> {
    let mut w = Writer::default();
    w.tree(tree);
    let spelled: Vec<Field> =
        w.fields.iter().filter(|f| f.what == What::StringByte).copied().collect();
    let is_mark = |fields: &[Field]| {
        fields.iter().zip(mark.bytes()).all(|(f, b)| w.field_value(f) == u64::from(b))
    };
    let at = spelled.windows(mark.len()).position(is_mark).expect("the mark is in the tree");
    for (f, b) in spelled[at..].iter().zip(bytes) {
        w.set_field(f, (*b).into());
    }
    w.bytes()
}

pub fn case(rng: &mut Rng) -> Case {
    let (mut tree, plan, options) = rich::parts(rng);
    if rng.chance(30) {
        tree = varied();
    }
    let plan = text_of(&plan, rng, Style::PLAIN).into_bytes();
    let mut case = Case::new(damaged(rng, &mut tree), plan);
    case.options = options;
    case
}

fn damaged(rng: &mut Rng, tree: &mut Tree) -> Vec<u8> {
    if rng.chance(8) {
        refused_parameter(rng, tree);
    }
    let mut w = Writer::default();
    w.tree(tree);
    match rng.below(14) {
        0 | 1 => flip_bits(rng, &mut w),
        2 => w.cut(rng.below(w.len())),
        3 => return other_length(rng, &w),
        4 | 5 | 6 => other_count(rng, &mut w),
        7 | 8 => other_tag(rng, &mut w),
        9 => other_byte(rng, &mut w),
        10 => copied_string(rng, &mut w, What::Key),
        11 => copied_string(rng, &mut w, What::TemplateName),
        12 => other_number(rng, &mut w),
        _ if rng.chance(50) => return any_bytes(rng),
        _ => {}
    }
    w.bytes()
}

fn some_field(rng: &mut Rng, w: &Writer, kinds: &[What]) -> Option<Field> {
    let fits: Vec<Field> = w.fields.iter().filter(|f| kinds.contains(&f.what)).copied().collect();
    if fits.is_empty() {
        return None;
    }
    Some(*rng.pick(&fits))
}

fn flip_bits(rng: &mut Rng, w: &mut Writer) {
    for _ in 0..rng.between(1, 3) {
        w.flip(rng.below(w.len()));
    }
}

/// Bytes cut off or put on.
fn other_length(rng: &mut Rng, w: &Writer) -> Vec<u8> {
    let mut bytes = w.bytes();
    match rng.below(4) {
        0 => bytes.truncate(rng.below(bytes.len())),
        1 => {
            bytes.pop();
        }
        2 => bytes.push(rng.next() as u8),
        _ => bytes.extend(vec![0; rng.between(1, 9)]),
    }
    bytes
}

fn other_count(rng: &mut Rng, w: &mut Writer) {
    let counts = [
        What::TemplateCount,
        What::StringLength,
        What::ElementCount,
        What::ParamCount,
        What::PairCount,
        What::SegCount,
        What::NamesTag,
        What::Presence,
    ];
    let what = *rng.pick(&counts);
    if let Some(f) = some_field(rng, w, &[what]) {
        let more = if rng.chance(50) { 1 } else { u64::MAX };
        w.set_field(&f, w.field_value(&f).wrapping_add(more));
    }
}

fn other_tag(rng: &mut Rng, w: &mut Writer) {
    let tags = [
        What::Version,
        What::KindTag,
        What::ParamTag,
        What::LocalBit,
        What::SegTag,
        What::LiteralTag,
        What::Padding,
    ];
    let what = *rng.pick(&tags);
    if let Some(f) = some_field(rng, w, &[what]) {
        w.set_field(&f, rng.next());
    }
}

fn other_byte(rng: &mut Rng, w: &mut Writer) {
    if let Some(f) = some_field(rng, w, &[What::StringByte]) {
        let byte =
            *rng.pick(&[0x80, 0xbf, 0xc0, 0xc3, 0xe2, 0xed, 0xf0, 0xf4, 0xf5, 0xff, 0, 0x7f]);
        w.set_field(&f, byte);
    }
}

/// One string put where another stands: keys out of order or equal, templates of one name.
fn copied_string(rng: &mut Rng, w: &mut Writer, what: What) {
    if let (Some(from), Some(to)) = (some_field(rng, w, &[what]), some_field(rng, w, &[what])) {
        let bits = w.bits_of(&from);
        w.replace(&to, bits);
    }
    w.align();
}

/// Numbers that may be anything, and one that may not.
fn other_number(rng: &mut Rng, w: &mut Writer) {
    let free = [What::Position, What::Level, What::Unsigned, What::Negative, What::Indented];
    let what = *rng.pick(&free);
    if let Some(f) = some_field(rng, w, &[what]) {
        let value = if rng.chance(50) { rng.next() } else { 0 };
        w.set_field(&f, value);
    }
}

fn any_bytes(rng: &mut Rng) -> Vec<u8> {
    let starts: [&[u8]; 8] = [
        &[],
        &[1],
        &[1, 1],
        &[1, 1, 0, 0],
        &[1, 1, 0, 0, 0],
        &[1, 1, 0, 0, 0, 0],
        &[1, 64],
        &[2, 1],
    ];
    let start = *rng.pick(&starts);
    let mut bytes = start.to_vec();
    if rng.chance(50) {
        bytes.extend((0..rng.below(30)).map(|_| rng.next() as u8));
    }
    bytes
}

/// Check 4: a partial whose first parameter is a Name or Path, in some body.
fn refused_parameter(rng: &mut Rng, tree: &mut Tree) {
    let p = rng.pick(&[path(&["a"]), name("a"), local(0, "key"), string("a")]).clone();
    let kind = partial(calls("nowhere", vec![p]));
    let which = rng.below(tree.templates.len());
    let mut b = &mut tree.templates[which].1;
    for _ in 0..rng.below(4) {
        let Some(at) = b.iter_mut().position(|e| !bodies(&mut e.kind).is_empty()) else { break };
        b = bodies(&mut b[at].kind).remove(0);
    }
    b.push(body(vec![kind]).remove(0));
}
