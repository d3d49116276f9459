//! Writes a tree in the bundle's layout and notes each field, so that damage can aim at one.
//! Written from the paper on its own, so it also checks `bundle::encode`.

use super::tree::{Block, Body, Call, Deco, Element, Kind, Lit, Param, Seg, Tree};

#[derive(Clone, Copy, PartialEq, Eq, Debug)]
pub enum What {
    Version,
    TemplateCount,
    TemplateName,
    StringLength,
    StringByte,
    ElementCount,
    Position,
    KindTag,
    NamesTag,
    Presence,
    Indented,
    ParamCount,
    PairCount,
    Key,
    ParamTag,
    LocalBit,
    Level,
    SegCount,
    SegTag,
    LiteralTag,
    Unsigned,
    Negative,
    Padding,
}

/// Where a field lies: its first bit and its width. A string's note spans the whole string.
#[derive(Clone, Copy, Debug)]
pub struct Field {
    pub what: What,
    pub at: usize,
    pub width: usize,
}

#[derive(Default)]
pub struct Writer {
    bits: Vec<bool>,
    pub fields: Vec<Field>,
}

impl Writer {
    fn put(&mut self, what: What, value: u64, width: usize) {
        self.fields.push(Field { what, at: self.bits.len(), width });
        for i in (0..width).rev() {
            self.bits.push(value >> i & 1 == 1);
        }
    }

    fn string(&mut self, s: &str) {
        self.put(What::StringLength, s.len() as u64, 16);
        for b in s.bytes() {
            self.put(What::StringByte, b.into(), 8);
        }
    }

    /// A string with a note over all of it.
    fn noted_string(&mut self, what: What, s: &str) {
        let width = 16 + 8 * s.len();
        self.fields.push(Field { what, at: self.bits.len(), width });
        self.string(s);
    }

    fn maybe_body(&mut self, b: Option<&Body>) {
        self.put(What::Presence, b.is_some().into(), 1);
        if let Some(b) = b {
            self.body(b);
        }
    }

    fn body(&mut self, b: &Body) {
        self.put(What::ElementCount, b.len() as u64, 12);
        for e in b {
            self.element(e);
        }
    }

    fn element(&mut self, e: &Element) {
        self.put(What::Position, e.line.into(), 16);
        self.put(What::Position, e.column.into(), 16);
        self.put(What::KindTag, tag(&e.kind), 4);
        match &e.kind {
            Kind::Raw(s) | Kind::Comment(s) => self.string(s),
            Kind::Html(c, ibw) | Kind::Expr(c, ibw) => {
                self.call(c);
                self.put(What::Indented, (*ibw).into(), 1);
            }
            Kind::Block(b) => self.block(b),
            Kind::Decorator(d)
            | Kind::DecoratorBlock(d)
            | Kind::Partial(d)
            | Kind::PartialBlock(d) => self.deco(d),
        }
    }

    fn block(&mut self, b: &Block) {
        self.call(&b.call);
        self.put(What::NamesTag, b.names.len() as u64, 2);
        for n in &b.names {
            self.string(n);
        }
        self.maybe_body(b.then.as_ref());
        self.maybe_body(b.other.as_ref());
        self.put(What::Indented, b.ibw.into(), 1);
    }

    fn deco(&mut self, d: &Deco) {
        self.call(&d.call);
        if let Some(b) = &d.body {
            self.body(b);
        }
        self.put(What::Presence, d.indent.is_some().into(), 1);
        if let Some(i) = &d.indent {
            self.string(i);
        }
        self.put(What::Indented, d.ibw.into(), 1);
    }

    fn call(&mut self, c: &Call) {
        self.param(&c.name);
        self.put(What::ParamCount, c.params.len() as u64, 4);
        for p in &c.params {
            self.param(p);
        }
        self.put(What::PairCount, c.hash.len() as u64, 4);
        for (k, p) in &c.hash {
            self.noted_string(What::Key, k);
            self.param(p);
        }
    }

    fn param(&mut self, p: &Param) {
        match p {
            Param::Name(n) => {
                self.put(What::ParamTag, 0, 2);
                self.string(n);
            }
            Param::Path { raw, segs } => self.segments(raw, segs),
            Param::Local { raw, level, name } => {
                self.put(What::ParamTag, 1, 2);
                self.string(raw);
                self.put(What::LocalBit, 1, 1);
                self.put(What::Level, (*level).into(), 8);
                self.string(name);
            }
            Param::Lit(l) => {
                self.put(What::ParamTag, 2, 2);
                self.literal(l);
            }
            Param::Sub(c) => {
                self.put(What::ParamTag, 3, 2);
                self.call(c);
            }
        }
    }

    fn segments(&mut self, raw: &str, segs: &[Seg]) {
        self.put(What::ParamTag, 1, 2);
        self.string(raw);
        self.put(What::LocalBit, 0, 1);
        self.put(What::SegCount, segs.len() as u64, 8);
        for seg in segs {
            match seg {
                Seg::Named(n) => {
                    self.put(What::SegTag, 0, 2);
                    self.string(n);
                }
                Seg::Root => self.put(What::SegTag, 1, 2),
                Seg::Up => self.put(What::SegTag, 2, 2),
            }
        }
    }

    fn literal(&mut self, l: &Lit) {
        match l {
            Lit::Null => self.put(What::LiteralTag, 0, 3),
            Lit::False => self.put(What::LiteralTag, 1, 3),
            Lit::True => self.put(What::LiteralTag, 2, 3),
            Lit::Unsigned(n) => {
                self.put(What::LiteralTag, 3, 3);
                self.put(What::Unsigned, *n, 64);
            }
            Lit::Negative(n) => {
                self.put(What::LiteralTag, 4, 3);
                self.put(What::Negative, *n as u64, 64);
            }
            Lit::Str(s) => {
                self.put(What::LiteralTag, 5, 3);
                self.string(s);
            }
        }
    }

    pub fn tree(&mut self, t: &Tree) {
        self.put(What::Version, 1, 8);
        self.put(What::TemplateCount, t.templates.len() as u64, 8);
        for (n, b) in &t.templates {
            self.noted_string(What::TemplateName, n);
            self.body(b);
        }
        let left = (8 - self.bits.len() % 8) % 8;
        if left > 0 {
            self.put(What::Padding, 0, left);
        }
    }

    pub fn bytes(&self) -> Vec<u8> {
        let byte =
            |bits: &[bool]| bits.iter().fold(0u8, |n, b| n << 1 | u8::from(*b)) << (8 - bits.len());
        self.bits.chunks(8).map(byte).collect()
    }

    pub fn field_value(&self, f: &Field) -> u64 {
        self.bits[f.at..f.at + f.width].iter().fold(0, |n, b| n << 1 | u64::from(*b))
    }

    pub fn set_field(&mut self, f: &Field, value: u64) {
        for i in 0..f.width {
            self.bits[f.at + i] = value >> (f.width - 1 - i) & 1 == 1;
        }
    }

    /// Puts the bits of one place where those of another stand, of any width.
    pub fn replace(&mut self, f: &Field, with: Vec<bool>) {
        self.bits.splice(f.at..f.at + f.width, with);
    }

    pub fn bits_of(&self, f: &Field) -> Vec<bool> {
        self.bits[f.at..f.at + f.width].to_vec()
    }

    pub fn flip(&mut self, at: usize) {
        self.bits[at] = !self.bits[at];
    }

    pub fn cut(&mut self, bits: usize) {
        self.bits.truncate(bits);
    }

    /// Zero bits to the byte's end, after damage has moved it, and not a byte more.
    pub fn align(&mut self) {
        let padding = self.fields.last().filter(|f| f.what == What::Padding).map_or(0, |f| f.width);
        self.bits.truncate(self.bits.len() - padding);
        self.bits.resize(self.bits.len().next_multiple_of(8), false);
    }

    pub fn len(&self) -> usize {
        self.bits.len()
    }
}

fn tag(kind: &Kind) -> u64 {
    match kind {
        Kind::Raw(_) => 0,
        Kind::Html(..) => 1,
        Kind::Expr(..) => 2,
        Kind::Block(_) => 3,
        Kind::Decorator(_) => 4,
        Kind::DecoratorBlock(_) => 5,
        Kind::Partial(_) => 6,
        Kind::PartialBlock(_) => 7,
        Kind::Comment(_) => 8,
    }
}

/// The bundle of a tree.
pub fn bundle(t: &Tree) -> Vec<u8> {
    let mut w = Writer::default();
    w.tree(t);
    w.bytes()
}
