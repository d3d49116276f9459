//! A bundle as the generator sees it, with short makers, and its positions.

#[derive(Clone, Debug)]
pub enum Seg {
    Named(String),
    Root,
    Up,
}

#[derive(Clone, Debug)]
pub enum Lit {
    Null,
    False,
    True,
    Unsigned(u64),
    Negative(i64),
    Str(String),
}

#[derive(Clone, Debug)]
pub enum Param {
    Name(String),
    Path { raw: String, segs: Vec<Seg> },
    Local { raw: String, level: u8, name: String },
    Lit(Lit),
    Sub(Box<Call>),
}

#[derive(Clone, Debug)]
pub struct Call {
    pub name: Param,
    pub params: Vec<Param>,
    /// Written in this order: ascending by key, unless the bundle shall be wrong.
    pub hash: Vec<(String, Param)>,
}

#[derive(Clone, Debug)]
pub struct Block {
    pub call: Call,
    pub names: Vec<String>,
    pub then: Option<Body>,
    pub other: Option<Body>,
    pub ibw: bool,
}

#[derive(Clone, Debug)]
pub struct Deco {
    pub call: Call,
    pub body: Option<Body>,
    pub indent: Option<String>,
    pub ibw: bool,
}

/// The nine kinds. A `Deco` of the block kinds has a body, of the others none.
#[derive(Clone, Debug)]
pub enum Kind {
    Raw(String),
    Html(Call, bool),
    Expr(Call, bool),
    Block(Block),
    Decorator(Deco),
    DecoratorBlock(Deco),
    Partial(Deco),
    PartialBlock(Deco),
    Comment(String),
}

#[derive(Clone, Debug)]
pub struct Element {
    pub line: u16,
    pub column: u16,
    pub kind: Kind,
}

pub type Body = Vec<Element>;

#[derive(Clone, Debug)]
pub struct Tree {
    pub templates: Vec<(String, Body)>,
}

// Parameters

pub fn name(s: &str) -> Param {
    Param::Name(s.to_owned())
}

/// A path of names alone; none of them is the current value.
pub fn path(names: &[&str]) -> Param {
    ups(0, names)
}

pub fn ups(count: usize, names: &[&str]) -> Param {
    let mut segs = vec![Seg::Up; count];
    segs.extend(names.iter().map(|n| Seg::Named((*n).to_owned())));
    of_segs(segs)
}

pub fn root(names: &[&str]) -> Param {
    let mut segs = vec![Seg::Root];
    segs.extend(names.iter().map(|n| Seg::Named((*n).to_owned())));
    of_segs(segs)
}

/// A path with the raw text that a parser would have seen.
pub fn of_segs(segs: Vec<Seg>) -> Param {
    let mut raw = String::new();
    for seg in &segs {
        if !raw.is_empty() && !raw.ends_with('/') {
            raw.push('.');
        }
        match seg {
            Seg::Named(n) => raw.push_str(n),
            Seg::Root => raw.push_str("@root"),
            Seg::Up => raw.push_str("../"),
        }
    }
    if segs.is_empty() {
        raw.push_str("this");
    }
    Param::Path { raw, segs }
}

pub fn local(level: u8, n: &str) -> Param {
    let raw = format!("{}@{n}", "../".repeat(level.into()));
    Param::Local { raw, level, name: n.to_owned() }
}

pub fn string(s: &str) -> Param {
    Param::Lit(Lit::Str(s.to_owned()))
}

pub fn number(n: u64) -> Param {
    Param::Lit(Lit::Unsigned(n))
}

pub fn sub(call: Call) -> Param {
    Param::Sub(Box::new(call))
}

pub fn call(name: Param, params: Vec<Param>) -> Call {
    Call { name, params, hash: Vec::new() }
}

/// A call of a helper, partial or decorator by its plain name.
pub fn calls(n: &str, params: Vec<Param>) -> Call {
    call(name(n), params)
}

pub fn lookup(of: Param, key: Param) -> Param {
    sub(calls("lookup", vec![of, key]))
}

impl Call {
    pub fn with(mut self, key: &str, value: Param) -> Call {
        self.hash.push((key.to_owned(), value));
        self.hash.sort_by(|a, b| a.0.as_bytes().cmp(b.0.as_bytes()));
        self
    }

    /// `count` hash pairs with short names: a, b, c and so on.
    pub fn with_pairs(mut self, count: usize) -> Call {
        for i in 0..count {
            let key = char::from(b'a' + i as u8).to_string();
            self = self.with(&key, number(i as u64));
        }
        self
    }
}

// Elements

pub fn raw(s: &str) -> Kind {
    Kind::Raw(s.to_owned())
}

pub fn comment(s: &str) -> Kind {
    Kind::Comment(s.to_owned())
}

/// An Expression of a parameter alone.
pub fn show(p: Param) -> Kind {
    Kind::Expr(call(p, vec![]), false)
}

pub fn show_html(p: Param) -> Kind {
    Kind::Html(call(p, vec![]), false)
}

pub fn block(n: &str, params: Vec<Param>, then: Vec<Kind>) -> Kind {
    block_of(calls(n, params), &[], Some(then), None)
}

pub fn block_of(
    call: Call,
    names: &[&str],
    then: Option<Vec<Kind>>,
    other: Option<Vec<Kind>>,
) -> Kind {
    Kind::Block(Block {
        call,
        names: names.iter().map(|n| (*n).to_owned()).collect(),
        then: then.map(body),
        other: other.map(body),
        ibw: false,
    })
}

fn deco(call: Call, body_of: Option<Vec<Kind>>) -> Deco {
    Deco { call, body: body_of.map(body), indent: None, ibw: false }
}

pub fn decorator(call: Call) -> Kind {
    Kind::Decorator(deco(call, None))
}

pub fn decorator_block(call: Call, inside: Vec<Kind>) -> Kind {
    Kind::DecoratorBlock(deco(call, Some(inside)))
}

pub fn inline(n: &str, inside: Vec<Kind>) -> Kind {
    decorator_block(calls("inline", vec![string(n)]), inside)
}

pub fn partial(call: Call) -> Kind {
    Kind::Partial(deco(call, None))
}

pub fn partial_block(call: Call, inside: Vec<Kind>) -> Kind {
    Kind::PartialBlock(deco(call, Some(inside)))
}

impl Kind {
    /// The element with its indent set; only partials and decorators have one.
    pub fn indented(mut self, indent: &str, ibw: bool) -> Kind {
        if let Kind::Decorator(d)
        | Kind::DecoratorBlock(d)
        | Kind::Partial(d)
        | Kind::PartialBlock(d) = &mut self
        {
            d.indent = Some(indent.to_owned());
            d.ibw = ibw;
        }
        self
    }
}

/// A body whose positions are still to be given, see `number_lines`.
pub fn body(kinds: Vec<Kind>) -> Body {
    kinds.into_iter().map(|kind| Element { line: 0, column: 0, kind }).collect()
}

impl Tree {
    pub fn new(templates: Vec<(&str, Vec<Kind>)>) -> Tree {
        let templates =
            templates.into_iter().map(|(n, kinds)| (n.to_owned(), body(kinds))).collect();
        Tree { templates }
    }

    /// One template, `main`.
    pub fn main(kinds: Vec<Kind>) -> Tree {
        Tree::new(vec![("main", kinds)])
    }

    /// Gives every element of a template a line of its own, so that a wrong position is seen.
    pub fn number_lines(&mut self) {
        for (_, inside) in &mut self.templates {
            let mut line = 0;
            number_body(inside, &mut line, 1);
        }
    }
}

fn number_body(inside: &mut Body, line: &mut u16, column: u16) {
    for e in inside {
        *line = line.wrapping_add(1);
        e.line = *line;
        e.column = column;
        for b in bodies(&mut e.kind) {
            number_body(b, line, column.wrapping_add(2));
        }
    }
}

/// The bodies inside an element.
pub fn bodies(kind: &mut Kind) -> Vec<&mut Body> {
    match kind {
        Kind::Block(b) => b.then.iter_mut().chain(b.other.iter_mut()).collect(),
        Kind::Decorator(d) | Kind::DecoratorBlock(d) | Kind::Partial(d) | Kind::PartialBlock(d) => {
            d.body.iter_mut().collect()
        }
        _ => Vec::new(),
    }
}
