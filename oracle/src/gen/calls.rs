//! The calls profile: one template of few elements, each a path or a call, at the top or inside blocks of with and each. So
//! that a program without the drawing of helpers and partials can work them out.

use serde_json::{json, Map, Value as Json};

use super::plan::{number as any_number, text, text_of, Style};
use super::rng::Rng;
use super::scope::{Scopes, Want};
use super::tree::*;
use super::write::bundle;
use super::{Case, RECURSIVE, STRICT};

/// The page's length: short, so that a long text passes it.
const ROOM: u32 = 60;

/// The same few names everywhere, so that one hides another.
const NAMES: [&str; 5] = ["a", "b", "n", "x", "l"];
const HELPERS: [&str; 5] = ["lookup", "each", "with", "if", "unless"];
const STEPS: [&str; 10] =
    ["0", "1", "+1", "02", "-1", "", "9", "18446744073709551615", "18446744073709551616", "length"];

struct Calls<'a> {
    rng: &'a mut Rng,
    strict: bool,
}

pub fn case(rng: &mut Rng) -> Case {
    let plan = if rng.chance(6) { value(rng, 2) } else { object(rng, 3) };
    let options = *rng.pick(&[0, 0, 0, RECURSIVE, RECURSIVE, STRICT, STRICT | RECURSIVE]);
    let mut c = Calls { rng, strict: options & STRICT != 0 };
    let levels = c.rng.weighted(&[35, 30, 20, 15]);
    let kinds = c.level(&Scopes::new(plan.clone()), levels);
    let mut tree = Tree::main(kinds);
    tree.number_lines();
    let style = Style::any(rng);
    let plan = text_of(&plan, rng, style).into_bytes();
    let mut case = Case::new(bundle(&tree), plan);
    case.options = options;
    case.page = ROOM;
    case
}

/// An object with some of the names; under `t` it may hold names of helpers.
fn object(rng: &mut Rng, depth: usize) -> Json {
    let mut m = Map::new();
    for n in NAMES {
        if rng.chance(60) {
            m.insert(n.to_owned(), value(rng, depth));
        }
    }
    if rng.chance(20) {
        m.insert("t".to_owned(), json!(*rng.pick(&HELPERS)));
    }
    Json::Object(m)
}

fn value(rng: &mut Rng, depth: usize) -> Json {
    match rng.below(if depth == 0 { 4 } else { 10 }) {
        0 => any_number(rng),
        1 => Json::String(text(rng)),
        2 => rng.pick(&[json!(null), json!(true), json!(false)]).clone(),
        3 => json!(rng.below(90) + 10),
        4..=6 => Json::Array((0..rng.below(3)).map(|_| value(rng, depth - 1)).collect()),
        _ => object(rng, depth - 1),
    }
}

impl Calls<'_> {
    fn level(&mut self, cx: &Scopes, left: usize) -> Vec<Kind> {
        let mut kinds = self.shown(cx, if left > 0 { 1 } else { 4 });
        if left > 0 {
            kinds.extend(self.deeper(cx, left - 1));
            kinds.extend(self.shown(cx, 1));
        }
        kinds
    }

    /// Several expressions, with a comma behind each.
    fn shown(&mut self, cx: &Scopes, most: usize) -> Vec<Kind> {
        let mut kinds = Vec::new();
        for _ in 0..self.rng.between(1, most) {
            let c = self.expression(cx);
            kinds.push(if self.rng.chance(30) { Kind::Html(c, false) } else { Kind::Expr(c, false) });
            kinds.push(raw(","));
        }
        kinds
    }

    /// One more scope, and what is drawn in it.
    fn deeper(&mut self, cx: &Scopes, left: usize) -> Vec<Kind> {
        let want = if self.rng.chance(80) { Want::Full } else { Want::Any };
        let (mut p, v) = cx.find(self.rng, want).unwrap_or((path(&["a"]), Json::Null));
        if self.rng.chance(12) {
            p = lookup(path(&[]), string(*self.rng.pick(&NAMES)));
        }
        let count = self.rng.weighted(&[40, 35, 25]);
        let names: Vec<String> =
            (0..count).map(|_| (*self.rng.pick(&NAMES)).to_owned()).collect();
        let (n, inside) = match self.rng.chance(60) {
            true => ("each", cx.turn(&v, &names)),
            false => ("with", cx.within(&v, &names)),
        };
        let then = self.rng.chance(96).then(|| self.level(&inside, left));
        let other = self.rng.chance(50).then(|| self.shown(cx, 1));
        let names: Vec<&str> = names.iter().map(String::as_str).collect();
        vec![block_of(call(self.helper_name(cx, n), vec![p]), &names, then, other)]
    }

    // Calls

    fn expression(&mut self, cx: &Scopes) -> Call {
        match self.rng.weighted(&[55, 5, 40]) {
            0 => call(self.path(cx), vec![]),
            1 => call(self.literal(), vec![]),
            _ => self.call(cx, 4),
        }
    }

    /// A call whose parameters are at most so deep.
    fn call(&mut self, cx: &Scopes, depth: usize) -> Call {
        let n = match self.rng.weighted(&[60, 10, 10, 8, 8, 4]) {
            5 => *self.rng.pick(&["other", "", "Each", "lookup "]),
            k => HELPERS[k],
        };
        let many = match n {
            "lookup" => self.rng.weighted(&[2, 5, 85, 8]),
            _ => self.rng.weighted(&[6, 84, 10]),
        };
        let mut c = call(self.helper_name(cx, n), vec![]);
        for k in 0..many {
            let p = if n == "lookup" && k == 1 { self.key(cx) } else { self.param(cx, depth - 1) };
            c.params.push(p);
        }
        for key in ["a", "b", "includeZero"] {
            if self.rng.chance(6) {
                let p = self.param(cx, depth - 1);
                c = c.with(key, p);
            }
        }
        c
    }

    /// A helper's name in one of the forms that come to the same.
    fn helper_name(&mut self, cx: &Scopes, n: &str) -> Param {
        let told = cx.root.get("t").and_then(Json::as_str) == Some(n);
        match self.rng.weighted(&[62, 20, 10, if told { 60 } else { 0 }]) {
            0 => name(n),
            1 => Param::Path { raw: n.to_owned(), segs: vec![Seg::Named("a".to_owned())] },
            2 => string(n),
            _ => lookup(root(&[]), string("t")),
        }
    }

    /// The second parameter of lookup.
    fn key(&mut self, cx: &Scopes) -> Param {
        match self.rng.weighted(&[40, 30, 10, 20]) {
            0 => string(*self.rng.pick(&NAMES)),
            1 => number(self.rng.below(3) as u64),
            2 => string(*self.rng.pick(&STEPS)),
            _ => self.path(cx),
        }
    }

    fn param(&mut self, cx: &Scopes, depth: usize) -> Param {
        match self.rng.weighted(&[60, 10, if depth > 0 { 28 } else { 0 }, 2]) {
            0 => self.path(cx),
            1 => self.literal(),
            2 => sub(self.call(cx, depth)),
            _ => name("a"),
        }
    }

    fn literal(&mut self) -> Param {
        match self.rng.below(7) {
            0 => Param::Lit(Lit::Null),
            1 => Param::Lit(Lit::True),
            2 => Param::Lit(Lit::False),
            3 => number(u64::MAX),
            4 => Param::Lit(Lit::Negative(-17)),
            5 => string(&text(self.rng)),
            _ => number(self.rng.below(3) as u64),
        }
    }

    // Paths

    fn path(&mut self, cx: &Scopes) -> Param {
        let levels = cx.open.len();
        let odd = if self.strict { 4 } else { 12 };
        match self.rng.weighted(&[54, 10, 12, odd, odd]) {
            0 => cx.find(self.rng, Want::Any).map_or(path(&["n"]), |(p, _)| p),
            1 => ups(self.rng.below(levels + 2), &[*self.rng.pick(&NAMES)]),
            2 => {
                let n = *self.rng.pick(&["index", "index", "key", "key", "first", "last", "other"]);
                local(self.rng.below(levels + 1) as u8, n)
            }
            3 => self.odd_path(levels),
            _ => self.step(cx),
        }
    }

    /// Roots and ups where they do not count.
    fn odd_path(&mut self, levels: usize) -> Param {
        let n = Seg::Named((*self.rng.pick(&NAMES)).to_owned());
        let up = vec![Seg::Up; self.rng.below(levels + 2)];
        let segs = match self.rng.below(4) {
            0 => [up, vec![Seg::Root, n]].concat(),
            1 => [vec![Seg::Root], up, vec![n]].concat(),
            2 => [vec![n.clone()], up, vec![n]].concat(),
            _ => vec![n.clone(), Seg::Root, n],
        };
        of_segs(segs)
    }

    /// One awkward step below a value.
    fn step(&mut self, cx: &Scopes) -> Param {
        let want = if self.rng.chance(60) { Want::Full } else { Want::Any };
        let n = Seg::Named((*self.rng.pick(&STEPS)).to_owned());
        match cx.find(self.rng, want) {
            Some((Param::Path { segs, .. }, _)) => of_segs([segs, vec![n]].concat()),
            _ => of_segs(vec![n]),
        }
    }
}
