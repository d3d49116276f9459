//! The rich profile: templates that call one another, with paths that fit the plan.

use serde_json::{json, Value as Json};

use super::plan::{member_name, rich as rich_plan, text, text_of, Style};
use super::rng::Rng;
use super::scope::{truthy, Scopes, Want};
use super::tree::*;
use super::write::bundle;
use super::{Case, GUIDE, PAGE, RECURSIVE, STRICT};

/// Deeper bodies hold only texts and values.
const DEEP: usize = 7;

pub struct Rich<'a> {
    pub(super) rng: &'a mut Rng,
    pub(super) names: Vec<String>,
    bodies: Vec<Option<Body>>,
    /// Templates that are being made now, the newest last.
    pub(super) open: Vec<usize>,
    pub(super) strict: bool,
    recursive: bool,
    /// How many elements may still be made.
    budget: usize,
    /// How many elements shall still fail.
    faults: usize,
    /// Inside a body that the guess says is not drawn.
    dead: bool,
    /// A template that draws itself for the parts of its value was made.
    tree_made: bool,
}

const NAMES: [&str; 8] = ["p", "row", "cab", "part", "é", "", "a", "if"];

pub fn case(rng: &mut Rng) -> Case {
    let (tree, plan, options) = parts(rng);
    let style = Style::any(rng);
    let start =
        if rng.chance(94) { "main".to_owned() } else { rng.pick(&tree.templates).0.clone() };
    let page = if rng.chance(6) { rng.below(200) as u32 } else { PAGE };
    let plan = text_of(&plan, rng, style).into_bytes();
    Case { options, start: start.into_bytes(), page, bundle: bundle(&tree), plan }
}

/// The tree and the plan of a rich case.
pub fn parts(rng: &mut Rng) -> (Tree, Json, u8) {
    let mut names = vec!["main".to_owned()];
    for n in NAMES {
        if rng.chance(38) {
            names.push(n.to_owned());
        }
    }
    let options = some_options(rng);
    let plan = rich_plan(rng, &names);
    let faults = rng.weighted(&[58, 32, 10]);
    let budget = rng.between(4, 60);
    let mut made = Rich {
        bodies: vec![None; names.len()],
        rng,
        names,
        open: Vec::new(),
        strict: options & STRICT != 0,
        recursive: options & RECURSIVE != 0,
        budget,
        faults,
        dead: false,
        tree_made: false,
    };
    let tree = made.all(&plan);
    (tree, plan, options)
}

fn some_options(rng: &mut Rng) -> u8 {
    let recursive = if rng.chance(30) { RECURSIVE } else { 0 };
    let truth = rng.weighted(&[50, 26, 23, 1]) as u8;
    recursive | [0, STRICT, GUIDE, STRICT | GUIDE][truth as usize]
}

impl Rich<'_> {
    fn all(&mut self, plan: &Json) -> Tree {
        let first = Scopes::new(plan.clone());
        self.template(0, &first);
        for i in 0..self.names.len() {
            if self.bodies[i].is_none() {
                self.budget = self.budget.max(4);
                self.template(i, &first);
            }
        }
        let bodies = std::mem::take(&mut self.bodies);
        let templates = self.names.iter().cloned().zip(bodies.into_iter().flatten()).collect();
        let mut tree = Tree { templates };
        tree.number_lines();
        for (_, b) in &mut tree.templates {
            self.odd_places(b);
        }
        // Names stand in any order.
        if self.rng.chance(40) {
            let by = self.rng.below(tree.templates.len());
            tree.templates.rotate_left(by);
        }
        tree
    }

    fn odd_places(&mut self, b: &mut Body) {
        for e in b {
            if self.rng.chance(5) {
                e.line = *self.rng.pick(&[0, 1, 255, 256, 65535]);
                e.column = *self.rng.pick(&[0, 1, 255, 256, 65535]);
            }
            for inner in bodies(&mut e.kind) {
                self.odd_places(inner);
            }
        }
    }

    fn template(&mut self, i: usize, cx: &Scopes) {
        self.open.push(i);
        // The main template calls the others, so it is the longest.
        let b = self.body(&mut cx.clone(), 1, if i == 0 { 10 } else { 6 });
        self.bodies[i] = Some(b);
        self.open.pop();
    }

    fn body(&mut self, cx: &mut Scopes, depth: usize, most: usize) -> Body {
        let kinds = self.kinds(cx, depth, most);
        body(kinds)
    }

    fn kinds(&mut self, cx: &mut Scopes, depth: usize, most: usize) -> Vec<Kind> {
        let count = if depth == 1 { self.rng.between(3, most) } else { self.rng.below(most) };
        let mut kinds = Vec::new();
        for _ in 0..count {
            self.budget = self.budget.saturating_sub(1);
            let kind = self.element(cx, depth, kinds.is_empty());
            kinds.push(kind);
        }
        kinds
    }

    fn element(&mut self, cx: &mut Scopes, depth: usize, first: bool) -> Kind {
        let fails =
            if self.dead { self.rng.chance(20) } else { self.faults > 0 && self.rng.chance(14) };
        if fails {
            self.faults = self.faults.saturating_sub(1);
            return self.failing(cx, depth, first);
        }
        let deep = depth >= DEEP || self.budget == 0;
        let weights: [usize; 9] =
            if deep { [45, 5, 40, 10, 0, 0, 0, 0, 0] } else { [20, 3, 24, 8, 20, 7, 10, 6, 2] };
        match self.rng.weighted(&weights) {
            0 => raw(&self.raw_text()),
            1 => comment(&self.raw_text()),
            2 => self.show(cx),
            3 => self.helper_expression(cx),
            4 => self.block(cx, depth),
            5 => self.inline(cx, depth),
            6 => self.partial(cx, depth, false),
            7 => self.partial(cx, depth, true),
            _ => self.recursion(cx),
        }
    }

    fn raw_text(&mut self) -> String {
        let pieces = [
            "x",
            " ",
            "\n",
            "a\nb\n",
            "\r\n",
            "\r",
            "  \n",
            "<b>&\"'`=</b>",
            "",
            "é",
            "line\n",
            "\n\n",
            "; ",
        ];
        let count = self.rng.weighted(&[2, 60, 25, 13]);
        (0..count).map(|_| *self.rng.pick(&pieces)).collect()
    }

    // Parameters

    /// A path to what is wanted, or one that misses where that does no harm.
    pub(super) fn path_to(&mut self, cx: &Scopes, want: Want) -> (Param, Json) {
        if self.recursive && self.rng.chance(25) {
            if let Some(found) = self.outer_name(cx, want) {
                return found;
            }
        }
        match cx.find(self.rng, want) {
            Some(found) => found,
            None => (self.miss(cx), Json::Null),
        }
    }

    /// For recursive lookup: the plain name of a member of the root or of an outer value.
    fn outer_name(&mut self, cx: &Scopes, want: Want) -> Option<(Param, Json)> {
        let scope = self.rng.pick(&cx.open);
        let m = if self.rng.chance(50) { cx.root.as_object() } else { scope.value.as_object() };
        let fits: Vec<(&String, &Json)> = m?.iter().filter(|(_, v)| want.takes(v)).collect();
        if fits.is_empty() {
            return None;
        }
        let (n, v) = *self.rng.pick(&fits);
        Some((path(&[n]), v.clone()))
    }

    pub(super) fn miss(&mut self, cx: &Scopes) -> Param {
        let n = member_name(self.rng);
        match self.rng.below(6) {
            0 => name(&n),
            1 => {
                let n = *self.rng.pick(&["first", "last", "index", "key", "other", ""]);
                local(self.rng.below(5) as u8, n)
            }
            2 => ups(self.rng.between(1, cx.open.len() + 2), &[&n]),
            3 => root(&["gone", &n]),
            4 => Param::Path { raw: text(self.rng), segs: vec![Seg::Named(n)] },
            _ => path(&["gone", &n]),
        }
    }

    fn literal(&mut self) -> (Param, Json) {
        match self.rng.below(8) {
            0 => (Param::Lit(Lit::Null), Json::Null),
            1 => (Param::Lit(Lit::False), json!(false)),
            2 => (Param::Lit(Lit::True), json!(true)),
            3 => (Param::Lit(Lit::Negative(-3)), json!(-3)),
            4 => (Param::Lit(Lit::Negative(i64::MIN)), json!(i64::MIN)),
            5 => {
                let n = *self.rng.pick(&[0, 1, 2, 12, u64::MAX]);
                (number(n), json!(n))
            }
            _ => {
                let s = text(self.rng);
                (string(&s), json!(s))
            }
        }
    }

    /// `(lookup container key)` that finds something.
    fn looked_up(&mut self, cx: &Scopes) -> (Param, Json) {
        let (p, v) = self.lookup_params(cx);
        (sub(call(self.helper_name(cx, "lookup"), p)), v)
    }

    fn lookup_params(&mut self, cx: &Scopes) -> (Vec<Param>, Json) {
        let (of, v) = self.path_to(cx, Want::Full);
        let (key, found) = match &v {
            Json::Array(a) if !a.is_empty() => {
                let i = self.rng.below(a.len());
                (number(i as u64), a[i].clone())
            }
            Json::Object(m) if !m.is_empty() => {
                let keys: Vec<&String> = m.keys().collect();
                let k = *self.rng.pick(&keys);
                (string(k), m[k].clone())
            }
            _ => self.literal(),
        };
        (vec![of, key], found)
    }

    /// Any parameter, as a further one or in a hash.
    pub(super) fn param(&mut self, cx: &Scopes, want: Want) -> (Param, Json) {
        match self.rng.weighted(&[62, 22, 10, 4, 2]) {
            0 => self.path_to(cx, want),
            1 => self.literal(),
            2 => self.looked_up(cx),
            3 => {
                let (p, _) = self.path_to(cx, Want::True);
                let helper = *self.rng.pick(&["with", "if", "unless", "each"]);
                (sub(calls(helper, vec![p])), json!(""))
            }
            _ if self.strict => self.literal(),
            _ => (self.miss(cx), Json::Null),
        }
    }

    fn hash(&mut self, cx: &Scopes, most: usize) -> Vec<(String, Param, Json)> {
        let mut pairs: Vec<(String, Param, Json)> = Vec::new();
        for _ in 0..self.rng.below(most + 1) {
            let key = member_name(self.rng);
            if pairs.iter().all(|p| p.0 != key) {
                let (p, v) = self.param(cx, Want::Any);
                pairs.push((key, p, v));
            }
        }
        pairs
    }

    /// A helper's or decorator's name in one of the forms that come to the same.
    pub(super) fn helper_name(&mut self, cx: &Scopes, n: &str) -> Param {
        let computed = cx.root.get("t").is_some();
        match self.rng.weighted(&[62, 20, 8, if computed { 10 } else { 0 }]) {
            0 => name(n),
            1 => Param::Path { raw: n.to_owned(), segs: vec![Seg::Named(member_name(self.rng))] },
            2 => string(n),
            _ => lookup(root(&["t"]), string(n)),
        }
    }

    fn call_of(&mut self, cx: &Scopes, n: &str, params: Vec<Param>) -> Call {
        let mut c = call(self.helper_name(cx, n), params);
        if self.rng.chance(6) {
            let (p, _) = self.param(cx, Want::Any);
            c.params.push(p);
        }
        if self.rng.chance(12) {
            for (k, p, _) in self.hash(cx, 2) {
                c = c.with(&k, p);
            }
        }
        c
    }

    fn indents(&mut self) -> bool {
        self.rng.chance(35)
    }

    // Elements

    fn show(&mut self, cx: &Scopes) -> Kind {
        let p = match self.rng.weighted(&[78, 6, 9, 7]) {
            0 => {
                let want = if self.rng.chance(70) { Want::Scalar } else { Want::Any };
                self.path_to(cx, want).0
            }
            1 => self.literal().0,
            2 => self.looked_up(cx).0,
            _ if self.strict => self.path_to(cx, Want::Any).0,
            _ => self.miss(cx),
        };
        let c = call(p, vec![]);
        self.expression(c)
    }

    fn expression(&mut self, c: Call) -> Kind {
        let ibw = self.indents();
        if self.rng.chance(35) {
            Kind::Html(c, ibw)
        } else {
            Kind::Expr(c, ibw)
        }
    }

    fn helper_expression(&mut self, cx: &Scopes) -> Kind {
        let c = if self.rng.chance(78) {
            let (params, _) = self.lookup_params(cx);
            self.call_of(cx, "lookup", params)
        } else {
            let n = *self.rng.pick(&["with", "if", "unless", "each"]);
            let (p, _) = self.path_to(cx, Want::True);
            self.call_of(cx, n, vec![p])
        };
        self.expression(c)
    }

    fn block_names(&mut self, most: usize) -> Vec<String> {
        let count = if self.rng.chance(45) { 0 } else { self.rng.between(1, most) };
        (0..count).map(|_| member_name(self.rng)).collect()
    }

    fn block(&mut self, cx: &Scopes, depth: usize) -> Kind {
        match self.rng.weighted(&[42, 20, 26, 8, 4]) {
            0 => self.each(cx, depth),
            1 => self.with(cx, depth),
            2 => self.condition(cx, depth, "if"),
            3 => self.condition(cx, depth, "unless"),
            _ => {
                let (params, _) = self.lookup_params(cx);
                let c = self.call_of(cx, "lookup", params);
                self.finish_block(c, vec![], Some(cx.clone()), None, depth)
            }
        }
    }

    /// Both bodies of a block, with the scopes that draw them; a body without scopes is dead.
    fn finish_block(
        &mut self,
        c: Call,
        names: Vec<String>,
        then: Option<Scopes>,
        other: Option<Scopes>,
        depth: usize,
    ) -> Kind {
        let guess = then.clone().or(other.clone());
        let then_body = self.half(then, &guess, 94, depth);
        let likely = if other.is_some() { 80 } else { 25 };
        let other_body = self.half(other, &guess, likely, depth);
        let ibw = self.indents();
        Kind::Block(Block { call: c, names, then: then_body, other: other_body, ibw })
    }

    fn half(
        &mut self,
        cx: Option<Scopes>,
        guess: &Option<Scopes>,
        likely: usize,
        depth: usize,
    ) -> Option<Body> {
        if !self.rng.chance(likely) {
            return None;
        }
        let was = self.dead;
        self.dead |= cx.is_none();
        let mut cx = cx.or(guess.clone())?;
        let b = self.body(&mut cx, depth + 1, 5);
        self.dead = was;
        Some(b)
    }

    fn each(&mut self, cx: &Scopes, depth: usize) -> Kind {
        let (p, v) = match self.rng.weighted(&[76, 8, 10, 6]) {
            0 => self.path_to(cx, Want::Full),
            1 => self.path_to(cx, Want::Empty),
            2 => self.looked_up(cx),
            _ if self.strict => self.path_to(cx, Want::Full),
            _ => self.param(cx, Want::Scalar),
        };
        let names = self.block_names(2);
        let c = self.call_of(cx, "each", vec![p]);
        if (v.is_array() || v.is_object()) && truthy(&v) {
            let inside = cx.turn(&v, &names);
            self.finish_block(c, names, Some(inside), None, depth)
        } else {
            self.finish_block(c, names, None, Some(cx.clone()), depth)
        }
    }

    fn with(&mut self, cx: &Scopes, depth: usize) -> Kind {
        let want = if self.strict || self.rng.chance(85) { Want::True } else { Want::False };
        let (p, v) = self.param(cx, want);
        let names = self.block_names(2);
        let c = self.call_of(cx, "with", vec![p]);
        if truthy(&v) {
            let inside = cx.within(&v, &names);
            self.finish_block(c, names, Some(inside), None, depth)
        } else {
            self.finish_block(c, names, None, Some(cx.clone()), depth)
        }
    }

    fn condition(&mut self, cx: &Scopes, depth: usize, n: &str) -> Kind {
        let want = if self.rng.chance(60) { Want::True } else { Want::False };
        let (mut p, mut v) = self.param(cx, want);
        let zero = self.rng.chance(12);
        if zero {
            (p, v) = (number(0), json!(0));
        }
        let mut c = self.call_of(cx, n, vec![p]);
        if self.rng.chance(if zero { 80 } else { 8 }) && c.hash.iter().all(|h| h.0 != "includeZero")
        {
            let (p, _) = self.literal();
            let p = if self.rng.chance(50) { Param::Lit(Lit::True) } else { p };
            c = c.with("includeZero", p);
        }
        let names = if self.rng.chance(8) { self.block_names(2) } else { vec![] };
        let (then, other) = if truthy(&v) == (n == "if") {
            (Some(cx.clone()), None)
        } else {
            (None, Some(cx.clone()))
        };
        self.finish_block(c, names, then, other, depth)
    }

    fn indent(&mut self) -> Option<String> {
        let some = ["", " ", "  ", "\t", "    ", "> ", "\n", " \n ", "é"];
        self.rng.chance(45).then(|| (*self.rng.pick(&some)).to_owned())
    }

    fn inline(&mut self, cx: &mut Scopes, depth: usize) -> Kind {
        let (p, n) = match self.rng.weighted(&[70, 15, 15]) {
            0 => {
                // Also the name of an outer inline partial or of a template, which it then hides.
                let known = cx.inlines();
                let n = match self.rng.below(4) {
                    0 => self.rng.pick(&self.names).clone(),
                    1 if !known.is_empty() => self.rng.pick(&known).clone(),
                    _ => self.rng.pick(&["i1", "i2"]).to_string(),
                };
                (string(&n), n)
            }
            1 => match cx.find(self.rng, Want::Text) {
                Some((p, v)) => (p, v.as_str().unwrap_or("").to_owned()),
                None => (string("i1"), "i1".to_owned()),
            },
            _ => {
                let n = if self.rng.chance(60) { "each".to_owned() } else { "i2".to_owned() };
                if cx.root.get("t").is_some() {
                    (lookup(root(&["t"]), string("each")), "each".to_owned())
                } else {
                    (string(&n), n)
                }
            }
        };
        let c = self.call_of(cx, "inline", vec![p]);
        let mut inside = cx.included(None, &[], false);
        let b = self.body(&mut inside, depth + 1, 4);
        cx.keep_inline(n);
        let ibw = self.indents();
        Kind::DecoratorBlock(Deco { call: c, body: Some(b), indent: self.indent(), ibw })
    }

    fn partial(&mut self, cx: &mut Scopes, depth: usize, with_body: bool) -> Kind {
        if (cx.block_text || with_body) && self.rng.chance(30) {
            return self.partial_block_text(cx, depth, with_body);
        }
        let (param, base) = match self.rng.weighted(&[60, 10, 30]) {
            0 => (None, None),
            1 => pair(self.literal()),
            _ => pair(self.looked_up(cx)),
        };
        let hash = self.hash(cx, 3);
        let known: Vec<(String, Json)> =
            hash.iter().map(|(k, _, v)| (k.clone(), v.clone())).collect();
        let mut own = cx.included(base.as_ref(), &known, cx.block_text);
        let b = with_body.then(|| self.body(&mut own, depth + 1, 4));
        let found = self.target(cx);
        let target = match found {
            Some(n) => n,
            None if with_body => "nowhere".to_owned(),
            None => return raw(&self.raw_text()),
        };
        own.block_text = with_body;
        self.make_target(&target, &own);
        let mut c = call(self.partial_name(cx, &target), param.into_iter().collect());
        if !c.params.is_empty() && self.rng.chance(8) {
            let (p, _) = self.param(cx, Want::Any);
            c.params.push(p);
        }
        for (k, p, _) in hash {
            c = c.with(&k, p);
        }
        self.finish_partial(c, b)
    }

    fn finish_partial(&mut self, call: Call, body: Option<Body>) -> Kind {
        let block = body.is_some();
        let ibw = self.rng.chance(60);
        let d = Deco { call, body, indent: self.indent(), ibw };
        if block {
            Kind::PartialBlock(d)
        } else {
            Kind::Partial(d)
        }
    }

    /// A template or inline partial that may be included here.
    fn target(&mut self, cx: &Scopes) -> Option<String> {
        let inlines = cx.inlines();
        if !inlines.is_empty() && self.rng.chance(45) {
            return Some(self.rng.pick(&inlines).clone());
        }
        let free: Vec<usize> = (1..self.names.len()).filter(|i| !self.open.contains(i)).collect();
        if free.is_empty() {
            return None;
        }
        let i = *self.rng.pick(&free);
        Some(self.names[i].clone())
    }

    /// Makes the template where it is first included, so that its paths fit.
    fn make_target(&mut self, target: &str, cx: &Scopes) {
        if let Some(i) = self.names.iter().position(|n| n == target) {
            if self.bodies[i].is_none() && !self.open.contains(&i) {
                self.template(i, cx);
            }
        }
    }

    pub(super) fn partial_name(&mut self, cx: &Scopes, n: &str) -> Param {
        let known = cx.root.get("t").and_then(Json::as_object);
        let key = known.and_then(|t| t.iter().find(|(_, v)| *v == n).map(|(k, _)| k.clone()));
        match (self.rng.weighted(&[50, 20, 15, 15]), key) {
            (0, _) => name(n),
            (1, _) => Param::Path { raw: n.to_owned(), segs: vec![] },
            (3, Some(k)) => lookup(root(&["t"]), string(&k)),
            _ => string(n),
        }
    }

    /// `@partial-block`, as a block with a fallback.
    fn partial_block_text(&mut self, cx: &mut Scopes, depth: usize, with_body: bool) -> Kind {
        let c = call(self.partial_name(cx, "@partial-block"), vec![]);
        let was = self.dead;
        self.dead |= cx.block_text;
        let b = with_body.then(|| self.body(cx, depth + 1, 4));
        self.dead = was;
        self.finish_partial(c, b)
    }

    /// A template that includes itself for each part of its value: the value's depth ends it.
    fn recursion(&mut self, cx: &Scopes) -> Kind {
        let me = *self.open.last().unwrap_or(&0);
        if self.tree_made || me == 0 {
            return self.show(cx);
        }
        self.tree_made = true;
        let n = self.names[me].clone();
        let inside = vec![show(local(0, "index")), partial(calls(&n, vec![])), raw(",")];
        block_of(calls("each", vec![path(&[])]), &[], Some(inside), Some(vec![show(path(&[]))]))
    }
}

fn pair(found: (Param, Json)) -> (Option<Param>, Option<Json>) {
    (Some(found.0), Some(found.1))
}
