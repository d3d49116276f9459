//! The nest profile: scopes inside one another, and in each of them many short paths of every form.

use serde_json::{json, Map, Value as Json};

use super::plan::{text_of, Style};
use super::rng::Rng;
use super::scope::{Scopes, Want};
use super::tree::*;
use super::write::bundle;
use super::{Case, RECURSIVE, STRICT};

/// The same few names everywhere, so that one hides another.
const NAMES: [&str; 4] = ["a", "b", "n", "x"];

struct Nest<'a> {
    rng: &'a mut Rng,
    templates: Vec<(String, Vec<Kind>)>,
}

pub fn case(rng: &mut Rng) -> Case {
    let plan = object(rng, 3);
    let options = *rng.pick(&[0, 0, 0, RECURSIVE, RECURSIVE, RECURSIVE, STRICT]);
    let mut nest = Nest { rng, templates: Vec::new() };
    let levels = nest.rng.between(2, 6);
    let main = nest.level(&Scopes::new(plan.clone()), levels);
    let mut templates = vec![("main", main)];
    templates.extend(nest.templates.iter().map(|(n, k)| (n.as_str(), k.clone())));
    let mut tree = Tree::new(templates);
    tree.number_lines();
    let plan = text_of(&plan, nest.rng, Style::PLAIN).into_bytes();
    let mut case = Case::new(bundle(&tree), plan);
    case.options = options;
    case
}

/// An object with some of the names; what stands under a name is a number, a list or an object.
fn object(rng: &mut Rng, depth: usize) -> Json {
    let mut m = Map::new();
    for n in NAMES {
        if rng.chance(70) {
            m.insert(n.to_owned(), inside(rng, depth));
        }
    }
    Json::Object(m)
}

fn inside(rng: &mut Rng, depth: usize) -> Json {
    match rng.below(if depth == 0 { 1 } else { 4 }) {
        0 => json!(rng.below(90) + 10),
        1 => Json::Array((0..rng.between(1, 2)).map(|_| object(rng, depth - 1)).collect()),
        _ => object(rng, depth - 1),
    }
}

impl Nest<'_> {
    fn level(&mut self, cx: &Scopes, left: usize) -> Vec<Kind> {
        let mut kinds = self.shown(cx, 4);
        if left > 0 {
            let inner = self.deeper(cx, left - 1);
            kinds.extend(inner);
            kinds.extend(self.shown(cx, 2));
        }
        kinds
    }

    /// Several paths, with a comma behind each.
    fn shown(&mut self, cx: &Scopes, most: usize) -> Vec<Kind> {
        let mut kinds = Vec::new();
        for _ in 0..self.rng.between(1, most) {
            kinds.push(show(self.path(cx)));
            kinds.push(raw(","));
        }
        kinds
    }

    fn path(&mut self, cx: &Scopes) -> Param {
        let levels = cx.open.len();
        match self.rng.weighted(&[40, 22, 26, 12]) {
            0 => cx.find(self.rng, Want::Any).map_or(path(&["n"]), |(p, _)| p),
            1 => ups(self.rng.below(levels + 2), &[*self.rng.pick(&NAMES)]),
            2 => {
                let n = *self.rng.pick(&["index", "index", "key", "key", "first", "last", "other"]);
                local(self.rng.below(levels + 1) as u8, n)
            }
            _ => self.odd_path(levels),
        }
    }

    /// Roots and ups where they do not count.
    fn odd_path(&mut self, levels: usize) -> Param {
        let n = Seg::Named((*self.rng.pick(&NAMES)).to_owned());
        let up = vec![Seg::Up; self.rng.below(levels + 2)];
        let segs = match self.rng.below(4) {
            0 => [up, vec![Seg::Root, n]].concat(),
            1 => [vec![Seg::Root], up, vec![n]].concat(),
            2 => [vec![n.clone()], up, vec![n]].concat(),
            _ => vec![n.clone(), Seg::Root, n],
        };
        of_segs(segs)
    }

    fn names(&mut self) -> Vec<String> {
        let count = self.rng.weighted(&[40, 35, 25]);
        (0..count).map(|_| (*self.rng.pick(&NAMES)).to_owned()).collect()
    }

    /// One more scope, and what is drawn in it.
    fn deeper(&mut self, cx: &Scopes, left: usize) -> Vec<Kind> {
        let Some((p, v)) = cx.find(self.rng, Want::Full) else { return Vec::new() };
        match self.rng.weighted(&[45, 20, 25, 10]) {
            0 => {
                let names = self.names();
                let body = self.level(&cx.turn(&v, &names), left);
                self.block("each", p, &names, body)
            }
            1 => {
                let names = self.names();
                let body = self.level(&cx.within(&v, &names), left);
                self.block("with", p, &names, body)
            }
            2 => self.included(cx, left),
            _ => {
                let p = lookup(path(&[]), string(*self.rng.pick(&NAMES)));
                let body = self.level(&cx.within(&v, &[]), left);
                self.block("each", p, &[], body)
            }
        }
    }

    fn block(&mut self, n: &str, p: Param, names: &[String], body: Vec<Kind>) -> Vec<Kind> {
        let names: Vec<&str> = names.iter().map(String::as_str).collect();
        vec![block_of(calls(n, vec![p]), &names, Some(body), Some(vec![raw("else,")]))]
    }

    /// A partial or an inline one, with a hash or without; its name may hide another.
    fn included(&mut self, cx: &Scopes, left: usize) -> Vec<Kind> {
        let mut hash = Vec::new();
        let mut c = calls("", vec![]);
        for key in NAMES {
            if let (true, Some((p, v))) = (self.rng.chance(25), cx.find(self.rng, Want::Any)) {
                hash.push((key.to_owned(), v));
                c = c.with(key, p);
            }
        }
        let body = self.level(&cx.included(None, &hash, false), left);
        if self.rng.chance(40) {
            let n = *self.rng.pick(&["i", "j"]);
            c.name = name(n);
            return vec![inline(n, body), partial(c)];
        }
        let n = format!("t{}", self.templates.len());
        c.name = name(&n);
        self.templates.push((n, body));
        vec![partial(c)]
    }
}
