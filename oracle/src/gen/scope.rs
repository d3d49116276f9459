//! What the generator believes about the open scopes, to write paths that find something.
//! It is a guess (it follows the first element of a list), never an answer.

use std::rc::Rc;

use serde_json::{json, Map, Value as Json};

use super::rng::Rng;
use super::tree::{local, of_segs, Param, Seg};

#[derive(Clone)]
pub struct Scope {
    pub value: Json,
    pub names: Vec<(String, Json)>,
    /// `@first`, `@last`, `@index`, `@key`, as far as they are set.
    pub locals: Vec<(&'static str, Json)>,
    pub inlines: Vec<String>,
}

impl Scope {
    pub fn of(value: Json) -> Scope {
        Scope { value, names: Vec::new(), locals: Vec::new(), inlines: Vec::new() }
    }
}

#[derive(Clone)]
pub struct Scopes {
    pub root: Rc<Json>,
    /// Front (newest) first.
    pub open: Vec<Rc<Scope>>,
    /// The open partial has a block text.
    pub block_text: bool,
}

#[derive(Clone, Copy, PartialEq, Eq)]
pub enum Want {
    Any,
    Scalar,
    Text,
    Full,
    Empty,
    True,
    False,
}

impl Want {
    pub fn takes(self, v: &Json) -> bool {
        match self {
            Want::Any => true,
            Want::Scalar => !v.is_object() && !v.is_array(),
            Want::Text => v.is_string(),
            Want::Full => (v.is_object() || v.is_array()) && truthy(v),
            Want::Empty => (v.is_object() || v.is_array()) && !truthy(v),
            Want::True => truthy(v),
            Want::False => !truthy(v),
        }
    }
}

pub fn truthy(v: &Json) -> bool {
    match v {
        Json::Null => false,
        Json::Bool(b) => *b,
        Json::Number(n) => n.as_i64() != Some(0),
        Json::String(s) => !s.is_empty(),
        Json::Array(a) => !a.is_empty(),
        Json::Object(m) => !m.is_empty(),
    }
}

impl Scopes {
    pub fn new(root: Json) -> Scopes {
        let first = Scope::of(root.clone());
        Scopes { root: Rc::new(root), open: vec![Rc::new(first)], block_text: false }
    }

    pub fn front(&self) -> &Scope {
        &self.open[0]
    }

    pub fn pushed(&self, scope: Scope) -> Scopes {
        let mut s = self.clone();
        s.open.insert(0, Rc::new(scope));
        s
    }

    /// An inline partial is kept by the front scope.
    pub fn keep_inline(&mut self, n: String) {
        let front = Rc::make_mut(&mut self.open[0]);
        if !front.inlines.contains(&n) {
            front.inlines.push(n);
        }
    }

    /// The scope inside each over a value.
    pub fn turn(&self, over: &Json, names: &[String]) -> Scopes {
        let (key, first) = match over {
            Json::Array(a) => (None, a.first().cloned()),
            Json::Object(m) => (m.keys().next().map(|k| json!(k)), m.values().next().cloned()),
            _ => (None, None),
        };
        let mut scope = Scope::of(first.unwrap_or(Json::Null));
        scope.locals = vec![("first", json!(true)), ("last", json!(false)), ("index", json!(0))];
        let second = key.clone().unwrap_or(json!(0));
        if let Some(k) = key {
            scope.locals.push(("key", k));
        }
        let values = [scope.value.clone(), second];
        scope.names = names.iter().cloned().zip(values).collect();
        self.pushed(scope)
    }

    /// The scope inside with; two names name nothing.
    pub fn within(&self, value: &Json, names: &[String]) -> Scopes {
        let mut scope = Scope::of(value.clone());
        scope.locals = self.front().locals.clone();
        if let [only] = names {
            scope.names.push((only.clone(), value.clone()));
        }
        self.pushed(scope)
    }

    /// The scope of a partial.
    pub fn included(
        &self,
        base: Option<&Json>,
        hash: &[(String, Json)],
        block_text: bool,
    ) -> Scopes {
        let value = merged(base.unwrap_or(&self.front().value), hash);
        let mut scope = Scope::of(value);
        scope.locals = self.front().locals.clone();
        scope.names = hash.to_vec();
        let mut s = self.pushed(scope);
        s.block_text = block_text;
        s
    }

    pub fn inlines(&self) -> Vec<String> {
        self.open.iter().flat_map(|s| s.inlines.iter().cloned()).collect()
    }

    /// A path to a value that is wanted, if the guess knows one.
    pub fn find(&self, rng: &mut Rng, want: Want) -> Option<(Param, Json)> {
        for _ in 0..4 {
            let found = match rng.weighted(&[42, 16, 14, 14, 14]) {
                0 => self.below(rng, want, Vec::new(), &self.front().value),
                1 => self.find_up(rng, want),
                2 => self.below(rng, want, vec![Seg::Root], &self.root),
                3 => self.find_name(rng, want),
                _ => self.find_local(rng, want),
            };
            if found.is_some() {
                return found;
            }
        }
        self.below(rng, want, vec![Seg::Root], &self.root)
    }

    /// Ups, also beyond the scopes, which is the front again; a root after them is ignored.
    fn find_up(&self, rng: &mut Rng, want: Want) -> Option<(Param, Json)> {
        let count = rng.between(1, self.open.len() + 1);
        let scope = self.open.get(count).unwrap_or(&self.open[0]);
        let mut segs = vec![Seg::Up; count];
        if rng.chance(15) {
            segs.push(Seg::Root);
        }
        self.below(rng, want, segs, &scope.value)
    }

    /// A block name, sometimes after ups.
    fn find_name(&self, rng: &mut Rng, want: Want) -> Option<(Param, Json)> {
        let all: Vec<&(String, Json)> = self.open.iter().flat_map(|s| s.names.iter()).collect();
        if all.is_empty() {
            return None;
        }
        let (n, v) = *rng.pick(&all);
        let mut segs = vec![Seg::Up; if rng.chance(25) { rng.between(1, 3) } else { 0 }];
        segs.push(Seg::Named(n.clone()));
        self.below(rng, want, segs, v)
    }

    fn find_local(&self, rng: &mut Rng, want: Want) -> Option<(Param, Json)> {
        let level = rng.below(self.open.len().min(4));
        let locals = &self.open[level].locals;
        if locals.is_empty() {
            return None;
        }
        let (n, v) = rng.pick(locals).clone();
        want.takes(&v).then(|| (local(level as u8, n), v))
    }

    /// A value under `base`, whose path begins with `segs`.
    fn below(
        &self,
        rng: &mut Rng,
        want: Want,
        segs: Vec<Seg>,
        base: &Json,
    ) -> Option<(Param, Json)> {
        let mut all = Vec::new();
        reach(base, &mut Vec::new(), &mut all);
        all.retain(|(_, v)| want.takes(v));
        if all.is_empty() {
            return None;
        }
        let (names, v) = rng.pick(&all).clone();
        let mut segs = segs;
        for n in names {
            segs.push(Seg::Named(spelled(rng, n)));
            if rng.chance(2) {
                segs.push(if rng.chance(50) { Seg::Up } else { Seg::Root });
            }
        }
        Some((of_segs(segs), v.clone()))
    }
}

/// A list's place may be written as `parse::<usize>` also takes it.
fn spelled(rng: &mut Rng, n: Step) -> String {
    match n {
        Step::Member(k) => k,
        Step::Place(i) => match rng.below(8) {
            0 => format!("+{i}"),
            1 => format!("0{i}"),
            _ => i.to_string(),
        },
    }
}

#[derive(Clone)]
enum Step {
    Member(String),
    Place(usize),
}

/// All values at most three steps below, with their paths.
fn reach<'a>(v: &'a Json, at: &mut Vec<Step>, all: &mut Vec<(Vec<Step>, &'a Json)>) {
    all.push((at.clone(), v));
    if at.len() == 3 || all.len() > 80 {
        return;
    }
    let inside: Vec<(Step, &Json)> = match v {
        Json::Array(a) => a.iter().enumerate().map(|(i, e)| (Step::Place(i), e)).collect(),
        Json::Object(m) => m.iter().map(|(k, e)| (Step::Member(k.clone()), e)).collect(),
        _ => Vec::new(),
    };
    for (step, e) in inside {
        at.push(step);
        reach(e, at, all);
        at.pop();
    }
}

fn merged(base: &Json, hash: &[(String, Json)]) -> Json {
    if hash.is_empty() {
        return base.clone();
    }
    let mut m = match base {
        Json::Object(m) => m.clone(),
        Json::Array(a) => a.iter().enumerate().map(|(i, v)| (i.to_string(), v.clone())).collect(),
        Json::String(s) => {
            s.chars().enumerate().map(|(i, c)| (i.to_string(), json!(c.to_string()))).collect()
        }
        _ => Map::new(),
    };
    m.extend(hash.iter().cloned());
    Json::Object(m)
}
