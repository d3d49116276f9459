//! The marks profile: short texts with indents, where each hangs on what was written before.

use serde_json::{json, Value as Json};

use super::rng::Rng;
use super::tree::*;
use super::write::bundle;
use super::{Case, GUIDE, RECURSIVE, STRICT};

struct Marks<'a> {
    rng: &'a mut Rng,
    /// How many elements may still be made.
    budget: usize,
}

/// A template includes only those behind it.
const NAMES: [&str; 4] = ["main", "p", "q", "r"];
const VALUES: usize = 6;

fn plan() -> Json {
    json!({
        "v": ["", "v", "v\n", "\nv", "a\nb", "<\r"],
        "l": [1, "2\n"],
        "o": {"k": "x\n", "n": "\n"},
        "e": [],
    })
}

pub fn case(rng: &mut Rng) -> Case {
    let options = *rng.pick(&[0, 0, STRICT, RECURSIVE, GUIDE]);
    let mut marks = Marks { rng, budget: 26 };
    let templates = NAMES.iter().enumerate().map(|(i, n)| (*n, marks.body(i, 1))).collect();
    let mut tree = Tree::new(templates);
    tree.number_lines();
    let mut case = Case::new(bundle(&tree), plan().to_string().into_bytes());
    case.options = options;
    case
}

impl Marks<'_> {
    fn body(&mut self, template: usize, depth: usize) -> Vec<Kind> {
        let count = self.rng.between(usize::from(depth == 1), 4);
        let mut kinds: Vec<Kind> = (0..count).map(|_| self.element(template, depth)).collect();
        // The block text before anything else: it leaves the marks as the partial found them.
        if template > 0 && depth == 1 && self.rng.chance(30) {
            kinds.insert(0, self.block_text());
        }
        kinds
    }

    /// What a partial gets as block text; often nothing, or another block text alone.
    fn text(&mut self, template: usize, depth: usize) -> Vec<Kind> {
        match self.rng.below(5) {
            0 => Vec::new(),
            1 => vec![self.block_text()],
            _ => self.body(template, depth + 1),
        }
    }

    fn block_text(&mut self) -> Kind {
        self.finish(partial_block(calls("@partial-block", vec![]), vec![]))
    }

    fn element(&mut self, template: usize, depth: usize) -> Kind {
        self.budget = self.budget.saturating_sub(1);
        let bodies = if depth < 4 && self.budget > 0 { 1 } else { 0 };
        let further = if template + 1 < NAMES.len() { 1 } else { 0 };
        let weights = [
            24,
            14,
            4,
            18 * bodies,
            16 * further,
            18 * further * bodies,
            10,
            4 * bodies,
            4 * bodies,
            3 * bodies,
        ];
        match self.rng.weighted(&weights) {
            0 => raw(*self.rng.pick(&["x", "\n", "x\n", "\nx", "x\ny", "", "x\ny\n", "\r\n", " "])),
            1 => self.value(),
            2 => {
                let c = calls("lookup", vec![root(&["o"]), string(*self.rng.pick(&["k", "n"]))]);
                self.expression(c)
            }
            3 => self.block(template, depth),
            4 => self.partial(template, None),
            5 => {
                let inside = self.text(template, depth);
                self.partial(template, Some(inside))
            }
            6 => self.block_text(),
            7 => {
                let inside = self.body(template, depth + 1);
                self.finish(partial_block(calls("@partial-block", vec![]), inside))
            }
            8 => {
                let inside = self.body(template, depth + 1);
                self.finish(partial_block(calls("nowhere", vec![]), inside))
            }
            _ => {
                let inside = self.body(template, depth + 1);
                inline(*self.rng.pick(&NAMES[1..]), inside)
            }
        }
    }

    fn value(&mut self) -> Kind {
        let i = self.rng.below(VALUES).to_string();
        self.expression(call(root(&["v", &i]), vec![]))
    }

    fn expression(&mut self, c: Call) -> Kind {
        let ibw = self.rng.chance(50);
        if self.rng.chance(30) {
            Kind::Html(c, ibw)
        } else {
            Kind::Expr(c, ibw)
        }
    }

    fn block(&mut self, template: usize, depth: usize) -> Kind {
        let inside = self.body(template, depth + 1);
        let (n, over) = *self.rng.pick(&[
            ("if", "l"),
            ("each", "l"),
            ("with", "o"),
            ("unless", "e"),
            ("each", "o"),
            ("if", "e"),
        ]);
        let mut kind = block(n, vec![root(&[over])], inside);
        if let Kind::Block(b) = &mut kind {
            b.ibw = self.rng.chance(50);
        }
        kind
    }

    fn partial(&mut self, template: usize, inside: Option<Vec<Kind>>) -> Kind {
        let c = calls(NAMES[self.rng.between(template + 1, NAMES.len() - 1)], vec![]);
        match inside {
            Some(b) => self.finish(partial_block(c, b)),
            None => self.finish(partial(c)),
        }
    }

    /// With an indent or without one; the empty one is neither.
    fn finish(&mut self, kind: Kind) -> Kind {
        let mut kind = kind;
        if let Kind::Partial(d) | Kind::PartialBlock(d) = &mut kind {
            d.indent = self
                .rng
                .pick(&[None, Some(""), Some(""), Some(">"), Some("--"), Some("é\n")])
                .map(str::to_owned);
            d.ibw = self.rng.chance(60);
        }
        kind
    }
}
