//! Elements of the rich profile that fail, 11 to 20.

use serde_json::Value as Json;

use super::rich::Rich;
use super::scope::{Scopes, Want};
use super::tree::*;

impl Rich<'_> {
    pub(super) fn failing(&mut self, cx: &Scopes, depth: usize, first: bool) -> Kind {
        let deep = depth > 12;
        match self.rng.below(10) {
            0 if self.strict => self.missing_variable(cx),
            1 => partial(call(self.partial_name(cx, "nowhere"), vec![])),
            2 => partial(call(self.partial_name(cx, "@partial-block"), vec![])),
            3 => self.unknown_helper(cx),
            4 => self.too_few_params(cx),
            5 => self.unknown_decorator(cx, deep),
            6 if first && depth == 1 => self.own_name(),
            7 => self.wrong_inline(cx),
            8 => decorator(call(self.helper_name(cx, "inline"), vec![string("x")])),
            _ => self.wrong_index(cx),
        }
    }

    fn missing_variable(&mut self, cx: &Scopes) -> Kind {
        let p = self.miss(cx);
        match self.rng.below(6) {
            0 => show_html(p),
            1 => block("each", vec![p], vec![raw("x")]),
            2 => block_of(calls("with", vec![p]), &["x"], None, None),
            3 => Kind::Expr(calls("lookup", vec![p, string("k")]), false),
            4 => Kind::Expr(calls("if", vec![lookup(root(&[]), string("gone"))]), false),
            _ => show(p),
        }
    }

    fn unknown_helper(&mut self, cx: &Scopes) -> Kind {
        let (p, _) = self.param(cx, Want::Any);
        let n = *self.rng.pick(&[
            "no",
            "If",
            "helperMissing",
            "blockHelperMissing",
            "eac",
            "inline",
            "",
        ]);
        match self.rng.below(5) {
            0 => block(n, vec![p], vec![raw("x")]),
            1 => block(n, vec![], vec![]),
            2 => show(sub(calls(n, vec![p]))),
            3 => Kind::Html(calls(n, vec![]).with("a", p), false),
            _ => Kind::Expr(calls(n, vec![p]), true),
        }
    }

    fn too_few_params(&mut self, cx: &Scopes) -> Kind {
        let n = *self.rng.pick(&["each", "with", "if", "unless", "lookup"]);
        let (p, _) = self.path_to(cx, Want::Any);
        match self.rng.below(6) {
            0 => show(name(n)),
            1 => show(Param::Path { raw: n.to_owned(), segs: vec![Seg::Named("a".to_owned())] }),
            2 => block(n, vec![], vec![raw("x")]),
            3 => Kind::Expr(calls("lookup", vec![p]), false),
            4 => show(sub(calls(n, vec![]))),
            _ => decorator_block(call(self.helper_name(cx, "inline"), vec![]), vec![raw("x")]),
        }
    }

    fn unknown_decorator(&mut self, cx: &Scopes, deep: bool) -> Kind {
        let (p, _) = self.param(cx, Want::Any);
        let n = *self.rng.pick(&["no", "Inline", "each", ""]);
        if deep || self.rng.chance(50) {
            decorator(calls(n, vec![p]))
        } else {
            decorator_block(calls(n, vec![p]), vec![raw("x")])
        }
    }

    fn own_name(&mut self) -> Kind {
        let me = *self.open.last().unwrap_or(&0);
        partial(calls(&self.names[me].clone(), vec![]))
    }

    fn wrong_inline(&mut self, cx: &Scopes) -> Kind {
        let p = match self.rng.below(4) {
            0 => number(3),
            1 => name("x"),
            2 => self.path_to(cx, Want::Full).0,
            _ => Param::Lit(Lit::Null),
        };
        let c = call(self.helper_name(cx, "inline"), vec![p]);
        if self.rng.chance(50) {
            decorator(c)
        } else {
            decorator_block(c, vec![raw("x")])
        }
    }

    fn wrong_index(&mut self, cx: &Scopes) -> Kind {
        let bad =
            *self.rng.pick(&["x", "-1", "18446744073709551616", "", "1.0", " 1", "++1", "+", "é"]);
        let list = match cx.find(self.rng, Want::Any) {
            Some((Param::Path { mut segs, .. }, Json::Array(_))) => {
                segs.push(Seg::Named(bad.to_owned()));
                of_segs(segs)
            }
            _ => root(&["list", bad]),
        };
        match self.rng.below(5) {
            0 => block("each", vec![list], vec![]),
            1 => Kind::Expr(calls("lookup", vec![number(1), list]), false),
            2 => block_of(calls("if", vec![number(1)]).with("a", list), &[], None, None),
            3 => partial(calls("main", vec![string("")]).with("a", list)),
            _ => show(list),
        }
    }
}
