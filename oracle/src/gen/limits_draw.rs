//! Refusals 11 to 20: what fails and what is next to it and does not, at many places.

use super::limits::{dressed, limit, Limit, Made};
use super::rng::Rng;
use super::tree::*;
use super::STRICT;

pub fn all() -> Vec<Limit> {
    vec![
        limit(11, "MissingVariable", missing_variable),
        limit(12, "PartialNotFound", partial_not_found),
        limit(13, "PartialBlockNotFound", partial_block_not_found),
        limit(14, "HelperNotFound", helper_not_found),
        limit(15, "ParamNotFoundForIndex", param_not_found),
        limit(16, "DecoratorNotFound", decorator_not_found),
        limit(17, "CannotIncludeSelf", cannot_include_self),
        limit(18, "InvalidParamType", invalid_param_type),
        limit(19, "BlockContentRequired", block_content_required),
        limit(20, "InvalidJsonIndex", invalid_json_index),
        limit(20, "order in helpers", helper_order),
        limit(20, "order in partials and decorators", partial_order),
    ]
}

/// Paths from the root find the same at every place.
const PLAN: &str = r#"{"a":[5,6],"o":{"k":1,"n":null},"s":"text","z":0,"e":[],"l":[1],
 "t":{"h":"if","p":"p","d":"inline","u":"unknown"}}"#;

/// With the two spaces of `placed` before it, the longest indent.
fn wide() -> String {
    " ".repeat(254)
}

fn a() -> Param {
    root(&["a"])
}

/// A tree that draws the elements once: in `main`, in a block, in a partial or in a block text.
fn placed(rng: &mut Rng, kinds: Vec<Kind>) -> Tree {
    let mut holder = Vec::new();
    let main = match rng.below(10) {
        0 => vec![block("if", vec![number(1)], kinds)],
        1 => vec![block("each", vec![root(&["l"])], kinds)],
        2 => vec![block("with", vec![root(&["o"])], kinds)],
        3 => {
            holder = kinds;
            vec![raw("to h\n"), partial(calls("h", vec![])).indented("  ", true)]
        }
        4 => vec![inline("i", kinds), partial(calls("i", vec![]))],
        5 => vec![partial_block(calls("p", vec![]), kinds)],
        6 => vec![partial_block(calls("nowhere", vec![]), kinds)],
        7 => vec![partial_block(calls("@partial-block", vec![]), kinds)],
        8 => vec![block_of(calls("unless", vec![a()]), &[], None, Some(kinds))],
        _ => kinds,
    };
    let mut t = Tree::new(vec![("main", main), ("p", vec![raw("p")]), ("h", holder)]);
    if rng.chance(50) {
        t.templates.reverse();
    }
    t
}

/// One of the lists of elements, placed anywhere: a bad one past the limit, else a good one.
fn one_of(
    rng: &mut Rng,
    over: bool,
    number: u32,
    bad: Vec<Vec<Kind>>,
    good: Vec<Vec<Kind>>,
) -> Made {
    let kinds = rng.pick(if over { &bad } else { &good }).clone();
    let t = placed(rng, kinds);
    (dressed(rng, t, PLAN), if over { number } else { 0 })
}

fn each1(kind: Vec<Kind>) -> Vec<Vec<Kind>> {
    kind.into_iter().map(|k| vec![raw("before "), k, raw(" after")]).collect()
}

fn expr(n: &str, params: Vec<Param>) -> Kind {
    Kind::Expr(calls(n, params), false)
}

fn missing_variable(rng: &mut Rng, over: bool) -> Made {
    let gone = || root(&["o", "gone"]);
    let o = || root(&["o"]);
    let bad = vec![
        show(gone()),
        show_html(gone()),
        show(name("s")),
        show(local(0, "other")),
        show(local(200, "index")),
        show(root(&["s", "x"])),
        show(root(&["a", "2"])),
        expr("lookup", vec![o(), string("gone")]),
        expr("lookup", vec![a(), number(2)]),
        expr("lookup", vec![a(), string("0")]),
        expr("lookup", vec![a(), Param::Lit(Lit::Negative(-1))]),
        expr("lookup", vec![o(), number(0)]),
        expr("lookup", vec![root(&["s"]), number(0)]),
        block_of(calls("lookup", vec![o(), gone()]), &[], Some(vec![]), Some(vec![])),
        block("each", vec![root(&["s"])], vec![raw("x")]),
        block("each", vec![gone()], vec![]),
        block("with", vec![root(&["z"])], vec![raw("x")]),
        expr("with", vec![root(&["e"])]),
        show(lookup(o(), string("gone"))),
        expr("if", vec![lookup(o(), string("gone"))]),
        expr("if", vec![sub(calls("with", vec![gone()]))]),
        Kind::Expr(calls("if", vec![a()]).with("k", lookup(a(), number(9))), false),
        partial(calls("p", vec![lookup(o(), string("gone"))])),
        block_of(call(lookup(root(&["t"]), string("gone")), vec![a()]), &[], None, None),
        decorator_block(call(lookup(root(&["t"]), string("gone")), vec![string("x")]), vec![]),
    ];
    let good = vec![
        show(root(&["o", "n"])),
        expr("lookup", vec![o(), string("n")]),
        expr("lookup", vec![a(), number(1)]),
        block("each", vec![root(&["e"])], vec![raw("x")]),
        block_of(calls("each", vec![root(&["s"])]), &[], None, None),
        block_of(calls("each", vec![gone()]), &[], Some(vec![]), Some(vec![raw("else")])),
        block_of(calls("with", vec![gone()]), &[], None, Some(vec![raw("else")])),
        block("if", vec![gone()], vec![raw("x")]),
        Kind::Expr(calls("if", vec![gone()]).with("k", gone()), false),
        partial(calls("p", vec![string("")]).with("k", gone())),
        expr("if", vec![sub(calls("each", vec![gone()]))]),
        show(string("")),
    ];
    let (mut case, number) = one_of(rng, over, 11, each1(bad), each1(good));
    case.options |= STRICT;
    (case, number)
}

fn partial_not_found(rng: &mut Rng, over: bool) -> Made {
    let to = |n: &str| partial(calls(n, vec![]));
    let i = || inline("in", vec![raw("inline")]);
    let bad = vec![
        vec![to("nowhere")],
        vec![to("")],
        vec![partial(call(number(7), vec![]))],
        vec![partial(call(lookup(root(&["t"]), string("u")), vec![]))],
        vec![partial(call(path(&["q", "r"]), vec![]).with("a", number(1)))],
        vec![to("in"), i()],
        vec![block("each", vec![root(&["l"])], vec![i()]), to("in")],
        vec![block("with", vec![root(&["o"])], vec![i(), to("in")]), to("in")],
        vec![partial_block(calls("p", vec![]), vec![i()]), to("in")],
        vec![inline("x", vec![i()]), to("in")],
        vec![to("nowhere").indented(&wide(), true)],
    ];
    let good = vec![
        vec![to("p")],
        vec![partial(call(string("p"), vec![number(1)]))],
        vec![partial(call(lookup(root(&["t"]), string("p")), vec![]))],
        vec![i(), to("in")],
        vec![block("if", vec![number(1)], vec![i()]), to("in")],
        vec![i(), block("each", vec![a()], vec![to("in")])],
        vec![block(
            "each",
            vec![a()],
            vec![block("if", vec![local(0, "first")], vec![i()]), to("in")],
        )],
        vec![partial_block(calls("nowhere", vec![]), vec![raw("own")])],
        vec![inline("x", vec![i(), to("in")]), to("x")],
        vec![inline("p", vec![raw("other")]), to("p")],
        vec![partial_block(calls("p", vec![]), vec![i(), to("in")])],
    ];
    one_of(rng, over, 12, bad, good)
}

fn partial_block_not_found(rng: &mut Rng, over: bool) -> Made {
    let text = || partial(calls("@partial-block", vec![]));
    let q = |kinds: Vec<Kind>| inline("q", kinds);
    let to_q = || partial(calls("q", vec![]));
    let block_q = |inside: Vec<Kind>| partial_block(calls("q", vec![]), inside);
    let bad = vec![
        vec![q(vec![text()]), to_q()],
        vec![
            q(vec![partial(calls("r", vec![]))]),
            inline("r", vec![text()]),
            block_q(vec![raw("x")]),
        ],
        vec![partial_block(calls("nowhere", vec![]), vec![text()])],
        vec![q(vec![text()]), block_q(vec![]), to_q()],
        vec![q(vec![partial(call(string("@partial-block"), vec![]).with("a", a()))]), to_q()],
        vec![
            q(vec![block("if", vec![number(1)], vec![partial(call(path(&[]), vec![])), text()])]),
            inline("this", vec![]),
            to_q(),
        ],
    ];
    let good = vec![
        vec![q(vec![text()]), block_q(vec![raw("x")])],
        vec![q(vec![text()]), block_q(vec![])],
        vec![q(vec![text(), text()]), block_q(vec![raw("<\n")])],
        vec![partial_block(calls("@partial-block", vec![]), vec![raw("fallback")])],
        vec![
            q(vec![text()]),
            inline("r", vec![block_q(vec![text()])]),
            partial_block(calls("r", vec![]), vec![raw("x")]),
        ],
        vec![
            q(vec![inline("s", vec![raw("s")]), partial(calls("s", vec![])), text()]),
            block_q(vec![show(root(&["s"]))]),
        ],
    ];
    one_of(rng, over, 13, bad, good)
}

fn helper_not_found(rng: &mut Rng, over: bool) -> Made {
    let n = *rng.pick(&[
        "unknown",
        "If",
        "helperMissing",
        "blockHelperMissing",
        "",
        "log",
        "raw",
        "eq",
        "inline",
        "ea",
    ]);
    let bad = vec![
        expr(n, vec![a()]),
        Kind::Html(calls(n, vec![]).with("k", a()), true),
        block(n, vec![], vec![raw("x")]),
        block_of(calls(n, vec![a()]), &["x"], None, Some(vec![raw("y")])),
        show(sub(calls(n, vec![]))),
        expr("if", vec![sub(calls(n, vec![a()]))]),
        Kind::Expr(calls("if", vec![a()]).with("k", sub(calls(n, vec![]))), false),
        Kind::Expr(call(root(&["s"]), vec![a()]), false),
        Kind::Expr(call(number(1), vec![a()]), false),
        Kind::Expr(call(lookup(root(&["t"]), string("u")), vec![a()]), false),
        partial(calls("p", vec![sub(calls(n, vec![]))])),
        partial(call(sub(calls(n, vec![])), vec![])),
    ];
    let good = vec![
        show(path(&[n])),
        show(string(n)),
        show(lookup(root(&["t"]), string("u"))),
        Kind::Expr(call(lookup(root(&["t"]), string("h")), vec![a()]), false),
        block_of(
            call(lookup(root(&["t"]), string("h")), vec![a()]),
            &[],
            Some(vec![raw("y")]),
            None,
        ),
        Kind::Expr(call(Param::Path { raw: "if".into(), segs: vec![] }, vec![a()]), false),
        Kind::Html(call(string("lookup"), vec![a(), number(0)]), false),
    ];
    one_of(rng, over, 14, each1(bad), each1(good))
}

fn param_not_found(rng: &mut Rng, over: bool) -> Made {
    let n = *rng.pick(&["each", "with", "if", "unless", "lookup"]);
    let params = || if n == "lookup" { vec![a(), number(0)] } else { vec![a()] };
    let bad = vec![
        show(name(n)),
        show_html(Param::Path { raw: n.into(), segs: vec![Seg::Named("s".into())] }),
        show(string(n)),
        block(n, vec![], vec![raw("x")]),
        block_of(calls(n, vec![]), &[], None, None),
        Kind::Expr(calls(n, vec![]).with("k", a()), false),
        show(sub(calls(n, vec![]))),
        expr("lookup", vec![a()]),
        expr("if", vec![sub(calls("lookup", vec![a()]))]),
        decorator_block(calls("inline", vec![]), vec![raw("x")]),
        decorator(calls("inline", vec![])),
        show(lookup(root(&["t"]), string("h"))),
    ];
    let good = vec![
        expr(n, params()),
        block(n, params(), vec![raw("x")]),
        show(sub(calls(n, params()))),
        Kind::Expr(calls(n, params()).with("k", a()), false),
        inline("", vec![]),
        show(lookup(root(&["t"]), string("u"))),
    ];
    one_of(rng, over, 15, each1(bad), each1(good))
}

fn decorator_not_found(rng: &mut Rng, over: bool) -> Made {
    let n = *rng.pick(&["unknown", "Inline", "each", "", "p", "@partial-block"]);
    let bad = vec![
        decorator(calls(n, vec![])),
        decorator_block(calls(n, vec![string("x")]), vec![raw("x")]),
        decorator(call(number(1), vec![a()])),
        decorator_block(call(lookup(root(&["t"]), string("u")), vec![]), vec![]),
        decorator(calls(n, vec![])).indented(&wide(), false),
    ];
    let good = vec![
        decorator_block(call(lookup(root(&["t"]), string("d")), vec![string("x")]), vec![raw("x")]),
        decorator_block(call(string("inline"), vec![string("x")]), vec![raw("x")]),
        decorator_block(
            call(Param::Path { raw: "inline".into(), segs: vec![Seg::Up] }, vec![root(&["s"])]),
            vec![],
        ),
        block_of(calls("if", vec![number(0)]), &[], Some(vec![decorator(calls(n, vec![]))]), None),
    ];
    one_of(rng, over, 16, each1(bad), each1(good))
}

/// Only the body of a named template has a name to include: blocks leave none behind them.
fn cannot_include_self(rng: &mut Rng, over: bool) -> Made {
    let me = *rng.pick(&["p", "main"]);
    let again = || partial(calls(me, vec![]));
    let yes = || calls("if", vec![number(1)]);
    let bad = vec![
        vec![again()],
        vec![raw("x"), comment("y"), show(a()), again()],
        vec![partial(calls("q", vec![])), again()],
        vec![block("if", vec![number(0)], vec![raw("x")]), again()],
        vec![block_of(yes(), &[], None, None), again()],
        vec![inline(me, vec![raw("other")]), again()],
        vec![partial_block(calls("q", vec![]), vec![raw("x")]), again()],
        vec![partial_block(calls(me, vec![number(1)]), vec![raw("x")])],
        vec![partial_block(calls("@partial-block", vec![]), vec![raw("x")]), again()],
        vec![partial(call(string(me), vec![]).with("k", a()))],
        vec![again().indented(&" ".repeat(200), true)],
    ];
    // After a body was drawn the name is gone: the template includes itself until 23.
    let good = vec![
        (23, vec![block_of(yes(), &[], Some(vec![]), None), again()]),
        (23, vec![block("each", vec![root(&["l"])], vec![raw("x")]), again()]),
        (23, vec![block("with", vec![root(&["l"])], vec![again()])]),
        (
            0,
            vec![inline(me, vec![raw("other")]), block_of(yes(), &[], Some(vec![]), None), again()],
        ),
        (0, vec![inline(me, vec![raw("other")]), block_of(yes(), &[], Some(vec![again()]), None)]),
        (0, vec![partial(calls("q", vec![]))]),
        (0, vec![block("if", vec![number(0)], vec![again()])]),
    ];
    let (number, kinds) = if over { (17, rng.pick(&bad).clone()) } else { rng.pick(&good).clone() };
    let q = ("q", vec![raw("q")]);
    if over && rng.chance(15) {
        return named_like_a_text(rng, q);
    }
    let t = if me == "p" {
        Tree::new(vec![("main", vec![partial(calls("p", vec![]))]), ("p", kinds), q])
    } else {
        Tree::new(vec![q, ("main", kinds)])
    };
    (dressed(rng, t, PLAN), number)
}

/// The call starts at a template named `@partial-block`: 17 is met before its text is looked for.
fn named_like_a_text(rng: &mut Rng, q: (&str, Vec<Kind>)) -> Made {
    let me = "@partial-block";
    let kinds = if rng.chance(50) {
        vec![raw("x"), partial(calls(me, vec![]))]
    } else {
        vec![partial(calls("q", vec![])), partial_block(calls(me, vec![]), vec![raw("fallback")])]
    };
    let mut case = dressed(rng, Tree::new(vec![(me, kinds), q]), PLAN);
    case.start = me.as_bytes().to_vec();
    (case, 17)
}

fn invalid_param_type(rng: &mut Rng, over: bool) -> Made {
    let bad = [
        number(1),
        Param::Lit(Lit::Null),
        Param::Lit(Lit::True),
        name("x"),
        a(),
        root(&["o"]),
        root(&["gone"]),
        root(&["z"]),
    ];
    let good =
        [string("x"), root(&["s"]), lookup(root(&["t"]), string("p")), sub(calls("if", vec![a()]))];
    let p = if over { rng.pick(&bad).clone() } else { rng.pick(&good).clone() };
    let c = calls("inline", vec![p, number(2)]);
    let kind =
        if over && rng.chance(40) { decorator(c) } else { decorator_block(c, vec![raw("x")]) };
    one_of(rng, over, 18, vec![vec![kind.clone()]], vec![vec![kind]])
}

fn block_content_required(rng: &mut Rng, over: bool) -> Made {
    let good =
        [string("x"), root(&["s"]), lookup(root(&["t"]), string("p")), sub(calls("if", vec![a()]))];
    let c = calls("inline", vec![rng.pick(&good).clone()]).with_pairs(rng.below(3));
    let kind = if over { decorator(c) } else { decorator_block(c, vec![]) };
    let kind = if rng.chance(30) { kind.indented(&wide(), true) } else { kind };
    one_of(rng, over, 19, vec![vec![kind.clone()]], vec![vec![kind]])
}

fn invalid_json_index(rng: &mut Rng, over: bool) -> Made {
    let bad = [
        "x",
        "-1",
        "18446744073709551616",
        "",
        "1.0",
        " 1",
        "1 ",
        "++1",
        "+",
        "-0",
        "0x1",
        "é",
        "1e1",
        "99999999999999999999999",
    ];
    let good =
        ["0", "1", "2", "+1", "02", "0000000000000000000000001", "18446744073709551615", "+0"];
    let i = if over { *rng.pick(&bad) } else { *rng.pick(&good) };
    let p = || root(&["a", i]);
    let kinds = vec![
        show(p()),
        show_html(p()),
        expr("if", vec![p()]),
        block("each", vec![number(1), p()], vec![]),
        Kind::Expr(calls("if", vec![a()]).with("k", p()), false),
        show(root(&["a", i, "deeper"])),
        block_of(calls("with", vec![a()]), &["it"], Some(vec![show(path(&["it", i]))]), None),
        block_of(calls("with", vec![a()]), &[], Some(vec![show(path(&[i]))]), None),
        block_of(
            calls("with", vec![a()]),
            &[],
            Some(vec![block("if", vec![number(1)], vec![show(ups(9, &[i]))])]),
            None,
        ),
        inline("q", vec![show(path(&["k", i]))]),
        partial(calls("p", vec![string("")]).with("k", p())),
        expr("if", vec![sub(calls("lookup", vec![a(), p()]))]),
    ];
    let mut kind = rng.pick(&kinds).clone();
    if let Kind::DecoratorBlock(_) = kind {
        kind = block_of(
            calls("if", vec![number(1)]),
            &[],
            Some(vec![kind, partial(calls("q", vec![]).with("k", a()))]),
            None,
        );
    }
    let (mut case, number) = one_of(rng, over, 20, vec![vec![kind.clone()]], vec![vec![kind]]);
    // Recursive lookup passes over a bad index under a plain name.
    case.options = 0;
    (case, number)
}

fn unknown() -> Param {
    sub(calls("unknown", vec![]))
}

fn few() -> Param {
    sub(calls("lookup", vec![]))
}

fn bad_index() -> Param {
    root(&["a", "x"])
}

/// Name, then parameters, then hash values by ascending key, then what the call does.
fn helper_order(rng: &mut Rng, over: bool) -> Made {
    let bad = bad_index;
    let cases = vec![
        (20, Kind::Expr(calls("unknown", vec![bad()]), false)),
        (14, Kind::Expr(call(unknown(), vec![bad()]), false)),
        (15, Kind::Html(call(few(), vec![bad()]).with("k", unknown()), false)),
        (20, Kind::Expr(calls("if", vec![bad()]).with("k", unknown()), false)),
        (14, block_of(calls("if", vec![unknown()]).with("k", bad()), &[], None, None)),
        (14, Kind::Expr(calls("if", vec![unknown(), bad()]), false)),
        (20, Kind::Expr(calls("if", vec![]).with("a", bad()).with("b", unknown()), false)),
        (14, Kind::Expr(calls("if", vec![]).with("a", unknown()).with("b", bad()), false)),
        (15, Kind::Expr(calls("if", vec![]).with("A", few()).with("b", bad()), false)),
        (20, block_of(calls("each", vec![]).with("k", bad()), &[], None, None)),
        (15, block_of(call(few(), vec![unknown()]), &[], None, None)),
        (20, show(sub(calls("unknown", vec![bad()])))),
        (14, show(sub(calls("unknown", vec![a()])))),
        (20, show(sub(calls("lookup", vec![bad()])))),
        (14, show(sub(calls("if", vec![unknown()]).with("k", bad())))),
        (14, show(sub(call(unknown(), vec![bad()])))),
    ];
    order_of(rng, over, cases)
}

fn partial_order(rng: &mut Rng, over: bool) -> Made {
    let bad = bad_index;
    let cases = vec![
        (20, partial(calls("nowhere", vec![]).with("k", bad()))),
        (14, partial(call(unknown(), vec![]).with("k", bad()))),
        (14, partial(calls("p", vec![unknown()]).with("k", bad()))),
        (20, partial_block(calls("p", vec![number(1), bad()]).with("k", unknown()), vec![])),
        (15, partial(call(few(), vec![unknown()]))),
        (14, partial_block(call(unknown(), vec![few()]), vec![])),
        (20, partial(calls("p", vec![]).with("a", bad()).with("b", unknown()))),
        (20, partial(calls("p", vec![string(""), bad()]))),
        (
            20,
            partial_block(calls("@partial-block", vec![]).with("k", bad()), vec![show(unknown())]),
        ),
        (14, decorator_block(call(unknown(), vec![bad()]), vec![])),
        (20, decorator_block(calls("inline", vec![bad()]).with("k", unknown()), vec![])),
        (20, decorator(calls("unknown", vec![bad()]))),
        (20, decorator(calls("inline", vec![]).with("k", bad()))),
        (15, decorator(calls("inline", vec![few()]).with("k", bad()))),
    ];
    order_of(rng, over, cases)
}

/// One of the cases, with something that fails later behind it or something harmless before it.
fn order_of(rng: &mut Rng, over: bool, cases: Vec<(u32, Kind)>) -> Made {
    let (number, kind) = rng.pick(&cases).clone();
    let kinds = if over { vec![kind, decorator(calls("x", vec![]))] } else { vec![raw("x"), kind] };
    let t = placed(rng, kinds);
    (dressed(rng, t, PLAN), number)
}
