//! Refusals 21 to 25: indent, entries, scopes, block texts, page, each to the last and one past.

use super::limits::{dressed, limit, Limit, Made};
use super::rng::Rng;
use super::tree::*;

const SCOPES: usize = 32;
const INDENT: usize = 256;
const ENTRIES: usize = 4_096;
const TEXTS: usize = 16_384;

pub fn all() -> Vec<Limit> {
    vec![
        limit(21, "indent alone", indent_alone),
        limit(21, "indent joined", indent_joined),
        limit(21, "indent before other refusals", indent_first),
        limit(21, "indent given back", indent_given_back),
        limit(22, "merge of a string", merge_string),
        limit(22, "merge of a list", merge_list),
        limit(22, "merges inside one another", merge_nested),
        limit(22, "keys that replace", merge_replacing),
        limit(22, "inline partials", inline_entries),
        limit(22, "merges and inline partials", mixed_entries),
        limit(22, "entries given back", entries_given_back),
        limit(22, "entries and other refusals", entries_order),
        limit(23, "scopes", scopes),
        limit(23, "the last scope", last_scope),
        limit(23, "partials by themselves", own_recursion),
        limit(24, "one block text", one_text),
        limit(24, "block texts inside one another", nested_texts),
        limit(24, "block texts given back", texts_given_back),
        limit(24, "written texts", written_text),
        limit(25, "page", page),
        limit(25, "page by pieces", page_pieces),
    ]
}

fn number_if(over: bool, number: u32) -> u32 {
    if over {
        number
    } else {
        0
    }
}

/// An indent of so many bytes, of one character or of several.
fn indent_of(rng: &mut Rng, bytes: usize) -> String {
    let wide = *rng.pick(&[" ", "\t", "é", "€", "\n"]);
    let mut s = wide.repeat(bytes / wide.len());
    while s.len() < bytes {
        s.push(' ');
    }
    s
}

/// The elements that work an indent out and do no more harm.
fn indented_kind(rng: &mut Rng, indent: &str) -> Kind {
    let kind = match rng.below(5) {
        0 => partial_block(calls("q", vec![]), vec![raw("in")]),
        1 => inline("i", vec![raw("x")]),
        2 => partial_block(calls("@partial-block", vec![]), vec![raw("fallback")]),
        3 => partial_block(calls("nowhere", vec![]), vec![raw("own\ntext\n")]),
        _ => partial(calls("q", vec![])),
    };
    kind.indented(indent, rng.chance(70))
}

fn with_q(main: Vec<Kind>) -> Tree {
    Tree::new(vec![("main", main), ("q", vec![raw("q\nq\n"), show(path(&["a"]))])])
}

fn indent_alone(rng: &mut Rng, over: bool) -> Made {
    let indent = indent_of(rng, INDENT + usize::from(over));
    let main = vec![raw("x\n"), indented_kind(rng, &indent), raw("y")];
    (dressed(rng, with_q(main), r#"{"a":1}"#), number_if(over, 21))
}

/// Partials inside one another whose indents join, some empty and some absent.
fn indent_joined(rng: &mut Rng, over: bool) -> Made {
    let mut left = INDENT + usize::from(over);
    let count = rng.between(2, 5);
    let mut templates: Vec<(String, Vec<Kind>)> = Vec::new();
    for i in 0..count {
        let part = if i + 1 == count { left } else { rng.below(left.min(100)) };
        left -= part;
        let indent = indent_of(rng, part);
        let to = format!("t{}", i + 1);
        let inner = if i + 1 == count {
            indented_kind(rng, &indent)
        } else {
            partial(calls(&to, vec![])).indented(&indent, true)
        };
        templates.push((format!("t{i}"), vec![raw("x\n"), inner]));
    }
    templates[0].0 = "main".to_owned();
    let mut t: Vec<(&str, Vec<Kind>)> =
        templates.iter().map(|(n, k)| (n.as_str(), k.clone())).collect();
    t.push(("q", vec![raw("q")]));
    (dressed(rng, Tree::new(t), r#"{"a":1}"#), number_if(over, 21))
}

/// 21 is met after name, parameters and hash, and before what the element does.
fn indent_first(rng: &mut Rng, over: bool) -> Made {
    let bad = || path(&["a", "x"]);
    let kinds = [
        (12, 21, partial(calls("nowhere", vec![]))),
        (13, 21, partial(calls("@partial-block", vec![]))),
        (17, 21, partial(calls("main", vec![]))),
        (16, 21, decorator(calls("unknown", vec![]))),
        (15, 21, decorator_block(calls("inline", vec![]), vec![])),
        (18, 21, decorator_block(calls("inline", vec![number(1)]), vec![])),
        (19, 21, decorator(calls("inline", vec![string("x")]))),
        (20, 20, partial(calls("q", vec![]).with("k", bad()))),
        (20, 20, decorator(calls("inline", vec![bad()]))),
        (14, 14, partial(call(sub(calls("unknown", vec![])), vec![]))),
        (15, 15, partial(calls("q", vec![sub(calls("lookup", vec![]))]))),
    ];
    let (under, past, kind) = rng.pick(&kinds).clone();
    let indent = indent_of(rng, INDENT + usize::from(over));
    let main = vec![raw("x"), kind.indented(&indent, false)];
    (dressed(rng, with_q(main), r#"{"a":[1]}"#), if over { past } else { under })
}

/// Elements beside one another do not join; a block text is drawn with the indent outside.
fn indent_given_back(rng: &mut Rng, over: bool) -> Made {
    let a = indent_of(rng, 200);
    let b = indent_of(rng, if over { 57 } else { 56 });
    let inner = partial(calls("q", vec![])).indented(&b, true);
    let outer = |n: &str| partial(calls(n, vec![])).indented(&a, true);
    let main = vec![
        outer("q"),
        outer("q"),
        partial_block(calls("q", vec![]), vec![inner.clone()]).indented(&a, true),
        outer("r"),
    ];
    let mut t = with_q(main);
    t.templates.push(("r".to_owned(), body(vec![raw("r\n"), inner])));
    (dressed(rng, t, r#"{"a":1}"#), number_if(over, 21))
}

// Entries

/// A string of so many characters, as the plan's whole value.
fn string_plan(rng: &mut Rng, count: usize) -> String {
    format!("\"{}\"", rng.pick(&["a", "é", "😀"]).repeat(count))
}

fn shows(n: &str) -> (&str, Vec<Kind>) {
    (n, vec![show(path(&["a"])), raw(","), show(path(&["7"]))])
}

fn merge_string(rng: &mut Rng, over: bool) -> Made {
    let pairs = rng.between(1, 10);
    let chars = ENTRIES + usize::from(over) - pairs;
    let mut c = calls("q", vec![]).with_pairs(pairs);
    let plan = if rng.chance(60) {
        string_plan(rng, chars)
    } else {
        c.params.push(string(&"y".repeat(chars)));
        "null".to_owned()
    };
    let kind = match rng.below(3) {
        0 => partial(c),
        1 => partial_block(c, vec![raw("x")]),
        // Not found, so it draws its own body, with the same merge.
        _ => {
            c.name = name("nowhere");
            partial_block(c, vec![raw("x")])
        }
    };
    let t = Tree::new(vec![("main", vec![kind]), shows("q")]);
    (dressed(rng, t, &plan), number_if(over, 22))
}

fn merge_list(rng: &mut Rng, over: bool) -> Made {
    let pairs = rng.between(3, 15);
    let count = ENTRIES + usize::from(over) - pairs;
    let list = format!("[{}]", vec!["0"; count].join(","));
    let (plan, params) = if rng.chance(50) {
        (list, vec![])
    } else {
        (format!("{{\"l\":{list}}}"), vec![lookup(root(&[]), string("l"))])
    };
    let c = calls("q", params).with_pairs(pairs);
    let t = Tree::new(vec![("main", vec![partial(c)]), shows("q")]);
    (dressed(rng, t, &plan), number_if(over, 22))
}

/// An object of `members` members, named by letters.
fn object_plan(members: usize) -> String {
    let name = |i: usize| format!("\"m{i}\":0");
    format!("{{{}}}", (0..members).map(name).collect::<Vec<_>>().join(","))
}

/// Each open partial merges the object again; inline partials or a string take the rest.
fn merge_nested(rng: &mut Rng, over: bool) -> Made {
    let members = rng.between(140, 300);
    let each = members + 1;
    let partials = (ENTRIES / each).min(30);
    let mut rest = ENTRIES - partials * each;
    let mut inside: Vec<Kind> = Vec::new();
    let more = usize::from(over);
    while rest > 0 && rest < 60 && inside.len() < rest + more {
        inside.push(inline(&format!("i{}", inside.len()), vec![]));
    }
    if rest >= 60 || over && inside.is_empty() {
        // Another merge, of a string, takes what is left.
        rest += more;
        inside =
            vec![partial(calls("s", vec![string(&"x".repeat(rest - 1))]).with("k", number(1)))];
    }
    let mut templates = Vec::new();
    for i in 0..partials {
        templates.push((
            format!("t{i}"),
            vec![partial(calls(&format!("t{}", i + 1), vec![]).with("k", number(1)))],
        ));
    }
    templates.push((format!("t{partials}"), inside));
    templates[0].0 = "main".to_owned();
    let mut t: Vec<(&str, Vec<Kind>)> =
        templates.iter().map(|(n, k)| (n.as_str(), k.clone())).collect();
    t.push(("s", vec![raw("s")]));
    (dressed(rng, Tree::new(t), &object_plan(members)), number_if(over, 22))
}

/// A key that the base has too counts once.
fn merge_replacing(rng: &mut Rng, over: bool) -> Made {
    let chars = ENTRIES;
    let mut c = calls("q", vec![]).with(*rng.pick(&["0", "7", "10", "4095"]), number(1));
    if over {
        c = c.with(*rng.pick(&["4096", "01", "+1", "a", ""]), number(2));
    } else {
        c = c.with("1", number(2));
    }
    let t = Tree::new(vec![("main", vec![partial(c)]), shows("q")]);
    let plan = string_plan(rng, chars);
    (dressed(rng, t, &plan), number_if(over, 22))
}

/// Each over a merged object keeps one inline partial for each of its keys.
fn inline_each() -> Kind {
    block(
        "each",
        vec![path(&[])],
        vec![decorator_block(calls("inline", vec![local(0, "key")]), vec![raw("x")])],
    )
}

fn inline_entries(rng: &mut Rng, over: bool) -> Made {
    // The merge has 2,048 entries, each keeps 2,048 inline partials.
    let plan = string_plan(rng, ENTRIES / 2 - 1);
    let again = inline(if over { "one more" } else { "a" }, vec![raw("y")]);
    let mut each = inline_each();
    if let Kind::Block(Block { then: Some(b), .. }) = &mut each {
        b.push(body(vec![block("if", vec![local(0, "last")], vec![again])]).remove(0));
    }
    let t = Tree::new(vec![
        ("main", vec![partial(calls("q", vec![]).with("a", number(1)))]),
        ("q", vec![each]),
    ]);
    (dressed(rng, t, &plan), number_if(over, 22))
}

fn mixed_entries(rng: &mut Rng, over: bool) -> Made {
    let inlines = rng.between(1, 30);
    let pairs = rng.between(1, 5);
    let chars = ENTRIES - inlines - pairs;
    let mut main: Vec<Kind> =
        (0..inlines).map(|i| inline(&format!("i{i}"), vec![raw("i")])).collect();
    if rng.chance(50) {
        // The same names again in the same scope add nothing.
        main.extend((0..inlines).map(|i| inline(&format!("i{i}"), vec![raw("j")])));
    }
    main.push(partial(calls("q", vec![]).with_pairs(pairs)));
    let mut q = vec![raw("q")];
    if over {
        let more = if rng.chance(50) {
            inline("i0", vec![])
        } else {
            partial(calls("i0", vec![number(1)]).with("k", number(1)))
        };
        q.push(more);
    } else {
        q.push(partial(calls("i0", vec![])));
    }
    let plan = string_plan(rng, chars);
    (dressed(rng, Tree::new(vec![("main", main), ("q", q)]), &plan), number_if(over, 22))
}

/// What a closed scope held is free again.
fn entries_given_back(rng: &mut Rng, over: bool) -> Made {
    let big = || partial(calls("q", vec![]).with("a", number(1)));
    let wide = || block("with", vec![path(&[])], vec![inline("i", vec![]), inline("j", vec![])]);
    let mut main = vec![big(), wide(), big()];
    if over {
        let at = rng.below(3);
        main.insert(at, inline("kept", vec![]));
    }
    let plan = string_plan(rng, ENTRIES - 1);
    let t = Tree::new(vec![("main", main), ("q", vec![raw("q")])]);
    (dressed(rng, t, &plan), number_if(over, 22))
}

/// Beside other refusals: 12, 13, 15, 17 to 20 come before 22, and 22 before 23.
fn entries_order(rng: &mut Rng, over: bool) -> Made {
    let bad = || path(&["0"]);
    let merge = |n: &str| partial(calls(n, vec![]).with("a", number(1)));
    let cases = [
        (12, 12, merge("nowhere")),
        (17, 17, merge("q")),
        (0, 22, merge("r")),
        (15, 15, decorator_block(calls("inline", vec![]), vec![])),
        (18, 18, decorator_block(calls("inline", vec![number(1)]), vec![])),
        (19, 19, decorator(calls("inline", vec![string("x")]))),
        (0, 0, partial_block(calls("@partial-block", vec![]).with("a", bad()), vec![raw("own")])),
        (13, 13, partial(calls("@partial-block", vec![]).with("a", bad()))),
        (0, 0, partial(calls("r", vec![]))),
        (16, 16, decorator(calls("unknown", vec![string("x")]))),
    ];
    // Inside q the entries are full, or nearly.
    let used = if over { ENTRIES } else { ENTRIES - 2 };
    let (under, past, kind) = rng.pick(&cases).clone();
    let q = vec![kind];
    let full = calls("q", vec![string(&"x".repeat(used - 1))]).with("k", number(1));
    // r's merge is of null and one key.
    let mut t = Tree::new(vec![("main", vec![partial(full)]), ("q", q), ("r", vec![raw("r")])]);
    if let Some(Kind::Partial(d)) = t.templates[1].1.get_mut(0).map(|e| &mut e.kind) {
        if d.call.hash.len() == 1 && matches!(&d.call.name, Param::Name(n) if n != "@partial-block")
        {
            d.call.params.insert(0, Param::Lit(Lit::Null));
        }
    }
    (dressed(rng, t, "null"), if over { past } else { under })
}

// Scopes

/// A tree that draws `tail` with exactly `scopes` scopes open, by each, with and partials.
fn nested(rng: &mut Rng, scopes: usize, tail: Vec<Kind>, mix: usize) -> Tree {
    let mut templates: Vec<(String, Vec<Kind>)> = Vec::new();
    let mut inside = tail;
    let mut depth = 4;
    for i in 1..scopes {
        let way = if mix == 4 { rng.below(4) } else { mix };
        if way >= 2 || depth >= 14 {
            let n = format!("t{i}");
            let next = partial(calls(&n, vec![]));
            if way == 3 && depth < 14 {
                inside = vec![inline(&n, inside), next];
                depth += 1;
            } else {
                templates.push((n, inside));
                inside = vec![next];
                depth = 2;
            }
        } else {
            let (helper, over) = if way == 0 { ("each", "l") } else { ("with", "o") };
            inside = vec![block(helper, vec![root(&[over])], inside)];
            depth += 1;
        }
    }
    let mut t = vec![("main", inside)];
    t.extend(templates.iter().map(|(n, k)| (n.as_str(), k.clone())));
    Tree::new(t)
}

const PLAN: &str = r#"{"l":[1],"o":{"a":1},"e":[],"m":{},"z":0}"#;

fn scopes(rng: &mut Rng, over: bool) -> Made {
    let mix = rng.below(5);
    let t = nested(rng, SCOPES + usize::from(over), vec![show(root(&["o", "a"]))], mix);
    (dressed(rng, t, PLAN), number_if(over, 23))
}

/// With 32 scopes open: what pushes another, and what does not.
fn last_scope(rng: &mut Rng, over: bool) -> Made {
    let r = |n: &str| root(&[n]);
    let pushes = [
        block("each", vec![r("l")], vec![raw("x")]),
        block("each", vec![r("e")], vec![raw("x")]),
        block("each", vec![r("m")], vec![]),
        block("with", vec![r("o")], vec![raw("x")]),
        block_of(calls("with", vec![r("o")]), &["n"], None, Some(vec![])),
        Kind::Expr(calls("with", vec![r("o")]), false),
        Kind::Html(calls("if", vec![sub(calls("with", vec![r("o")]))]), false),
        Kind::Expr(calls("if", vec![number(1)]).with("k", sub(calls("with", vec![r("l")]))), false),
        show(sub(calls("with", vec![r("o")]))),
        partial(calls("q", vec![])),
        partial_block(calls("q", vec![]), vec![decorator(calls("unknown", vec![]))]),
        partial_block(calls("nowhere", vec![]), vec![raw("x")]),
        decorator_block(calls("inline", vec![sub(calls("with", vec![r("o")]))]), vec![]),
    ];
    let stays = [
        block_of(calls("each", vec![r("l")]), &[], None, Some(vec![raw("x")])),
        block_of(calls("each", vec![r("e")]), &[], Some(vec![raw("x")]), Some(vec![raw("else")])),
        block_of(calls("each", vec![r("m")]), &[], Some(vec![raw("x")]), Some(vec![raw("else")])),
        block("each", vec![r("z")], vec![raw("x")]),
        block_of(calls("with", vec![r("z")]), &[], Some(vec![raw("x")]), Some(vec![raw("else")])),
        block("if", vec![r("l")], vec![raw("x")]),
        Kind::Expr(calls("each", vec![r("l")]), false),
        show(sub(calls("with", vec![r("z")]))),
        show(sub(calls("each", vec![r("l")]))),
        inline("q", vec![raw("x")]),
        partial_block(calls("@partial-block", vec![]), vec![raw("fallback")]),
    ];
    let kind = if over { rng.pick(&pushes).clone() } else { rng.pick(&stays).clone() };
    let mix = rng.below(5);
    let mut t = nested(rng, SCOPES, vec![kind], mix);
    t.templates.push(("q".to_owned(), body(vec![raw("q")])));
    (dressed(rng, t, PLAN), number_if(over, 23))
}

/// A template includes itself: for as deep as the plan is, or for ever.
fn own_recursion(rng: &mut Rng, over: bool) -> Made {
    let levels = SCOPES - 2 + usize::from(over);
    let mut plan = "true".to_owned();
    for _ in 0..levels {
        plan = format!("{{\"n\":{plan}}}");
    }
    let next = || partial(calls("p", vec![lookup(path(&[]), string("n"))]));
    let p = vec![raw("p"), block("if", vec![path(&["n"])], vec![next()])];
    let forever = over && rng.chance(40);
    let p = if forever {
        vec![block("if", vec![path(&[])], vec![]), partial(calls("p", vec![]))]
    } else {
        p
    };
    let t = Tree::new(vec![("main", vec![partial(calls("p", vec![]))]), ("p", p)]);
    (dressed(rng, t, &plan), number_if(over, 23))
}

// Block texts and the page

/// Elements that write so many bytes; the plan is `WRITES`.
fn writes(rng: &mut Rng, bytes: usize) -> Vec<Kind> {
    let mut kinds = Vec::new();
    let mut left = bytes;
    if left >= 100 && rng.chance(50) {
        // Escaped: "<" is four bytes; "é" is two, and no part of it may be cut off.
        kinds.push(show(root(&["w"])));
        kinds.push(show_html(root(&["w"])));
        left -= 9;
    }
    if rng.chance(50) && left > 1 {
        let first = rng.between(1, left - 1);
        kinds.push(raw(&"t".repeat(first)));
        left -= first;
    }
    if left > 0 {
        kinds.push(raw(&"u".repeat(left)));
    }
    kinds
}

const WRITES: &str = r#"{"w":"<é","v":true}"#;

fn q_of(kinds: Vec<Kind>) -> (&'static str, Vec<Kind>) {
    ("q", kinds)
}

fn block_text() -> Kind {
    partial(calls("@partial-block", vec![]))
}

fn one_text(rng: &mut Rng, over: bool) -> Made {
    let inside = writes(rng, TEXTS + usize::from(over));
    let q = if rng.chance(30) { vec![block_text()] } else { vec![raw("q")] };
    let t = Tree::new(vec![("main", vec![partial_block(calls("q", vec![]), inside)]), q_of(q)]);
    (dressed(rng, t, WRITES), number_if(over, 24))
}

/// In sum: texts that are finished while their partial is open, and those being drawn.
fn nested_texts(rng: &mut Rng, over: bool) -> Made {
    let all = TEXTS + usize::from(over);
    let first = rng.between(1, all - 2);
    let second = rng.between(1, all - first - 1);
    let third = all - first - second;
    let plain = |n: usize| vec![raw(&"a".repeat(n))];
    let to = |n: &str, inside: Vec<Kind>| partial_block(calls(n, vec![]), inside);
    let q = vec![raw("q")];
    let t = match rng.below(4) {
        // While a text is drawn, others are drawn inside it.
        0 => {
            let mut inside = plain(first);
            let mut inner = plain(second);
            inner.push(to("q", plain(third - 1)));
            inside.push(to("e", inner));
            Tree::new(vec![("main", vec![to("q", inside)]), q_of(q), ("e", vec![])])
        }
        // Finished ones, while their partials draw.
        1 => Tree::new(vec![
            ("main", vec![to("r", plain(first))]),
            ("r", vec![to("s", plain(second))]),
            ("s", vec![to("q", plain(third)), raw("s")]),
            q_of(q),
        ]),
        // Another block text copied into one that is drawn.
        2 => {
            let half = all / 2;
            let mut copy = plain(all - 2 * half);
            copy.push(block_text());
            Tree::new(vec![
                ("main", vec![to("r", plain(half))]),
                ("r", vec![to("q", copy)]),
                q_of(q),
            ])
        }
        // What an inner partial draws goes into the outer text.
        _ => {
            let mut inside = plain(first);
            inside.push(partial(calls("s", vec![])));
            Tree::new(vec![("main", vec![to("q", inside)]), ("s", plain(second + third)), q_of(q)])
        }
    };
    (dressed(rng, t, WRITES), if over { 24 } else { 0 })
}

fn texts_given_back(rng: &mut Rng, over: bool) -> Made {
    let big = |rng: &mut Rng, n: usize| partial_block(calls("q", vec![]), writes(rng, n));
    let main = vec![big(rng, TEXTS), big(rng, TEXTS), big(rng, TEXTS + usize::from(over))];
    let t = Tree::new(vec![("main", main), q_of(vec![raw("q")])]);
    (dressed(rng, t, WRITES), number_if(over, 24))
}

/// Indents count, and each turn of each writes again; own bodies and fallbacks are no block texts.
fn written_text(rng: &mut Rng, over: bool) -> Made {
    let more = usize::from(over);
    let to_q = |inside: Vec<Kind>| partial_block(calls("q", vec![]), inside);
    let long = raw(&"a".repeat(TEXTS / 4));
    let list = Param::Lit(Lit::Str(String::new()));
    let t = match rng.below(4) {
        0 => {
            let turns = block("each", vec![root(&["l"])], vec![long]);
            Tree::new(vec![("main", vec![to_q(vec![turns, raw(&"b".repeat(more))])]), q_of(vec![])])
        }
        // The indent of the including element stands before each line but the first.
        1 => {
            let lines = "a\n".repeat(100);
            let left = TEXTS - 200 - 99 * 60;
            let text = vec![raw(&lines), raw(&"c".repeat(left - 60 + more))];
            let r = vec![to_q(text)];
            Tree::new(vec![
                ("main", vec![partial(calls("r", vec![])).indented(&" ".repeat(60), false)]),
                ("r", r),
                q_of(vec![]),
            ])
        }
        2 => {
            let own =
                partial_block(calls("nowhere", vec![list]), vec![raw(&"d".repeat(TEXTS + 5))]);
            Tree::new(vec![
                ("main", vec![own, to_q(vec![raw(&"e".repeat(TEXTS + more))])]),
                q_of(vec![]),
            ])
        }
        _ => {
            let fallback =
                partial_block(calls("@partial-block", vec![]), vec![raw(&"f".repeat(TEXTS + 5))]);
            Tree::new(vec![
                ("main", vec![fallback, to_q(vec![raw(&"e".repeat(TEXTS + more))])]),
                q_of(vec![]),
            ])
        }
    };
    (dressed(rng, t, r#"{"l":[1,2,3,4]}"#), number_if(over, 24))
}

/// A page that is full to the last byte, or one byte too short.
fn page(rng: &mut Rng, over: bool) -> Made {
    let bytes = rng.between(1, 300);
    let kinds = writes(rng, bytes);
    let mut t = Tree::main(kinds);
    t.number_lines();
    let mut case = super::limits::plain(&t, WRITES);
    case.page = (bytes - usize::from(over)) as u32;
    (case, number_if(over, 25))
}

/// The same with indents, block texts and partials; empty writes always fit.
fn page_pieces(rng: &mut Rng, over: bool) -> Made {
    let to_q = |text: Vec<Kind>| partial_block(calls("q", vec![]), text);
    let (bytes, kinds, q) = match rng.below(6) {
        0 => (0, vec![raw(""), show(root(&["gone"])), partial(calls("q", vec![]))], vec![]),
        1 => (8, vec![partial(calls("q", vec![])).indented("  ", true)], vec![raw("a\nb\n")]),
        2 => (4, vec![to_q(vec![raw("xy")])], vec![block_text(), block_text()]),
        3 => (3, vec![partial_block(calls("@partial-block", vec![]), vec![raw("abc")])], vec![]),
        4 => (0, vec![to_q(vec![])], vec![block_text(), block_text()]),
        _ => (5, vec![block("if", vec![root(&["v"])], vec![raw("<"), show(root(&["v"]))])], vec![]),
    };
    let before = rng.below(6);
    let mut main = vec![raw(&"b".repeat(before))];
    main.extend(kinds);
    main.extend(rng.chance(50).then(|| comment("c")));
    let bytes = before + bytes;
    if over && bytes == 0 {
        main.push(raw("x"));
    }
    let mut t = Tree::new(vec![("main", main), q_of(q)]);
    t.number_lines();
    let mut case = super::limits::plain(&t, WRITES);
    case.page = if over { bytes.saturating_sub(1) } else { bytes } as u32;
    (case, number_if(over, 25))
}
