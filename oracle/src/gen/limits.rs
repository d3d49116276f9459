//! The limits profile: each refusal 2 to 25 at its limit and one past, with the number due.
//! Here checks 2 to 10; `limits_draw` has 11 to 20, `limits_room` 21 to 25.

use super::rng::Rng;
use super::tree::*;
use super::write::{bundle, What, Writer};
use super::{damaged, json, limits_draw, limits_room, Case, GUIDE, RECURSIVE, STRICT};

/// A case and the number that the paper gives it.
pub type Made = (Case, u32);

pub struct Limit {
    /// The refusal that this is about.
    pub number: u32,
    pub name: &'static str,
    /// Makes a case; with `over` one past the limit, which must give `number`.
    pub make: fn(&mut Rng, bool) -> Made,
}

pub const BUNDLE: usize = 65_536;
pub const PLAN: usize = 65_536;

pub fn limit(number: u32, name: &'static str, make: fn(&mut Rng, bool) -> Made) -> Limit {
    Limit { number, name, make }
}

/// All makers, in the order of their numbers.
pub fn all() -> Vec<Limit> {
    let mut all = vec![
        limit(2, "bundle of bytes", bundle_bytes),
        limit(2, "bundle of nothing", bundle_nothing),
        limit(3, "templates", templates),
        limit(3, "version and counts", small_fields),
        limit(3, "body depth", body_depth),
        limit(3, "parameter depth", parameter_depth),
        limit(3, "string bytes", string_bytes),
        limit(3, "distinct names", distinct_names),
        limit(3, "ascending keys", ascending_keys),
        limit(3, "end", end),
        limit(4, "first parameter", first_parameter),
        limit(5, "strict and guide truth", both_options),
        limit(6, "starting name", starting_name),
        limit(7, "plan of bytes", plan_bytes),
        limit(7, "plan of nothing", plan_nothing),
        limit(8, "plan depth", plan_depth),
        limit(8, "plan text", plan_text),
        limit(9, "plan numbers", plan_numbers),
        limit(10, "plan values", plan_values),
        limit(10, "replaced values", replaced_values),
        limit(2, "order of checks", order),
    ];
    all.extend(limits_draw::all());
    all.extend(limits_room::all());
    all
}

/// The case number `index` of a run: all makers in turn, at the limit and past it.
pub fn case(rng: &mut Rng, index: u64) -> Made {
    let all = all();
    let turn = index as usize / all.len();
    (all[index as usize % all.len()].make)(rng, turn % 2 == 0)
}

/// A case with the options off, `main` as start and the full page.
pub fn plain(tree: &Tree, plan: &str) -> Case {
    Case::new(bundle(tree), plan.as_bytes().to_vec())
}

/// As `plain`, numbered, with a comment or a text before the rest of `main` now and then.
pub fn dressed(rng: &mut Rng, mut tree: Tree, plan: &str) -> Case {
    if let (Some((_, b)), true) =
        (tree.templates.iter_mut().find(|t| t.0 == "main"), rng.chance(40))
    {
        let extra = if rng.chance(50) { raw("- ") } else { comment("a note") };
        b.insert(0, body(vec![extra]).remove(0));
    }
    tree.number_lines();
    let mut case = plain(&tree, plan);
    case.options = if rng.chance(20) { RECURSIVE } else { 0 };
    case
}

fn hello() -> Tree {
    let mut t = Tree::main(vec![raw("hello "), show(path(&["a"]))]);
    t.number_lines();
    t
}

const A: &str = r#"{"a":1}"#;

/// A bundle of exactly so many bytes, filled by a comment or by a text.
fn bundle_of(size: usize, seen: bool) -> Vec<u8> {
    let fill = |n: usize| {
        let s = "a".repeat(n);
        bundle(&Tree::main(vec![if seen { raw(&s) } else { comment(&s) }, raw("x")]))
    };
    let empty = fill(0).len();
    fill(size - empty)
}

fn bundle_bytes(rng: &mut Rng, over: bool) -> Made {
    let size = BUNDLE + usize::from(over);
    let seen = rng.chance(30);
    let mut case = Case::new(bundle_of(size, seen), A.into());
    case.options = rng.below(4) as u8;
    // A text of nearly the bundle's size still fits the page.
    (case, if over { 2 } else { 0 })
}

fn bundle_nothing(rng: &mut Rng, over: bool) -> Made {
    let more = if over { rng.between(1, 60) } else { 0 };
    let byte = *rng.pick(&[0, 1, 255]);
    let case = Case::new(vec![byte; BUNDLE + more], A.into());
    (case, if over { 2 } else { 3 })
}

fn templates(rng: &mut Rng, over: bool) -> Made {
    let mut t = hello();
    let count = if over { 65 + rng.below(3) } else { 64 };
    for i in t.templates.len()..count {
        t.templates.push((format!("t{i}"), Vec::new()));
    }
    (plain(&t, A), if over { 3 } else { 0 })
}

/// A tree with every kind of field.
pub fn varied() -> Tree {
    let many =
        calls("lookup", vec![path(&["a"]), Param::Lit(Lit::Negative(-5)), Param::Lit(Lit::Null)])
            .with("k", number(7))
            .with("l", string("s"));
    let mut t = Tree::new(vec![
        (
            "main",
            vec![
                raw("é€😀"),
                show(path(&["a"])),
                show_html(local(2, "index")),
                show(ups(1, &["a", "b"])),
                show(root(&["a"])),
                Kind::Expr(many, true),
                block_of(
                    calls("if", vec![Param::Lit(Lit::True)]),
                    &["x"],
                    Some(vec![raw("y")]),
                    Some(vec![]),
                ),
                block_of(
                    calls("each", vec![Param::Lit(Lit::False)]),
                    &["v", "k"],
                    Some(vec![]),
                    None,
                ),
                inline("i", vec![comment("c")]).indented(" ", true),
                partial(calls("p", vec![sub(calls("if", vec![number(0)]))])).indented("", false),
                partial_block(calls("p", vec![]), vec![raw("z")]),
            ],
        ),
        ("p", vec![raw("p")]),
    ]);
    t.number_lines();
    t
}

/// One small field with the last value that is right, or the first that is wrong.
fn small_fields(rng: &mut Rng, over: bool) -> Made {
    let wrong = [
        (What::Version, 2),
        (What::Version, 0),
        (What::TemplateCount, 0),
        (What::KindTag, 9),
        (What::KindTag, 15),
        (What::NamesTag, 3),
        (What::SegTag, 3),
        (What::LiteralTag, 6),
        (What::LiteralTag, 7),
        (What::Negative, 1 << 63),
    ];
    let (what, value) = *rng.pick(&wrong);
    let mut w = Writer::default();
    w.tree(&varied());
    let fields: Vec<_> = w.fields.iter().filter(|f| f.what == what).copied().collect();
    let f = *rng.pick(&fields);
    let value = if what == What::Negative { w.field_value(&f) & !value } else { value };
    if over {
        w.set_field(&f, value);
    }
    (Case::new(w.bytes(), A.into()), if over { 3 } else { 0 })
}

/// Bodies inside one another, the innermost at `depth`.
fn nested_bodies(rng: &mut Rng, depth: usize) -> Tree {
    let mut inside = vec![raw("x"), comment("y")];
    for i in 1..depth {
        let yes = || calls("if", vec![number(1)]);
        let around = match rng.below(5) {
            0 => block_of(yes(), &[], Some(inside), None),
            1 => block_of(calls("unless", vec![number(1)]), &[], None, Some(inside)),
            2 => inline(&format!("i{i}"), inside),
            3 => partial_block(calls("nowhere", vec![]), inside),
            _ => block_of(yes(), &["n"], Some(inside), Some(vec![])),
        };
        inside = vec![around];
    }
    Tree::main(inside)
}

fn body_depth(rng: &mut Rng, over: bool) -> Made {
    let t = nested_bodies(rng, if over { 17 } else { 16 });
    (dressed(rng, t, A), if over { 3 } else { 0 })
}

/// A parameter at `depth`: its element stands in `main`, so a plain one has depth 2.
fn nested_parameter(rng: &mut Rng, depth: usize) -> Param {
    let mut p = string("a");
    for _ in 2..depth {
        p = match rng.below(3) {
            0 => sub(calls("if", vec![p])),
            1 => sub(calls("if", vec![number(1)]).with("k", p)),
            _ => sub(calls("lookup", vec![path(&[]), p])),
        };
    }
    p
}

fn parameter_depth(rng: &mut Rng, over: bool) -> Made {
    let p = nested_parameter(rng, if over { 17 } else { 16 });
    let kind = match rng.below(4) {
        0 => show(p),
        1 => Kind::Html(calls("if", vec![p]), false),
        2 => Kind::Expr(calls("if", vec![number(1)]).with("k", p), false),
        _ => partial(calls("q", vec![]).with("k", p)),
    };
    let t = Tree::new(vec![("main", vec![kind]), ("q", vec![raw("q")])]);
    (dressed(rng, t, A), if over { 3 } else { 0 })
}

/// Bundles and plans as deep as they may be, or one deeper, with their numbers: bodies, parameters, lists and objects.
pub fn deepest(rng: &mut Rng, over: bool) -> [Made; 3] {
    [body_depth(rng, over), parameter_depth(rng, over), plan_depth(rng, over)]
}

/// The first and last bytes of each length, and what is next to them.
const UTF8: [(&[u8], &[u8]); 9] = [
    (b"\xc2\x80!!", b"\xc1\xbf!!"),
    (b"\xdf\xbf!!", b"\xc0\x80!!"),
    (b"\xe0\xa0\x80!", b"\xe0\x9f\xbf!"),
    (b"\xed\x9f\xbf!", b"\xed\xa0\x80!"),
    (b"\xee\x80\x80!", b"\xed\xbf\xbf!"),
    (b"\xf0\x90\x80\x80", b"\xf0\x8f\xbf\xbf"),
    (b"\xf4\x8f\xbf\xbf", b"\xf4\x90\x80\x80"),
    (b"!!!\x7f", b"!!!\x80"),
    (b"!\xe2\x82\xac", b"\xe2\x82\xac\xe2"),
];

fn string_bytes(rng: &mut Rng, over: bool) -> Made {
    let (good, bad) = *rng.pick(&UTF8);
    let mark = "####";
    let kind = match rng.below(6) {
        0 => raw(mark),
        1 => comment(mark),
        2 => show(path(&["a", mark])),
        3 => show(local(0, mark)),
        4 => partial(calls("q", vec![string("")])).indented(mark, false),
        _ => Kind::Expr(calls("if", vec![number(1)]).with(mark, number(1)), false),
    };
    let mut t = Tree::new(vec![("main", vec![kind]), ("q", vec![])]);
    t.number_lines();
    let bytes = damaged::with_bytes(&t, mark, if over { bad } else { good });
    (Case::new(bytes, A.into()), if over { 3 } else { 0 })
}

fn distinct_names(rng: &mut Rng, over: bool) -> Made {
    let mut t = hello();
    let n = if over { "main" } else { *rng.pick(&["mai", "main2", "Main", ""]) };
    for i in 0..rng.below(4) {
        t.templates.push((format!("t{i}"), Vec::new()));
    }
    t.templates.insert(rng.below(2), (n.to_owned(), Vec::new()));
    (plain(&t, A), if over { 3 } else { 0 })
}

fn ascending_keys(rng: &mut Rng, over: bool) -> Made {
    let up = [
        ["a", "b"],
        ["", "a"],
        ["a", "aa"],
        ["Z", "a"],
        ["z", "é"],
        ["\u{ffff}", "\u{10000}"],
        ["1", "10"],
    ];
    let mut pair = *rng.pick(&up);
    if over {
        pair = if rng.chance(50) { [pair[1], pair[0]] } else { [pair[1], pair[1]] };
    }
    let mut c = calls("if", vec![number(1)]);
    c.hash = pair.iter().map(|k| ((*k).to_owned(), number(1))).collect();
    let kind = match rng.below(3) {
        0 => Kind::Expr(c, false),
        1 => show(sub(c)),
        _ => block_of(c, &[], None, None),
    };
    let t = Tree::main(vec![kind]);
    (dressed(rng, t, A), if over { 3 } else { 0 })
}

/// Zero bits to the byte's end and nothing more. A comment's length moves the end by whole bytes,
/// a path with a segment by two bits.
fn end(rng: &mut Rng, over: bool) -> Made {
    let mut segs = vec![Seg::Named("a".to_owned())];
    segs.extend(std::iter::repeat(Seg::Root).take(rng.below(4)));
    let mut t = Tree::main(vec![raw("x"), show(of_segs(segs))]);
    t.number_lines();
    let mut w = Writer::default();
    w.tree(&t);
    let padding = w.fields.last().filter(|f| f.what == What::Padding).copied();
    let mut bytes = w.bytes();
    if over {
        match (padding, rng.below(3)) {
            (Some(f), 0) => {
                let at = f.at + rng.below(f.width);
                bytes[at / 8] |= 128 >> (at % 8);
            }
            (_, 1) => {
                bytes.pop();
            }
            _ => bytes.push(if rng.chance(50) { 0 } else { 255 }),
        }
    }
    (Case::new(bytes, A.into()), if over { 3 } else { 0 })
}

fn first_parameter(rng: &mut Rng, over: bool) -> Made {
    let bad = [path(&["a"]), name("a"), local(0, "index"), path(&[])];
    let good = [
        string("a"),
        number(1),
        lookup(path(&[]), string("a")),
        sub(calls("if", vec![path(&["a"])])),
    ];
    let first = if over { rng.pick(&bad).clone() } else { rng.pick(&good).clone() };
    let mut params = vec![first];
    if rng.chance(30) {
        params.push(path(&["a"]));
    }
    let c = calls(*rng.pick(&["q", "@partial-block"]), params);
    let kind = if rng.chance(50) {
        partial_block(c, vec![raw("in")])
    } else {
        partial(calls("q", c.params))
    };
    // Drawn or not, the check looks at all bodies.
    let mut main = vec![raw("x")];
    let mut other = vec![raw("q")];
    let no = calls("if", vec![number(0)]);
    match rng.below(7) {
        0 => main.push(kind),
        1 => main.push(block_of(no, &[], Some(vec![kind]), None)),
        2 => main.push(block_of(calls("unless", vec![number(0)]), &[], None, Some(vec![kind]))),
        3 => main.push(inline("i", vec![kind])),
        4 => main.push(partial_block(calls("q", vec![]), vec![kind])),
        5 => main.push(block_of(
            no,
            &[],
            Some(vec![block_of(calls("if", vec![]), &[], None, Some(vec![kind]))]),
            None,
        )),
        _ => other.push(block_of(no, &[], Some(vec![kind]), None)),
    }
    let t = Tree::new(vec![("main", main), ("q", other)]);
    (dressed(rng, t, A), if over { 4 } else { 0 })
}

fn both_options(rng: &mut Rng, over: bool) -> Made {
    let mut case = dressed(rng, hello(), A);
    let one = if rng.chance(50) { STRICT } else { GUIDE };
    case.options |= if over { STRICT | GUIDE } else { one };
    (case, if over { 5 } else { 0 })
}

fn starting_name(rng: &mut Rng, over: bool) -> Made {
    let names = ["main", "", "p", "é", "main2"];
    let mut t = hello();
    for n in &names[1..] {
        t.templates.push(((*n).to_owned(), body(vec![raw(n)])));
    }
    let absent: [&[u8]; 9] =
        [b"mai", b"main ", b"Main", b"\0", b"\xc3", b"main23", b"maim", b"\xc3\xa8", b"q"];
    let by = rng.below(t.templates.len());
    t.templates.rotate_left(by);
    let mut case = dressed(rng, t, A);
    case.start =
        if over { rng.pick(&absent).to_vec() } else { rng.pick(&names).as_bytes().to_vec() };
    (case, if over { 6 } else { 0 })
}

/// A plan of exactly so many bytes: spaces before, inside or after, or one long string.
fn plan_of(rng: &mut Rng, size: usize) -> Vec<u8> {
    let fill = |n: usize, c: &str| c.repeat(n);
    let text = match rng.below(5) {
        0 => format!("{}{A}", fill(size - A.len(), " ")),
        1 => format!("{A}{}", fill(size - A.len(), "\n")),
        2 => format!("{{{}\"a\":1}}", fill(size - A.len(), "\t")),
        3 => format!("\"{}\"", fill(size - 2, "x")),
        _ => format!("{{\"a\":\"{}\"}}", fill(size - 8, "x")),
    };
    text.into_bytes()
}

fn plan_bytes(rng: &mut Rng, over: bool) -> Made {
    let mut case = dressed(rng, hello(), A);
    case.plan = plan_of(rng, PLAN + usize::from(over));
    if over && rng.chance(30) {
        // 7 is met before 8.
        let at = rng.below(40);
        case.plan[at] = b'?';
    }
    // The longest value and what stands before it just fit the page.
    (case, if over { 7 } else { 0 })
}

/// No JSON, but 7 is met before 8.
fn plan_nothing(rng: &mut Rng, over: bool) -> Made {
    let more = if over { rng.between(1, 60) } else { 0 };
    let mut case = dressed(rng, hello(), A);
    case.plan = vec![*rng.pick(b" [{0x\0\xff"); PLAN + more];
    (case, if over { 7 } else { 8 })
}

/// Lists and objects inside one another, `depth` of them.
fn deep_text(rng: &mut Rng, depth: usize) -> String {
    let style = rng.below(3);
    let mut text = if rng.chance(50) { "1".to_owned() } else { String::new() };
    for _ in 0..depth {
        let list = style == 0 || style == 2 && rng.chance(50);
        text = match (list, text.is_empty()) {
            (true, _) => format!("[{text}]"),
            (false, true) => "{}".to_owned(),
            (false, false) => format!("{{\"a\":{text}}}"),
        };
    }
    text
}

fn plan_depth(rng: &mut Rng, over: bool) -> Made {
    let deep = deep_text(rng, if over { 32 } else { 31 });
    let text = match rng.below(4) {
        0 => format!("[0,{deep}]"),
        1 => format!("{{\"a\":{deep},\"a\":1}}"),
        2 => format!("[{deep},0]"),
        _ => format!("{{\"a\":0,\"b\":{deep}}}"),
    };
    let t = Tree::main(vec![block("with", vec![path(&["0"])], vec![raw("y")]), raw("x")]);
    (dressed(rng, t, &text), if over { 8 } else { 0 })
}

fn plan_text(rng: &mut Rng, over: bool) -> Made {
    let mut case = dressed(rng, Tree::main(vec![raw("x")]), A);
    case.plan = if over { json::bad_text(rng) } else { json::good_text(rng) };
    (case, if over { 8 } else { 0 })
}

fn plan_numbers(rng: &mut Rng, over: bool) -> Made {
    let good = ["0", "-1", "18446744073709551615", "-9223372036854775808", "10", "7"];
    let n = if over { *rng.pick(&json::BAD_NUMBERS) } else { *rng.pick(&good) };
    let text = match rng.below(5) {
        0 => n.to_owned(),
        1 => format!("[{n}]"),
        2 => format!("{{\"a\":{n},\"a\":1}}"),
        3 => format!("{{\"a\":{{\"b\":[1,{n},2]}}}}"),
        _ => format!(" {{ \"a\" : {n} }} "),
    };
    let t = Tree::main(vec![raw("x"), show(path(&[]))]);
    (dressed(rng, t, &text), if over { 9 } else { 0 })
}

fn plan_values(rng: &mut Rng, over: bool) -> Made {
    let count = 4_096 + usize::from(over);
    let unit = *rng.pick(&["0", "[]", "{}", "\"\"", "1", "null"]);
    let text = match rng.below(3) {
        0 => format!("[{}]", vec![unit; count - 1].join(",")),
        1 => format!("{{\"a\":[{}]}}", vec![unit; count - 2].join(",")),
        _ => format!("[[{}],{unit}]", vec![unit; count - 3].join(",")),
    };
    let t = Tree::main(vec![show(path(&["0", "0"])), raw("x")]);
    (dressed(rng, t, &text), if over { 10 } else { 0 })
}

/// Members that later ones replace count too, with all inside them.
fn replaced_values(rng: &mut Rng, over: bool) -> Made {
    let count = 4_096 + usize::from(over);
    let text = if rng.chance(50) {
        format!("{{{}}}", vec!["\"a\":0"; count - 1].join(","))
    } else {
        format!("{{\"a\":[{}],\"a\":1}}", vec!["0"; count - 3].join(","))
    };
    (dressed(rng, hello(), &text), if over { 10 } else { 0 })
}

/// Several refusals at once: the first in checking order speaks.
fn order(rng: &mut Rng, over: bool) -> Made {
    let mut case = dressed(rng, hello(), A);
    let mut met = Vec::new();
    // The long bundle and plan only in every second case, for they take room.
    let of_bundle = if over { rng.below(6) } else { 1 + rng.below(5) };
    match of_bundle {
        0 => case.bundle = vec![0; BUNDLE + 1],
        1 => case.bundle.push(0),
        2 => case.bundle = bundle(&Tree::main(vec![partial(calls("p", vec![path(&[])]))])),
        _ => {}
    }
    met.extend([2, 3, 4].get(of_bundle));
    if rng.chance(40) {
        case.options |= STRICT | GUIDE;
        met.push(5);
    }
    if rng.chance(40) {
        case.start = b"other".to_vec();
        met.push(6);
    }
    let of_plan = if over { rng.below(5) } else { 1 + rng.below(4) };
    let zeros = |first: &str| format!("[{first},{}]", vec!["0"; 4_096].join(",")).into_bytes();
    match of_plan {
        0 => case.plan = vec![b'0'; PLAN + 1],
        1 => case.plan = b"[1.0,".to_vec(),
        2 => case.plan = zeros("-0"),
        3 => case.plan = zeros("0"),
        _ => {}
    }
    met.extend([7, 8, 9, 10].get(of_plan));
    let first = met.into_iter().min().unwrap_or(0);
    (case, first)
}
