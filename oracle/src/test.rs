//! Calls on small bundles: the pages that document 01 knows beforehand, and each check and
//! limit at its spot.

use std::collections::BTreeMap;

use serde_json::value::Value as Json;

use crate::batch::{self, Case, Counts};
use crate::bundle::{decode, encode, BitWriter, Bundle};
use crate::call::{caught, render_call, with_big_stack, Answer, Options};
use crate::grammar::Rule;
use crate::json::path::{Path, PathSeg};
use crate::template::TemplateElement::*;
use crate::template::{
    BlockParam, DecoratorTemplate, HelperTemplate, Parameter, Subexpression, Template,
    TemplateElement,
};

const OFF: Options = Options {
    strict: false,
    recursive_lookup: false,
    guide_truth: false,
};

fn n(name: &str) -> Parameter {
    Parameter::Name(name.to_owned())
}

/// A path by its raw text: `..` is up, `@root` is root, the rest are names.
fn p(raw: &str) -> Parameter {
    let segs = raw.split('/').filter(|s| !s.is_empty()).map(|s| match s {
        "@root" => PathSeg::Ruled(Rule::path_root),
        ".." => PathSeg::Ruled(Rule::path_up),
        _ => PathSeg::Named(s.to_owned()),
    });
    Parameter::Path(Path::Relative((segs.collect(), raw.to_owned())))
}

fn local(level: usize, name: &str) -> Parameter {
    Parameter::Path(Path::Local((level, name.to_owned(), format!("@{name}"))))
}

fn lit(value: impl Into<Json>) -> Parameter {
    Parameter::Literal(value.into())
}

fn sub(name: Parameter, params: &[Parameter]) -> Parameter {
    Parameter::Subexpression(Subexpression::new(name, params.to_vec(), BTreeMap::new()))
}

/// Each element stands in line 1, at its place counted from 1.
fn body(elements: Vec<TemplateElement>) -> Template {
    let mut template = Template::new();
    for (i, element) in elements.into_iter().enumerate() {
        template.push_element(element, 1, i + 1);
    }
    template
}

fn raw(text: &str) -> TemplateElement {
    RawString(text.to_owned())
}

fn helper(name: Parameter, params: &[Parameter]) -> Box<HelperTemplate> {
    Box::new(HelperTemplate {
        name,
        params: params.to_vec(),
        hash: BTreeMap::new(),
        block_param: None,
        template: None,
        inverse: None,
        block: false,
        chain: false,
        indent_before_write: false,
    })
}

fn expr(name: Parameter) -> TemplateElement {
    Expression(helper(name, &[]))
}

fn call(name: &str, params: &[Parameter]) -> TemplateElement {
    Expression(helper(n(name), params))
}

fn block(name: &str, param: Parameter, then: Vec<TemplateElement>) -> TemplateElement {
    let mut ht = helper(n(name), &[param]);
    ht.block = true;
    ht.template = Some(body(then));
    HelperBlock(ht)
}

fn with_else(mut element: TemplateElement, inverse: Vec<TemplateElement>) -> TemplateElement {
    if let HelperBlock(ht) = &mut element {
        ht.inverse = Some(body(inverse));
    }
    element
}

fn with_name(mut element: TemplateElement, name: &str) -> TemplateElement {
    if let HelperBlock(ht) = &mut element {
        ht.block_param = Some(BlockParam::Single(n(name)));
    }
    element
}

fn decorator(name: &str, params: &[Parameter], hash: &[(&str, Parameter)]) -> Box<DecoratorTemplate> {
    let hash = hash.iter().map(|(k, v)| ((*k).to_owned(), v.clone()));
    Box::new(DecoratorTemplate {
        name: n(name),
        params: params.to_vec(),
        hash: hash.collect(),
        template: None,
        indent: None,
        indent_before_write: false,
    })
}

fn partial(name: &str) -> TemplateElement {
    PartialExpression(decorator(name, &[], &[]))
}

fn merged(name: &str, base: Parameter, hash: &[(&str, Parameter)]) -> TemplateElement {
    PartialExpression(decorator(name, &[base], hash))
}

fn partial_block(name: &str, inside: Vec<TemplateElement>) -> TemplateElement {
    let mut dt = decorator(name, &[], &[]);
    dt.template = Some(body(inside));
    PartialBlock(dt)
}

fn indented(name: &str, indent: &str) -> TemplateElement {
    let mut dt = decorator(name, &[], &[]);
    dt.indent = Some(indent.to_owned());
    dt.indent_before_write = true;
    PartialExpression(dt)
}

fn inline(name: Parameter, inside: Vec<TemplateElement>) -> TemplateElement {
    let mut dt = decorator("inline", &[name], &[]);
    dt.template = Some(body(inside));
    DecoratorBlock(dt)
}

fn pack(templates: Vec<(&str, Vec<TemplateElement>)>) -> Vec<u8> {
    let templates = templates.into_iter().map(|(name, elements)| {
        let mut template = body(elements);
        template.name = Some(name.to_owned());
        (name.to_owned(), template)
    });
    let bundle = Bundle {
        templates: templates.collect(),
    };
    let bytes = encode(&bundle);
    if let Ok(read) = decode(&bytes) {
        assert_eq!(read, bundle);
    }
    bytes
}

type Templates<'a> = Vec<(&'a str, Vec<TemplateElement>)>;

fn run_with(options: Options, page: usize, templates: Templates<'_>, plan: &str) -> Answer {
    render_call(&pack(templates), plan.as_bytes(), b"main", options, page)
}

fn prints(text: &str, templates: Templates<'_>, plan: &str) {
    prints_with(OFF, text, templates, plan);
}

fn prints_with(options: Options, text: &str, templates: Templates<'_>, plan: &str) {
    let answer = run_with(options, 65_536, templates, plan);
    let expected = Answer {
        text: text.as_bytes().to_vec(),
        ..Answer::default()
    };
    assert_eq!(answer, expected);
}

/// `refusal` is number, template, line and column.
fn refuses(refusal: &str, templates: Templates<'_>, plan: &str) {
    refuses_with(OFF, 65_536, refusal, templates, plan);
}

fn refuses_with(options: Options, page: usize, refusal: &str, templates: Templates<'_>, plan: &str) {
    let a = run_with(options, page, templates, plan);
    let name = a.template.clone().unwrap_or_default();
    assert!(a.text.is_empty() && !a.gave_up, "{a:?}");
    assert_eq!(format!("{} {name} {} {}", a.number, a.line, a.column), refusal);
}

#[test]
fn test_known_pages() {
    let list = r#"{"r":["a<","b"]}"#;
    let turn = |last| vec![expr(local(0, "index")), raw("="), last, raw(";")];
    let each = |last| vec![("main", vec![block("each", p("r"), turn(last))])];
    prints("0=a&lt;;1=b;", each(expr(p(""))), list);
    prints("0=a<;1=b;", each(HtmlExpression(helper(p(""), &[]))), list);

    for empty in [r#"{"r":[]}"#, r#"{"r":{}}"#] {
        prints("", vec![("main", vec![block("each", p("r"), vec![raw("x")])])], empty);
        let both = with_else(block("each", p("r"), vec![raw("x")]), vec![raw("none")]);
        prints("none", vec![("main", vec![both.clone()])], empty);
        let HelperBlock(mut ht) = both else { unreachable!() };
        ht.template = None;
        prints("", vec![("main", vec![HelperBlock(ht)])], empty);
    }

    let five = r#"{"a":[5,6]}"#;
    prints("6", vec![("main", vec![expr(p("a/+1"))])], five);
    prints("6", vec![("main", vec![expr(p("a/01"))])], five);
    prints("", vec![("main", vec![expr(p("a/18446744073709551615"))])], five);
    refuses("20 main 1 1", vec![("main", vec![expr(p("a/18446744073709551616"))])], five);
    refuses("20 main 1 2", vec![("main", vec![raw("-"), expr(p("a/x"))])], five);
    prints("[1, [2, ]]", vec![("main", vec![expr(p(""))])], "[1,[2,null]]");

    let nested = r#"{"n":7,"a":{"b":1}}"#;
    let inside = || vec![("main", vec![block("with", p("a"), vec![expr(p("n"))])])];
    prints("", inside(), nested);
    let recursive = Options {
        recursive_lookup: true,
        ..OFF
    };
    prints_with(recursive, "7", inside(), nested);

    let named = with_name(block("each", p("r"), vec![expr(p("../i"))]), "i");
    prints("4", vec![("main", vec![named])], r#"{"r":[4]}"#);
    let lines = vec![("main", vec![indented("q", "  ")]), ("q", vec![raw("a\nb\n")])];
    prints("  a\n  b\n", lines, "{}");

    let p_again = || vec![("main", vec![partial("p")]), ("p", vec![block("if", p("x"), vec![]), partial("p")])];
    refuses("23 p 1 2", p_again(), r#"{"x":true}"#);
    refuses("17 p 1 2", p_again(), r#"{"x":false}"#);

    prints("18446744073709551615", vec![("main", vec![expr(p(""))])], "18446744073709551615");
    refuses("9  0 0", vec![("main", vec![])], "18446744073709551616");
    refuses("8  0 0", vec![("main", vec![])], "");
}

#[test]
fn test_checks_in_order() {
    let both = Options {
        strict: true,
        guide_truth: true,
        ..OFF
    };
    let good = pack(vec![("main", vec![])]);
    let path = pack(vec![("main", vec![block("if", p("x"), vec![merged("q", p("y"), &[])])])]);
    let number = |bundle: &[u8], plan: &[u8], start: &[u8], options| {
        let a = render_call(bundle, plan, start, options, 0);
        assert_eq!((a.template, a.line, a.column), (None, 0, 0));
        a.number
    };
    assert_eq!(number(&[0; 65_537], b"x", b"no", both), 2);
    assert_eq!(number(&[0; 65_536], b"x", b"no", both), 3);
    assert_eq!(number(&path, b"x", b"no", both), 4);
    assert_eq!(number(&good, b"x", b"no", both), 5);
    assert_eq!(number(&good, b"x", b"no", OFF), 6);
    assert_eq!(number(&good, &[b'x'; 65_537], b"main", OFF), 7);
    assert_eq!(number(&good, b"-0 x", b"main", OFF), 8);
    assert_eq!(number(&good, b"-0", b"main", OFF), 9);
    assert_eq!(number(&good, format!("[1{}]", ",1".repeat(4095)).as_bytes(), b"main", OFF), 10);
    assert_eq!(number(&good, b"0", b"main", OFF), 0);
}

#[test]
fn test_check_4_looks_everywhere() {
    let wrong = || vec![merged("q", n("y"), &[])];
    let mut unless = block("unless", p("x"), vec![]);
    unless = with_else(unless, wrong());
    let literal = merged("q", lit(1), &[]);
    for element in [
        unless,
        block("each", p("x"), wrong()),
        inline(lit("i"), wrong()),
        partial_block("@partial-block", wrong()),
        merged("@partial-block", p("a"), &[]),
    ] {
        refuses("4  0 0", vec![("main", vec![]), ("q", vec![literal.clone(), element])], "{}");
    }
    prints("", vec![("main", vec![literal]), ("q", vec![])], "{}");
}

#[test]
fn test_layout() {
    let good = pack(vec![("main", vec![raw("x")])]);
    assert!(decode(&good).is_ok());
    assert!(decode(&[&good[..], &[0]].concat()).is_err());
    for cut in 0..good.len() {
        assert!(decode(&good[..cut]).is_err());
    }
    assert!(decode(&pack(vec![("a", vec![]), ("a", vec![])])).is_err());
    assert!(decode(&pack(vec![])).is_err());
    let names: Vec<String> = (0..65).map(|i| i.to_string()).collect();
    let many = |count| names[..count].iter().map(|name| (name.as_str(), vec![])).collect();
    assert!(decode(&pack(many(64))).is_ok());
    assert!(decode(&pack(many(65))).is_err());

    // four bits of padding, a version, a kind
    let mut padded = pack(vec![("main", vec![])]);
    assert_eq!(padded.len() * 8, 16 + 48 + 12 + 4);
    for bit in 0..4 {
        padded[9] ^= 1 << bit;
        assert!(decode(&padded).is_err());
        padded[9] ^= 1 << bit;
    }
    assert!(decode(&padded).is_ok());
    assert!(decode(&[&[2], &good[1..]].concat()).is_err());
    let mut w = BitWriter::new();
    for (value, width) in [(1, 8), (1, 8), (0, 16), (1, 12), (1, 16), (1, 16), (9, 4)] {
        w.put(value, width);
    }
    w.string(b"x");
    assert!(decode(&w.bytes()).is_err());
}

#[test]
fn test_depth_of_layout() {
    let nest = |bodies: usize, inner: TemplateElement| {
        (1..bodies).fold(inner, |e, _| block("if", p("x"), vec![e]))
    };
    let reads = |element| decode(&pack(vec![("main", vec![element])])).is_ok();
    assert!(reads(nest(16, raw("x"))));
    assert!(!reads(nest(17, raw("x"))));
    assert!(reads(nest(15, expr(p("x")))));
    assert!(!reads(nest(16, expr(p("x")))));
    let deep = |subs: usize| (0..subs).fold(lit(1), |param, _| sub(n("if"), &[param]));
    assert!(reads(call("if", &[deep(14)])));
    assert!(!reads(call("if", &[deep(15)])));
}

#[test]
fn test_errors_of_the_core() {
    let strict = Options {
        strict: true,
        ..OFF
    };
    refuses_with(strict, 9, "11 main 1 1", vec![("main", vec![expr(p("x"))])], "{}");
    refuses("12 main 1 1", vec![("main", vec![partial("x")])], "{}");
    refuses("13 main 1 1", vec![("main", vec![partial("@partial-block")])], "{}");
    refuses("14 main 1 1", vec![("main", vec![call("x", &[lit(1)])])], "{}");
    refuses("15 main 1 1", vec![("main", vec![call("lookup", &[lit(1)])])], "{}");
    let foo = DecoratorExpression(decorator("foo", &[], &[]));
    refuses("16 main 1 1", vec![("main", vec![foo])], "{}");
    refuses("17 main 1 1", vec![("main", vec![partial("main")])], "{}");
    refuses("18 main 1 1", vec![("main", vec![inline(lit(1), vec![])])], "{}");
    let bare = DecoratorExpression(decorator("inline", &[lit("p")], &[]));
    refuses("19 main 1 1", vec![("main", vec![bare])], "{}");
    // an inline body's error has the includer's name
    let main = vec![inline(lit("i"), vec![raw("a"), partial("x")]), partial("q")];
    refuses("12 q 1 2", vec![("main", main), ("q", vec![partial("i")])], "{}");
}

#[test]
fn test_limit_21() {
    let pair = |a: usize, b: usize| {
        let (a, b) = (" ".repeat(a), " ".repeat(b));
        vec![("main", vec![indented("q", &a)]), ("q", vec![raw(""), indented("r", &b)]), ("r", vec![])]
    };
    prints("", pair(256, 0), "{}");
    prints("", pair(128, 128), "{}");
    refuses("21 q 1 2", pair(128, 129), "{}");
    refuses("21 main 1 1", pair(257, 0), "{}");
    // before 12, 13 and 16; after what the parameters refuse
    let long = " ".repeat(257);
    let mut dt = decorator("x", &[], &[]);
    dt.indent = Some(long.clone());
    refuses("21 main 1 1", vec![("main", vec![DecoratorExpression(dt.clone())])], "{}");
    refuses("21 main 1 1", vec![("main", vec![indented("@partial-block", &long)])], "{}");
    refuses("21 main 1 1", vec![("main", vec![indented("main", &long)])], "{}");
    dt.hash.insert("k".to_owned(), p("a/x"));
    refuses("20 main 1 1", vec![("main", vec![PartialExpression(dt)])], r#"{"a":[]}"#);
}

#[test]
fn test_limit_22() {
    let string = |chars: usize| format!("\"{}\"", "a".repeat(chars));
    let current = |hash: &[(&str, Parameter)]| PartialExpression(decorator("q", &[], hash));
    let once = |inside| vec![("main", vec![current(&[("x", lit(1))])]), ("q", inside)];
    prints("", once(vec![]), &string(4095));
    refuses("22 main 1 1", once(vec![]), &string(4096));
    // a replaced key counts once, and freed entries are free again
    let twice = vec![("main", vec![current(&[("0", lit(1))]), current(&[("0", lit(1))])]), ("q", vec![])];
    prints("", twice, &string(4096));
    // inline partials count with it, an equal name once
    prints("", once(vec![inline(lit("i"), vec![]), inline(lit("i"), vec![])]), &string(4094));
    let two = || vec![inline(lit("i"), vec![]), inline(lit("j"), vec![])];
    refuses("22 q 1 2", once(two()), &string(4094));
    prints("", once(two()), &string(4093));
    refuses("18 q 1 1", once(vec![inline(lit(1), vec![])]), &string(4095));
    // without a hash nothing is merged
    prints("", vec![("main", vec![current(&[])]), ("q", vec![])], &string(9000));
}

/// Templates t0 to t(n-1), each a partial of the next; `last` stands in the innermost.
fn chain(names: &[String], last: Vec<TemplateElement>) -> Templates<'_> {
    let mut templates: Templates<'_> = vec![];
    for (i, name) in names.iter().enumerate() {
        let inside = match names.get(i + 1) {
            Some(next) => vec![partial(next)],
            None => last.clone(),
        };
        templates.push((name, inside));
    }
    templates
}

#[test]
fn test_limit_23() {
    let names = |count: usize| -> Vec<String> {
        let rest = (1..count).map(|i| format!("t{i}"));
        std::iter::once("main".to_owned()).chain(rest).collect()
    };
    // `main` has the first scope
    let (full, over) = (names(32), names(33));
    let plan = r#"{"a":[],"o":{},"t":1,"s":"ab"}"#;
    prints("x", chain(&full, vec![raw("x")]), plan);
    refuses("23 t31 1 1", chain(&over, vec![raw("x")]), plan);
    let each = |path| block("each", p(path), vec![]);
    refuses("23 t31 1 1", chain(&full, vec![each("a")]), plan);
    refuses("23 t31 1 1", chain(&full, vec![each("o")]), plan);
    prints("", chain(&full, vec![with_else(each("a"), vec![])]), plan);
    prints("", chain(&full, vec![block("if", p("t"), vec![])]), plan);
    refuses("23 t31 1 1", chain(&full, vec![call("with", &[p("t")])]), plan);
    refuses("23 t31 1 1", chain(&full, vec![call("if", &[sub(n("with"), &[p("t")])])]), plan);
    refuses("12 t31 1 1", chain(&full, vec![partial("x")]), plan);
    // 22 before 23
    let big = merged("main", lit("a".repeat(4096)), &[("x", lit(1))]);
    refuses("22 t31 1 1", chain(&full, vec![big]), plan);
}

#[test]
fn test_limit_24() {
    let text = |bytes: usize| raw(&"a".repeat(bytes));
    let once = |bytes| vec![("main", vec![partial_block("q", vec![text(bytes)])]), ("q", vec![])];
    prints("", once(16_384), "{}");
    refuses("24 main 1 1", once(16_385), "{}");
    // freed when the partial closes; those of open partials count together
    let two = vec![partial_block("q", vec![text(16_384)]), partial_block("q", vec![text(16_384)])];
    prints("", vec![("main", two), ("q", vec![])], "{}");
    let nested = |inner: usize| {
        let q = vec![partial_block("r", vec![text(inner)])];
        vec![("main", vec![partial_block("q", vec![text(16_000)])]), ("q", q), ("r", vec![])]
    };
    prints("", nested(384), "{}");
    refuses("24 q 1 1", nested(385), "{}");
    // what is written into the text counts, escaped
    let escaped = |chars: usize| {
        let inside = vec![expr(p("")), raw("aaaa")];
        let plan = format!("\"{}\"", "<".repeat(chars));
        (vec![("main", vec![partial_block("q", inside)]), ("q", vec![])], plan)
    };
    let (templates, plan) = escaped(4095);
    prints("", templates, &plan);
    let (templates, plan) = escaped(4096);
    refuses("24 main 1 2", templates, &plan);
    // the own body of a partial that is not found is no block text
    let own = vec![("main", vec![partial_block("x", vec![text(20_000)])])];
    prints(&"a".repeat(20_000), own, "{}");
}

#[test]
fn test_limit_25() {
    let two = || vec![("main", vec![raw("ab"), raw("cd")])];
    assert_eq!(run_with(OFF, 4, two(), "{}").text, b"abcd");
    refuses_with(OFF, 3, "25 main 1 2", two(), "{}");
    refuses_with(OFF, 0, "25 main 1 1", two(), "{}");
    assert_eq!(run_with(OFF, 0, vec![("main", vec![raw("")])], "{}").number, 0);
    let block_text = vec![("main", vec![partial_block("q", vec![raw("abc")])]), ("q", vec![partial("@partial-block")])];
    refuses_with(OFF, 2, "25 q 1 1", block_text, "{}");
}

#[test]
fn test_guide_truth() {
    let guide = Options {
        guide_truth: true,
        ..OFF
    };
    let choice = |name| with_else(block(name, p("x"), vec![raw("t")]), vec![raw("f")]);
    for (plan, plain, guided) in [
        (r#"{"x":{}}"#, "ftf", "tff"),
        (r#"{"x":{"a":0}}"#, "tft", "tft"),
        (r#"{"x":[]}"#, "ftf", "ftf"),
        (r#"{"x":""}"#, "ftf", "ftf"),
        (r#"{"x":0}"#, "ftf", "ftf"),
        (r#"{"x":-1}"#, "tft", "tft"),
        (r#"{"x":null}"#, "ftf", "ftf"),
        (r#"{}"#, "ftf", "ftf"),
        (r#"{"x":false}"#, "ftf", "ftf"),
    ] {
        let main = || vec![("main", vec![choice("if"), choice("unless"), choice("with")])];
        prints(plain, main(), plan);
        prints_with(guide, guided, main(), plan);
    }
    let mut ht = helper(n("if"), &[lit(0)]);
    ht.block = true;
    ht.template = Some(body(vec![raw("t")]));
    ht.hash.insert("includeZero".to_owned(), lit(true));
    prints("t", vec![("main", vec![HelperBlock(ht.clone())])], "{}");
    prints_with(guide, "", vec![("main", vec![HelperBlock(ht.clone())])], "{}");
    ht.hash.insert("includeZero".to_owned(), p("a/x"));
    refuses_with(guide, 9, "20 main 1 1", vec![("main", vec![HelperBlock(ht)])], r#"{"a":[]}"#);
}

#[test]
fn test_hash_by_ascending_key() {
    let hash = [("b", sub(n("no"), &[])), ("a", p("l/x"))];
    let main = vec![PartialExpression(decorator("q", &[], &hash))];
    refuses("20 main 1 1", vec![("main", main), ("q", vec![])], r#"{"l":[]}"#);
}

#[test]
fn test_gives_up() {
    // each over 1,000 places, three deep, draws a thousand million elements
    let nest = |e| block("each", p("@root"), vec![e]);
    let main = vec![nest(nest(nest(Comment(String::new()))))];
    let plan = format!("[1{}]", ",1".repeat(999));
    assert!(run_with(OFF, 9, vec![("main", main)], &plan).gave_up);
    // a partial that merges its context into itself twice doubles it in every scope
    let hash = [("a", p("")), ("b", p(""))];
    let again = PartialExpression(decorator("q", &[], &hash));
    let q = vec![block("if", lit(true), vec![again.clone()])];
    assert!(run_with(OFF, 9, vec![("main", vec![again]), ("q", q)], "{\"x\":1}").gave_up);
    // the next call has its budget again
    prints("x", vec![("main", vec![raw("x")])], "{}");
}

#[test]
fn test_deepest_nesting() {
    // 32 scopes of 16 nested bodies
    let names: Vec<String> = (0..31).map(|i| format!("t{i}")).chain(["main".to_owned()]).collect();
    let mut templates: Templates<'_> = vec![];
    for (i, name) in names.iter().enumerate() {
        let last = if i == 0 { raw("x") } else { partial(&names[i - 1]) };
        let nested = (0..14).fold(last, |e, _| block("if", lit(true), vec![e]));
        templates.push((name, vec![nested]));
    }
    prints("x", templates, "{}");
}

#[test]
fn test_a_panic_is_no_answer() {
    let fault = caught(|| with_big_stack(|| -> Answer { panic!("fault {}", 1) }));
    assert_eq!(fault, Err("fault 1".to_owned()));
    assert_eq!(caught(|| 1), Ok(1));
}

#[test]
fn test_batch_form() {
    let options = Options {
        recursive_lookup: true,
        ..OFF
    };
    let case = Case {
        options,
        start: b"main",
        page: 258,
        bundle: b"\x01\x02",
        plan: b"",
    };
    let mut bytes = vec![];
    batch::write(&case, &mut bytes);
    assert_eq!(bytes, b"\x02\x04\0\0\0main\x02\x01\0\0\x02\0\0\0\x01\x02\0\0\0\0");
    let twice = bytes.repeat(2);
    assert_eq!(batch::read(&twice), Ok(vec![case, case]));
    for cut in bytes.len() + 1..twice.len() {
        assert!(batch::read(&twice[..cut]).unwrap_err().starts_with("case 2: byte "));
    }
    assert_eq!(batch::read(b"\x08").unwrap_err(), "case 1: byte 0: options 8 are more than three bits");

    let page = run_with(OFF, 9, vec![("main", vec![raw("a\u{e9}")])], "{}");
    assert_eq!(batch::line(&page), "0 - 0 0 3 61c3a9");
    let refused = run_with(OFF, 0, vec![("main", vec![raw("a")])], "{}");
    assert_eq!(batch::line(&refused), "25 6d61696e 1 1 0 -");
    let gave_up = Answer {
        gave_up: true,
        ..page
    };
    assert_eq!(batch::line(&gave_up), "T - 0 0 0 -");
}

#[test]
fn test_self_check() {
    let bundle = pack(vec![("main", vec![raw("x")])]);
    let mut counts = Counts::default();
    let deep = format!(r#"{{"a":{}{},"a":1}}"#, "[".repeat(32), "]".repeat(32));
    let spaces = " ".repeat(65_537);
    for plan in ["1", "-0", "1e999", "[1", &deep, "19223372036854775808.", "18446744073709551616.5", &spaces] {
        let case = Case {
            options: OFF,
            start: b"main",
            page: 0,
            bundle: &bundle,
            plan: plan.as_bytes(),
        };
        assert_eq!(batch::self_check(&case, &mut counts), Ok(()), "{plan}");
    }
    assert_eq!((counts.cases, counts.bundles, counts.compared), (8, 8, 7));
    assert_eq!(counts.plans, [1, 1, 3, 3, 0]);
    assert_eq!(counts.only_too_deep, 1);
    // later versions of serde_json read these numbers rightly
    assert!(counts.misread == 0 || counts.misread == 2);
}
