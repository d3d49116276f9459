//! The deepest drawings: 32 scopes, and in each as many bodies inside one another as the layout allows. For measuring stack.

use super::limits::plain;
use super::tree::*;
use super::Case;

/// Depths that a template spends on what stands around the next scope: an element that has parameters is at most 15 deep.
const AROUND: usize = 14;
const SCOPES: usize = 32;

/// A body inside another, without a scope of its own.
type Around = fn(Vec<Kind>) -> Kind;

fn by_if(inside: Vec<Kind>) -> Kind {
    block("if", vec![number(1)], inside)
}

fn by_unless(inside: Vec<Kind>) -> Kind {
    block_of(calls("unless", vec![number(1)]), &[], None, Some(inside))
}

/// `@partial-block` where there is none: its own body is drawn.
fn by_fallback(inside: Vec<Kind>) -> Kind {
    partial_block(calls("@partial-block", vec![]), inside)
}

fn nested(around: Around, count: usize, inside: Vec<Kind>) -> Vec<Kind> {
    (0..count).fold(inside, |inside, _| vec![around(inside)])
}

fn name_of(i: usize) -> String {
    if i == 0 { "main".to_owned() } else { format!("t{i}") }
}

/// Templates 0 to `count`, each drawing the next, as `link` makes it of the next one's name.
fn chain(count: usize, link: impl Fn(&str) -> Vec<Kind>, around: Around) -> Case {
    let mut templates: Vec<(String, Vec<Kind>)> =
        (0..count).map(|i| (name_of(i), link(&name_of(i + 1)))).collect();
    templates.push((name_of(count), last(around)));
    let templates = templates.iter().map(|(n, k)| (n.as_str(), k.clone())).collect();
    let mut tree = Tree::new(templates);
    tree.templates.push(("q".to_owned(), body(vec![partial(calls("@partial-block", vec![]))])));
    tree.number_lines();
    plain(&tree, &plan())
}

/// What the innermost scope draws: subexpressions, a list and bodies, all as deep as they may be.
fn last(around: Around) -> Vec<Kind> {
    let deep = (0..AROUND).fold(path(&["a"]), |p, _| lookup(p, string("a")));
    let calls_deep = Kind::Expr(calls("if", vec![sub_chain(AROUND - 1)]), false);
    let mut kinds = vec![show(root(&["l"])), show(deep), calls_deep];
    kinds.extend(nested(around, AROUND + 1, vec![raw("x")]));
    kinds
}

fn sub_chain(count: usize) -> Param {
    (0..count).fold(number(1), |p, _| sub(calls("if", vec![p])))
}

/// A list of 31 levels, and members `a` inside one another.
fn plan() -> String {
    let list = format!("{}1{}", "[".repeat(31), "]".repeat(31));
    let inside = format!("{}1{}", "{\"a\":".repeat(31), "}".repeat(31));
    format!("{{\"l\":{list},\"a\":{inside},\"e\":[1],\"o\":{{\"k\":2}}}}")
}

fn include(n: &str) -> Kind {
    partial(calls(n, vec![]))
}

/// Each case with what it is about; all print a page.
pub fn all() -> Vec<(&'static str, Case)> {
    let e = || root(&["e"]);
    let scopes = SCOPES - 1;
    let by_partials = |around: Around| chain(scopes, move |n| nested(around, AROUND, vec![include(n)]), around);
    vec![
        ("partials, if", by_partials(by_if)),
        ("partials, unless", by_partials(by_unless)),
        ("partials, fallbacks", by_partials(by_fallback)),
        ("partials with a hash and an indent", chain(scopes, |n| nested(by_if, AROUND, vec![dressed(n)]), by_if)),
        ("inline partials", chain(scopes / 2, |n| vec![raw("i"), kept(n), include("i")], by_if)),
        ("block texts, finished", chain(scopes, |n| nested(by_if, AROUND, vec![with_text(n)]), by_if)),
        (
            "block texts, being drawn",
            chain(scopes / 2, |n| nested(by_if, AROUND - 1, vec![in_text(vec![include(n)])]), by_if),
        ),
        (
            "each and partials",
            chain(
                scopes / 2,
                |n| nested(by_if, 7, vec![block("each", vec![e()], nested(by_if, 6, vec![include(n)]))]),
                by_if,
            ),
        ),
        (
            "with and partials",
            chain(
                scopes / 2,
                |n| {
                    let inside = nested(by_if, 6, vec![include(n)]);
                    nested(by_if, 7, vec![block("with", vec![root(&["o"])], inside)])
                },
                by_if,
            ),
        ),
        ("each in each", chain(2, |n| nested(|k| block("each", vec![root(&["e"])], k), AROUND, vec![include(n)]), by_if)),
        (
            "each in block texts",
            chain(
                scopes / 3,
                |n| {
                    let inside = block("each", vec![e()], nested(by_if, 6, vec![include(n)]));
                    nested(by_if, 6, vec![in_text(vec![inside])])
                },
                by_if,
            ),
        ),
    ]
}

/// With a hash, so that each scope has a merged object, and an indent.
fn dressed(n: &str) -> Kind {
    partial(calls(n, vec![number(1)]).with("k", number(2))).indented(" ", true)
}

/// An inline partial that draws the next template from as deep as it can.
fn kept(n: &str) -> Kind {
    inline("i", nested(by_if, AROUND - 1, vec![include(n)]))
}

/// The block text is there while the next template is drawn.
fn with_text(n: &str) -> Kind {
    partial_block(calls(n, vec![]), vec![raw("text")])
}

/// The next template is drawn into a block text.
fn in_text(inside: Vec<Kind>) -> Kind {
    partial_block(calls("q", vec![]), inside)
}

#[cfg(test)]
mod test {
    use super::all;

    #[test]
    fn test_all_print_a_page() {
        for (name, case) in all() {
            let answer = case.answer().expect("no fault of the oracle");
            assert_eq!(answer.number, 0, "{name}");
            assert!(answer.text.ends_with(b"x"), "{name}");
        }
    }
}
