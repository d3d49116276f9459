//! The json profile: texts good and bad, under a bundle that prints something of them.

use super::plan::{self, text_of, Style};
use super::rng::Rng;
use super::tree::*;
use super::write::bundle;
use super::{Case, RECURSIVE, STRICT};

/// Numbers that RFC 8259 takes and check 9 does not.
pub const BAD_NUMBERS: [&str; 16] = [
    "18446744073709551616",
    "-9223372036854775809",
    "-0",
    "1.0",
    "0.5",
    "-1.5",
    "1e5",
    "1E5",
    "1e+5",
    "0e0",
    "-0.0",
    "-0e-1",
    "100000000000000000000",
    "18446744073709551620",
    "-18446744073709551615",
    "1e400",
];

/// Texts that are no JSON here.
const BAD: [&[u8]; 70] = [
    b"",
    b" ",
    b"\n\t\r ",
    b"\xef\xbb\xbf1",
    b"\xef\xbb\xbf",
    b"[",
    b"]",
    b"{",
    b"}",
    b"[1",
    b"[1,",
    b"[1,]",
    b"[,1]",
    b"[1 2]",
    b"[1;2]",
    b"{\"a\"}",
    b"{\"a\":}",
    b"{\"a\":1,}",
    b"{,}",
    b"{a:1}",
    b"{'a':1}",
    b"{1:1}",
    b"{\"a\":1 \"b\":2}",
    b"{\"a\" 1}",
    b"{\"a\"::1}",
    b"[1}",
    b"{\"a\":1]",
    b"1 2",
    b"1,",
    b"[] []",
    b"null null",
    b"nul",
    b"nulll",
    b"Null",
    b"True",
    b"tru",
    b"falsee",
    b"NaN",
    b"Infinity",
    b"+1",
    b"01",
    b"-01",
    b"00",
    b"-",
    b".5",
    b"1.",
    b"1.e1",
    b"1e",
    b"1e+",
    b"- 1",
    b"0x1",
    b"1\0",
    b"\"a",
    b"\"a\\",
    b"\"a\\\"",
    b"\"\\x41\"",
    b"\"\\u00g0\"",
    b"\"\\u12\"",
    b"\"\\U0041\"",
    b"\"\\ud800\"",
    b"\"\\udc00\"",
    b"\"\\ud800\\ud800\"",
    b"\"\\ud800x\"",
    b"\"\\udc00\\ud800\"",
    b"\"\n\"",
    b"\"\t\"",
    b"\"\x1f\"",
    b"\"\0\"",
    b"[1]//",
    b"\x0b1",
];

/// Bytes that are no UTF-8, for the inside of a string.
const BAD_UTF8: [&[u8]; 14] = [
    b"\x80",
    b"\xbf",
    b"\xc0\x80",
    b"\xc1\xbf",
    b"\xc2",
    b"\xc2\x20",
    b"\xe0\x9f\xbf",
    b"\xed\xa0\x80",
    b"\xed\xbf\xbf",
    b"\xe2\x82",
    b"\xf0\x8f\xbf\xbf",
    b"\xf4\x90\x80\x80",
    b"\xf5\x80\x80\x80",
    b"\xff",
];

/// Texts that are JSON, although they look odd.
const GOOD: [&str; 30] = [
    "0",
    " 7 ",
    "\r\n\t null \r\n\t",
    "true",
    "false",
    "\"\"",
    "[]",
    "[ ]",
    "{}",
    "{ }",
    "[[],[[]],{}]",
    "18446744073709551615",
    "-9223372036854775808",
    "9223372036854775808",
    "-1",
    r#""\ud83d\ude00""#,
    r#""\uD83D\uDE00 \u00e9\u00E9""#,
    r#""\u0000\u001f\b\f\n\r\t\/\\\"""#,
    r#""\ud7ff\ue000\uffff\ufffe""#,
    r#"{"a":1,"a":2}"#,
    r#"{"a":1,"\u0061":2,"b":3}"#,
    r#"{"\u00e9":1,"é":2}"#,
    r#"{"b":1,"a":2,"":3,"B":4,"aa":5,"é":6}"#,
    r#"{"a":{"a":{"a":1},"a":{"b":2}},"a":{"a":{"c":3}}}"#,
    r#"{"10":1,"9":2,"1":3,"02":4}"#,
    "\"\u{7f}\u{80}\u{7ff}\u{800}\u{ffff}\u{10000}\u{10ffff}\"",
    r#"["<>&\"'`=", {"<": ">"}]"#,
    "[1,[2,null]]",
    r#"{"a":[5,6]}"#,
    r#"[{"key":"value"},{"key":[true,false,null]}]"#,
];

pub fn bad_text(rng: &mut Rng) -> Vec<u8> {
    if rng.chance(75) {
        return rng.pick(&BAD).to_vec();
    }
    let mut text = rng.pick(&[&b"\""[..], b"{\"", b"[0,\"\\\\"]).to_vec();
    text.extend_from_slice(*rng.pick(&BAD_UTF8));
    text.extend_from_slice(match text[0] {
        b'{' => b"\":1}",
        b'[' => b"\"]",
        _ => b"\"",
    });
    text
}

pub fn good_text(rng: &mut Rng) -> Vec<u8> {
    if rng.chance(50) {
        return rng.pick(&GOOD).as_bytes().to_vec();
    }
    let v = plan::rich(rng, &[]);
    let style = Style { spaces: rng.below(25), escapes: rng.below(40), replaced: rng.below(30) };
    text_of(&v, rng, style).into_bytes()
}

/// A good text with a byte or two changed, left out or put in.
fn changed_text(rng: &mut Rng) -> Vec<u8> {
    let mut text = good_text(rng);
    for _ in 0..rng.between(1, 2) {
        let at = rng.below(text.len() + 1);
        let byte = *rng.pick(b"{}[],:\"\\ 01-+.eE\n\x00\x1f\x80\xc3u/ntf");
        match rng.below(4) {
            0 => text.insert(at, byte),
            1 if at < text.len() => text[at] = byte,
            2 if at < text.len() => {
                text.remove(at);
            }
            _ => text.truncate(at),
        }
    }
    text
}

/// A text with one number that check 9 refuses, and maybe something worse after it.
fn numbered_text(rng: &mut Rng) -> Vec<u8> {
    let n = rng.pick(&BAD_NUMBERS);
    let text = match rng.below(5) {
        0 => format!("[{n}]"),
        1 => format!("{{\"a\":{n},\"a\":1}}"),
        2 => format!("[{n},{{\"b\":}}]"),
        3 => format!("{{\"a\":[[1,{n}]],\"b\":\"x\"}}"),
        _ => (*n).to_owned(),
    };
    text.into_bytes()
}

/// Lists or objects inside one another, 30 to 33 of them.
fn deep_text(rng: &mut Rng) -> Vec<u8> {
    let depth = rng.between(30, 33);
    let (open, close) = *rng.pick(&[("[", "]"), ("{\"a\":", "}"), ("[0,", "]"), (" [ ", " ]")]);
    format!("{}7{}", open.repeat(depth), close.repeat(depth)).into_bytes()
}

fn many_text(rng: &mut Rng) -> Vec<u8> {
    let count = rng.between(4_094, 4_096);
    let text = match rng.below(3) {
        0 => format!("[{}]", vec!["1"; count].join(",")),
        1 => format!("{{\"a\":[{}]}}", vec!["[]"; count].join(",")),
        _ => format!("[{},\"x\"]", vec!["1"; count].join(",")),
    };
    text.into_bytes()
}

pub fn text(rng: &mut Rng) -> Vec<u8> {
    match rng.weighted(&[40, 20, 14, 20, 5, 1]) {
        0 => good_text(rng),
        1 => bad_text(rng),
        2 => numbered_text(rng),
        3 => changed_text(rng),
        4 => deep_text(rng),
        _ => many_text(rng),
    }
}

/// Bundles that print a plan: the value, its members, or all of it.
fn printer(rng: &mut Rng) -> Tree {
    let this = || path(&[]);
    let mut t = match rng.below(4) {
        0 => Tree::main(vec![show_html(this()), raw("|"), show(this())]),
        1 => {
            let member = vec![show(path(&["k"])), raw("="), show_html(path(&["v"])), raw(";")];
            Tree::main(vec![block_of(
                calls("each", vec![this()]),
                &["v", "k"],
                Some(member),
                Some(vec![show(this())]),
            )])
        }
        2 => Tree::main(vec![
            show(path(&["a"])),
            raw(","),
            show(path(&["a", "0"])),
            raw(","),
            show(root(&["obj", "n"])),
        ]),
        _ => {
            let inside =
                vec![show_html(local(0, "key")), raw(":"), partial(calls("v", vec![])), raw(" ")];
            let all = vec![
                show_html(this()),
                block_of(calls("each", vec![this()]), &[], Some(inside), Some(vec![raw(".")])),
            ];
            Tree::new(vec![("main", vec![partial(calls("v", vec![]))]), ("v", all)])
        }
    };
    t.number_lines();
    t
}

pub fn case(rng: &mut Rng) -> Case {
    let text = text(rng);
    let mut case = Case::new(bundle(&printer(rng)), text);
    case.options = *rng.pick(&[0, 0, 0, RECURSIVE, STRICT]);
    case
}
