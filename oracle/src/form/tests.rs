use super::{parse, print};
use crate::bundle::{decode, encode};

const SHEET: &str = r#"version 1
template "main"
  raw 1:1 "Grüße \"x\"\n"
  comment 1:8 "text"
  expr 2:1 p"../a.b"[up n"a" n"b"]
  html 2:1 l"../@index"(1,"index") ibw
  expr 2:1 n"lookup" p"a"[n"a"] 1 -3 18446744073709551615 b-c="x" "key with blank"=(n"if" null)
  block 3:1 n"each" p"@root"[root] as "v" "k" ibw
    then
      raw 3:9 "x"
      block 3:10 n"if" true as "v"
        else
          raw 3:12 ""
    else
      raw 3:12 "y"
  decorator 4:1 n"foo" indent "  " ibw
  decoratorblock 4:1 n"inline" "p"
    raw 4:20 "body"
  partial 5:1 n"p" indent "" ibw
  partialblock 65535:65535 n"p" x=false indent "\t"
    raw 5:9 "inside"
template "p"
"#;

fn round(text: &str) -> Vec<u8> {
    let bytes = parse(text).expect("the text is right");
    let again = print(&bytes).expect("bytes are shown");
    assert_eq!(parse(&again), Ok(bytes.clone()), "{again}");
    bytes
}

#[test]
fn a_sheet_is_read_and_shown_as_it_was() {
    let bytes = round(SHEET);
    assert_eq!(print(&bytes).unwrap(), SHEET);
    assert_eq!(encode(&decode(&bytes).unwrap()), bytes);
}

#[test]
fn short_paths_take_their_segments_from_the_raw_text() {
    let short = "template \"a\"\n  expr 1:1 p\"../this.@root/x.y\" l\"../../@key\" p\"\" p\".\"\n";
    let long = "template \"a\"\n  expr 1:1 p\"../this.@root/x.y\"[up root n\"x\" n\"y\"] l\"../../@key\"(2,\"key\") p\"\"[] p\".\"[]\n";
    assert_eq!(parse(short), parse(long));
}

#[test]
fn wrong_values_are_written_and_shown() {
    let wrong = [
        "version 2\ntemplate \"a\"\n",
        "templates 65\ntemplate \"a\"\n",
        "version 1\n",
        "template \"a\"\ntemplate \"a\"\n",
        "template \"a\"@2\n",
        "template \"\\xff\"\n",
        "template \"a\"\n  count 3\n  raw 1:1 \"x\"\n",
        "template \"a\"\n  kind 1:2 9 0101\n  raw 1:1 \"x\"\n",
        "template \"a\"\n  block 1:1 n\"if\" as 3\n",
        "template \"a\"\n  expr 1:1 literal:6\n",
        "template \"a\"\n  expr 1:1 literal:7 neg:5\n",
        "template \"a\"\n  expr 1:1 p\"x\"[seg:3 n\"a\"]@9\n",
        "template \"a\"\n  expr 1:1 n\"if\" b=1 a=2 a=3 params:5 pairs:1\n",
        "template \"a\"\npadding 0001\n",
        "template \"a\"\ntrailing x\"00\"\n",
        "template \"a\"\n  bits 1011\n",
        "template \"a\"\n  raw 1:1 \"text\"\ncut 9\n",
        "bytes \"\\x01\"\n",
        "bytes \"\"\n",
    ];
    for text in wrong {
        let bytes = round(text);
        assert!(decode(&bytes).is_err(), "{text}");
    }
}

#[test]
fn what_breaks_inside_bodies_is_shown_behind_what_was_read() {
    let whole = round(SHEET);
    for length in 0..whole.len() {
        let cut = &whole[..length];
        let text = print(cut).unwrap();
        assert_eq!(parse(&text).as_deref(), Ok(cut), "{text}");
    }
    for bit in 0..whole.len() * 8 {
        let mut bytes = whole.clone();
        bytes[bit / 8] ^= 128 >> (bit % 8);
        let text = print(&bytes).unwrap();
        assert_eq!(parse(&text), Ok(bytes), "{text}");
    }
}

#[test]
fn any_bytes_are_shown() {
    let mut seed = 1u64;
    let mut next = || {
        seed = seed
            .wrapping_mul(6364136223846793005)
            .wrapping_add(1442695040888963407);
        (seed >> 33) as usize
    };
    for _ in 0..3000 {
        let length = next() % 60;
        // many zero bits make counts small, so that more of the layout is met
        let mut bytes: Vec<u8> = (0..length)
            .map(|_| (next() & next() & next()) as u8)
            .collect();
        if length > 1 {
            bytes[0] = 1;
        }
        let text = print(&bytes).unwrap();
        assert_eq!(parse(&text), Ok(bytes), "{text}");
    }
}

#[test]
fn nesting_without_end_is_no_danger() {
    let mut bytes = parse("template \"a\"\n  count 1\n  rest 0\n").unwrap();
    bytes.extend(vec![0xff; 60000]);
    let text = print(&bytes).unwrap();
    assert_eq!(parse(&text), Ok(bytes));
    let deep = format!("template \"a\"\n  expr 1:1 {}\n", "(".repeat(100_000));
    assert!(parse(&deep).is_err());
}

#[test]
fn errors_tell_the_place() {
    let wrong = [
        ("template \"a\"\n  raw 1:1 \"x\n", "line 2, column 11: this string has no closing quote"),
        ("template \"a\"\n  raw 1:65536 \"x\"", "line 2, column 9: the element's column is wanted here, a number from 0 to 65535"),
        ("template \"a\"\n   raw 1:1 \"x\"", "line 2, column 4: indent by two spaces for each level"),
        ("template \"a\"\n    raw 1:1 \"x\"", "line 2, column 1: indented deeper than one level below the line above"),
        ("template \"a\"\n  row 1:1 \"x\"", "line 2, column 3: an element is wanted here"),
        ("template \"a\"\n  raw 1:1 \"\\q\"", "line 2, column 12: an escape is one of \\n \\r \\t \\\\ \\\" \\xNN"),
        ("", "line 1, column 1: a template is wanted here; `version` alone makes a bundle without one"),
        ("# nothing\n", "line 1, column 1: a template is wanted here; `version` alone makes a bundle without one"),
        ("tmplate \"a\"", "line 1, column 1: a template is wanted here"),
        ("template \"a\"\n  raw 1:1 \"x\" 7", "line 2, column 15: nothing more is wanted on this line"),
        ("template \"a\"\n  expr 1:1 n\"x\" a=1 2", "line 2, column 21: parameters stand before the hash pairs"),
        ("template \"a\"\n  expr 1:1", "line 2, column 11: a parameter is wanted here"),
        ("template \"a\"\n  expr 1:1 -0", "line 2, column 12: an integer from -2^63 to 2^64-1 is wanted here, and not -0"),
        ("template \"a\"\n  expr 1:1 (n\"x\"", "line 2, column 17: ')' is wanted here"),
        ("template \"a\"\n  raw 1:1 \"x\"\n    raw 1:1 \"y\"", "line 3, column 1: `raw` takes no lines below it"),
        ("version 300", "line 1, column 9: the number of `version` is wanted here, a number from 0 to 255"),
        ("template \"a\"\n  raw 1:1 \"x\"*65536", "line 2, column 3: a string of 65536 bytes does not fit, at most 65535 do: give a count with @"),
        ("template \"a\"\ncut 9\nversion 1", "line 2, column 1: first `version`, `templates`, then the templates, last `cut`"),
        ("template \"a\"\ncut 99", "line 2, column 1: the bundle has only 7 bytes"),
        ("template \"a\"\n  raw 1:1 \"x\" ~", "line 2, column 15: '~' has no meaning here"),
    ];
    for (text, message) in wrong {
        assert_eq!(parse(text), Err(message.to_owned()), "{text}");
    }
}
