//! The samples, each field of an error, and the deepest drawing on the small stack that a test has.

use crate::{render, with_stack, Options, Reason, RenderError, Renderer, PAGE};

const OFF: Options = Options { strict: false, recursive_lookup: false, guide_truth: false };

/// Bits, most significant first.
#[derive(Default)]
struct Bits(Vec<bool>);

impl Bits {
    fn put(&mut self, value: u64, width: u32) -> &mut Bits {
        self.0.extend((0..width).rev().map(|i| value >> i & 1 == 1));
        self
    }

    fn string(&mut self, s: &str) -> &mut Bits {
        self.put(s.len() as u64, 16);
        s.bytes().for_each(|b| self.0.extend((0..8).rev().map(|i| b >> i & 1 == 1)));
        self
    }

    /// An element's line, column and kind.
    fn element(&mut self, line: u64, column: u64, kind: u64) -> &mut Bits {
        self.put(line, 16).put(column, 16).put(kind, 4)
    }

    fn raw(&mut self, text: &str) -> &mut Bits {
        self.element(1, 1, 0).string(text)
    }

    /// An expression of a path of one name, at line 3 and column 7.
    fn show(&mut self, name: &str) -> &mut Bits {
        self.element(3, 7, 2).put(1, 2).string(name).put(0, 1).put(1, 8).put(0, 2).string(name).put(0, 9)
    }

    /// A block of `if true`, up to its body of one element, which comes next; `end_if` closes it.
    fn begin_if(&mut self) -> &mut Bits {
        self.element(1, 1, 3).put(0, 2).string("if");
        self.put(1, 4).put(2, 2).put(2, 3).put(0, 4);
        self.put(0, 2).put(1, 1).put(1, 12)
    }

    fn end_if(&mut self) -> &mut Bits {
        self.put(0, 2)
    }

    fn partial(&mut self, name: &str) -> &mut Bits {
        self.element(1, 1, 6).put(0, 2).string(name).put(0, 8).put(0, 2)
    }

    fn bytes(&self) -> Vec<u8> {
        let byte = |bits: &[bool]| bits.iter().enumerate().map(|(i, b)| u8::from(*b) << (7 - i)).sum();
        self.0.chunks(8).map(byte).collect()
    }
}

/// A bundle of one template, `main`, of one element.
fn one(element: impl FnOnce(&mut Bits) -> &mut Bits) -> Vec<u8> {
    let mut bits = Bits::default();
    bits.put(1, 8).put(1, 8).string("main").put(1, 12);
    element(&mut bits);
    bits.bytes()
}

/// 32 templates, each including the next from fifteen bodies deep.
fn deepest() -> Vec<u8> {
    let name = |i: usize| if i == 0 { "main".to_owned() } else { format!("t{i}") };
    let mut bits = Bits::default();
    bits.put(1, 8).put(32, 8);
    for i in 0..32 {
        bits.string(&name(i)).put(1, 12);
        for _ in 0..14 {
            bits.begin_if();
        }
        if i == 31 {
            bits.raw("deep");
        } else {
            bits.partial(&name(i + 1));
        }
        for _ in 0..14 {
            bits.end_if();
        }
    }
    bits.bytes()
}

fn sample(name: &str, file: &str) -> Vec<u8> {
    let file = format!("{}/../samples/{name}/{file}", env!("CARGO_MANIFEST_DIR"));
    std::fs::read(&file).unwrap_or_else(|e| panic!("{file}: {e}"))
}

#[test]
fn samples_print_their_pages() {
    let mut renderer = Renderer::new();
    for name in ["quotation", "cutting-list", "delivery-note"] {
        let (bundle, plan) = (sample(name, "bundle.bin"), sample(name, "plan.json"));
        let expected = String::from_utf8(sample(name, "expected.txt")).expect("UTF-8");
        assert_eq!(render(&bundle, &plan, "main", OFF), Ok(expected.clone()), "{name}");
        assert_eq!(renderer.render(&bundle, &plan, "main", OFF), Ok(expected), "{name}");
    }
}

#[test]
fn text_is_escaped() {
    let bundle = one(|b| b.show("é"));
    assert_eq!(render(&bundle, "{\"é\":\"<ü>\"}".as_bytes(), "main", OFF), Ok("&lt;ü&gt;".to_owned()));
}

#[test]
fn an_error_tells_its_place() {
    let bundle = one(|b| b.show("gone"));
    let strict = Options { strict: true, ..OFF };
    let error = render(&bundle, b"{}", "main", strict).unwrap_err();
    let wanted = RenderError {
        number: 11,
        reason: Reason::MissingVariable,
        template: Some("main".to_owned()),
        line: 3,
        column: 7,
    };
    assert_eq!(error, wanted);
    assert_eq!(error.to_string(), "a variable is missing, at line 3, column 7 of template \"main\"");
    assert_eq!(render(&bundle, b"{}", "main", OFF), Ok(String::new()));
}

#[test]
fn the_checks_have_no_place() {
    let bundle = one(|b| b.raw("x"));
    let both = Options { strict: true, guide_truth: true, ..OFF };
    let long = vec![b' '; PAGE + 1];
    let refused = [
        (render(&long, b"1", "main", OFF), Reason::BundleTooLong),
        (render(b"", b"1", "main", OFF), Reason::BadLayout),
        (render(&bundle, b"1", "main", both), Reason::StrictWithGuideTruth),
        (render(&bundle, b"1", "other", OFF), Reason::TemplateNotFound),
        (render(&bundle, &long, "main", OFF), Reason::PlanTooLong),
        (render(&bundle, b"", "main", OFF), Reason::NotJson),
        (render(&bundle, b"1.0", "main", OFF), Reason::NotInteger),
    ];
    for (got, reason) in refused {
        let wanted = RenderError { number: reason.number(), reason, template: None, line: 0, column: 0 };
        assert_eq!(got, Err(wanted.clone()));
        assert_eq!(wanted.to_string(), reason.to_string());
    }
}

#[test]
fn recursive_lookup_is_handed_on() {
    let bundle = one(|b| {
        // with a: n
        b.element(1, 1, 3).put(0, 2).string("with");
        b.put(1, 4).put(1, 2).string("a").put(0, 1).put(1, 8).put(0, 2).string("a").put(0, 4);
        b.put(0, 2).put(1, 1).put(1, 12).show("n").put(0, 2)
    });
    let plan = br#"{"n":7,"a":{"b":1}}"#;
    assert_eq!(render(&bundle, plan, "main", OFF), Ok(String::new()));
    let recursive = Options { recursive_lookup: true, ..OFF };
    assert_eq!(render(&bundle, plan, "main", recursive), Ok("7".to_owned()));
}

#[test]
fn the_page_may_have_any_size() {
    let bundle = one(|b| b.raw("four"));
    for (page, fits) in [(0, false), (3, false), (4, true), (5, true)] {
        let mut renderer = Renderer::with_page(page);
        assert_eq!(renderer.page(), page);
        // A refusal leaves nothing behind.
        for _ in 0..2 {
            match renderer.render(&bundle, b"1", "main", OFF) {
                Ok(text) => assert!(fits && text == "four"),
                Err(e) => assert!(!fits && e.reason == Reason::PageFull && (e.line, e.column) == (1, 1)),
            }
        }
    }
    assert_eq!(Renderer::default().page(), PAGE);
}

/// Threads of tests have 2 MiB of stack.
#[test]
fn the_deepest_bundle_prints() {
    let bundle = deepest();
    assert_eq!(render(&bundle, b"1", "main", OFF), Ok("deep".to_owned()));
    let twice = with_stack(|| {
        let mut renderer = Renderer::new();
        [(); 2].map(|()| renderer.render(&bundle, b"1", "main", OFF))
    });
    assert_eq!(twice, [Ok("deep".to_owned()), Ok("deep".to_owned())]);
}

/// The numbers of refusals that the header defines.
fn header_refusals() -> Vec<u32> {
    let header = include_str!("../../include/handlebars.h");
    let from = header.find("/* Why there is no page").expect("the refusals");
    let to = header.find("typedef struct").expect("the answer");
    let defines = header[from..to].lines().filter_map(|line| line.strip_prefix("#define HANDLEBARS_"));
    let number = |define: &str| define.split_whitespace().nth(1).and_then(|n| n.parse().ok()).expect("a number");
    defines.map(number).collect()
}

#[test]
fn every_refusal_of_the_header_has_its_reason() {
    let numbers = header_refusals();
    assert!(numbers.len() >= 25);
    for number in numbers {
        assert_eq!(Reason::of_number(number).map(Reason::number), Some(number));
    }
    assert_eq!((Reason::of_number(0), Reason::of_number(99)), (None, None));
}

#[test]
fn the_drawing_has_places() {
    let placed: Vec<u32> = (1..=99).filter_map(Reason::of_number).filter(|r| r.has_place()).map(Reason::number).collect();
    assert_eq!(placed, (11..=25).collect::<Vec<u32>>());
}
