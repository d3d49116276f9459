//! Plans of the rich profile, and the texts that say them.

use serde_json::{json, Map, Value as Json};

use super::rng::Rng;

/// Names of members and block names. Most are plain; some are awkward on purpose.
const PLAIN: [&str; 10] = ["a", "b", "c", "n", "x", "items", "rows", "name", "w", "k"];
const AWKWARD: [&str; 14] =
    ["0", "1", "02", "+1", "10", "key", "index", "first", "if", "lookup", "this", "é", "a.b", ""];

pub fn member_name(rng: &mut Rng) -> String {
    let names: &[&str] = if rng.chance(88) { &PLAIN } else { &AWKWARD };
    (*rng.pick(names)).to_owned()
}

const TEXTS: [&str; 16] = [
    "a",
    "word",
    "two words",
    "<b>",
    "x&y",
    "\"q\"",
    "it's",
    "a=`b`",
    "line\n",
    "a\nb",
    "\n",
    "\r\n",
    "é€😀",
    "0",
    "",
    "each",
];

pub fn text(rng: &mut Rng) -> String {
    (*rng.pick(&TEXTS)).to_owned()
}

const NUMBERS: [i64; 10] = [0, 1, 2, 3, 7, 42, 600, -1, -17, i64::MIN];

pub fn number(rng: &mut Rng) -> Json {
    match rng.below(12) {
        0 => json!(u64::MAX),
        1 => json!(i64::MAX),
        _ => json!(*rng.pick(&NUMBERS)),
    }
}

fn scalar(rng: &mut Rng) -> Json {
    match rng.weighted(&[8, 8, 8, 38, 38]) {
        0 => Json::Null,
        1 => Json::Bool(true),
        2 => Json::Bool(false),
        3 => number(rng),
        _ => Json::String(text(rng)),
    }
}

/// A value with at most `depth` levels. The elements of a list often have one shape.
fn value(rng: &mut Rng, depth: usize) -> Json {
    if depth == 0 || rng.chance(35) {
        return scalar(rng);
    }
    if rng.chance(50) {
        let alike = rng.chance(60).then(|| rng.next());
        let count = rng.weighted(&[8, 22, 30, 25, 15]);
        let element = |rng: &mut Rng| match alike {
            Some(seed) => restyle(&value(&mut Rng::new(seed), depth - 1), rng),
            None => value(rng, depth - 1),
        };
        return Json::Array((0..count).map(|_| element(rng)).collect());
    }
    let count = rng.weighted(&[8, 15, 30, 30, 17]);
    let members = (0..count).map(|_| (member_name(rng), value(rng, depth - 1)));
    Json::Object(members.collect::<Map<_, _>>())
}

/// The same shape with other numbers and texts.
fn restyle(v: &Json, rng: &mut Rng) -> Json {
    match v {
        Json::Number(_) => number(rng),
        Json::String(_) => Json::String(text(rng)),
        Json::Array(a) => Json::Array(a.iter().map(|e| restyle(e, rng)).collect()),
        Json::Object(m) => {
            Json::Object(m.iter().map(|(k, e)| (k.clone(), restyle(e, rng))).collect())
        }
        other => other.clone(),
    }
}

/// A whole plan. Under `t` it may hold the names that computed calls look up.
pub fn rich(rng: &mut Rng, templates: &[String]) -> Json {
    if rng.chance(4) {
        return value(rng, 2);
    }
    let mut root = Map::new();
    for _ in 0..rng.between(2, 6) {
        root.insert(member_name(rng), value(rng, 4));
    }
    root.insert(
        "list".to_owned(),
        Json::Array((0..rng.between(1, 3)).map(|_| value(rng, 2)).collect()),
    );
    root.insert("obj".to_owned(), json!({"a": value(rng, 1), "n": number(rng), "z": text(rng)}));
    root.insert(
        "no".to_owned(),
        rng.pick(&[json!(false), json!([]), json!({}), json!(0), json!(null)]).clone(),
    );
    let mut names = Map::new();
    for n in ["each", "with", "if", "unless", "lookup", "inline"] {
        names.insert(n.to_owned(), json!(n));
    }
    names.insert("pb".to_owned(), json!("@partial-block"));
    for (i, n) in templates.iter().enumerate() {
        names.insert(format!("p{i}"), json!(n));
    }
    root.insert("t".to_owned(), Json::Object(names));
    Json::Object(root)
}

/// How a text may differ from the plainest one with the same meaning.
pub struct Style {
    pub spaces: usize,
    pub escapes: usize,
    /// Members that a later one of the same name replaces.
    pub replaced: usize,
}

impl Style {
    pub const PLAIN: Style = Style { spaces: 0, escapes: 0, replaced: 0 };

    pub fn any(rng: &mut Rng) -> Style {
        match rng.below(4) {
            0 => Style { spaces: 20, escapes: 20, replaced: 10 },
            1 => Style { spaces: 10, escapes: 0, replaced: 0 },
            _ => Style::PLAIN,
        }
    }
}

pub struct TextOf<'a> {
    pub rng: &'a mut Rng,
    pub style: Style,
    out: String,
}

/// A JSON text of a value.
pub fn text_of(v: &Json, rng: &mut Rng, style: Style) -> String {
    let mut t = TextOf { rng, style, out: String::new() };
    t.value(v);
    t.out
}

impl TextOf<'_> {
    fn space(&mut self) {
        while self.rng.chance(self.style.spaces) {
            self.out.push(*self.rng.pick(&[' ', '\n', '\t', '\r']));
        }
    }

    fn value(&mut self, v: &Json) {
        self.space();
        match v {
            Json::String(s) => self.string(s),
            Json::Array(a) => self.list('[', ']', a.len(), |t, i| t.value(&a[i])),
            Json::Object(m) => self.object(m),
            other => self.out.push_str(&other.to_string()),
        }
        self.space();
    }

    fn list(
        &mut self,
        open: char,
        close: char,
        count: usize,
        mut each: impl FnMut(&mut Self, usize),
    ) {
        self.out.push(open);
        for i in 0..count {
            if i > 0 {
                self.out.push(',');
            }
            each(self, i);
        }
        if count == 0 {
            self.space();
        }
        self.out.push(close);
    }

    /// Members in any order of the text, since it does not count, unless a name comes twice.
    fn object(&mut self, m: &Map<String, Json>) {
        let mut members: Vec<(&String, Option<&Json>)> = Vec::new();
        for (k, v) in m {
            let at = if self.style.replaced > 0 {
                self.rng.below(members.len() + 1)
            } else {
                members.len()
            };
            members.insert(at, (k, Some(v)));
            if self.rng.chance(self.style.replaced) {
                members.insert(self.rng.below(at + 1), (k, None));
            }
        }
        self.list('{', '}', members.len(), |t, i| {
            t.space();
            t.string(members[i].0);
            t.space();
            t.out.push(':');
            match members[i].1 {
                Some(v) => t.value(v),
                None => t.value(&json!([1, "replaced"])),
            }
        });
    }

    fn string(&mut self, s: &str) {
        self.out.push('"');
        for c in s.chars() {
            if self.rng.chance(self.style.escapes) {
                self.escaped(c);
            } else {
                self.plain(c);
            }
        }
        self.out.push('"');
    }

    fn plain(&mut self, c: char) {
        match c {
            '"' => self.out.push_str("\\\""),
            '\\' => self.out.push_str("\\\\"),
            '\n' => self.out.push_str("\\n"),
            c if c < ' ' => self.hex(c as u16),
            c => self.out.push(c),
        }
    }

    fn escaped(&mut self, c: char) {
        let short = "\"\"\\\\//\u{8}b\u{c}f\nn\rr\tt";
        let pairs: Vec<char> = short.chars().collect();
        let found = pairs.chunks(2).find(|p| p[0] == c);
        if let (Some(p), true) = (found, self.rng.chance(50)) {
            self.out.push('\\');
            self.out.push(p[1]);
            return;
        }
        let mut units = [0; 2];
        for unit in c.encode_utf16(&mut units) {
            self.hex(*unit);
        }
    }

    fn hex(&mut self, unit: u16) {
        let digits =
            if self.rng.chance(50) { format!("{unit:04x}") } else { format!("{unit:04X}") };
        self.out.push_str("\\u");
        self.out.push_str(&digits);
    }
}
