//! The parts of one line, read off its tokens.

use super::lex::{Kind, Node, Outcome, Token, Wrong};
use super::{Call, Literal, Param, Seg, Text, DEEPEST};

pub struct Cursor<'a> {
    node: &'a Node,
    at: usize,
}

impl<'a> Cursor<'a> {
    /// Behind the line's first word.
    pub fn new(node: &'a Node) -> Cursor<'a> {
        Cursor { node, at: 1 }
    }

    fn token(&self) -> Option<&'a Token> {
        self.node.tokens.get(self.at)
    }

    fn peek(&self) -> Option<&'a Kind> {
        self.token().map(|t| &t.kind)
    }

    fn next_is(&self, kind: &Kind) -> bool {
        self.node.tokens.get(self.at + 1).map(|t| &t.kind) == Some(kind)
    }

    pub fn wrong(&self, what: impl Into<String>) -> Wrong {
        let column = self.token().map_or(self.node.end, |t| t.column);
        self.node.wrong(column, what)
    }

    pub fn at_end(&self) -> bool {
        self.token().is_none()
    }

    /// An error unless the whole line was read.
    pub fn end(&self) -> Outcome<()> {
        if self.at_end() {
            Ok(())
        } else {
            Err(self.wrong("nothing more is wanted on this line"))
        }
    }

    fn mark(&mut self, mark: char) -> Outcome<()> {
        if self.takes_mark(mark) {
            Ok(())
        } else {
            Err(self.wrong(format!("{mark:?} is wanted here")))
        }
    }

    fn takes_mark(&mut self, mark: char) -> bool {
        let found = self.peek() == Some(&Kind::Mark(mark));
        self.at += usize::from(found);
        found
    }

    /// Takes a word, unless it is a key with `=` behind it.
    pub fn takes_word(&mut self, word: &str) -> bool {
        let found = matches!(self.peek(), Some(Kind::Word(w)) if w == word)
            && !self.next_is(&Kind::Mark('='));
        self.at += usize::from(found);
        found
    }

    /// A number of at most `width` bits.
    pub fn number(&mut self, width: u32, what: &str) -> Outcome<u64> {
        let most = u64::MAX >> (64 - width);
        let value = match self.peek() {
            Some(Kind::Number(digits)) => digits.parse::<u64>().ok(),
            _ => None,
        };
        match value {
            Some(n) if n <= most => {
                self.at += 1;
                Ok(n)
            }
            _ => Err(self.wrong(format!("{what} is wanted here, a number from 0 to {most}"))),
        }
    }

    /// Line and column with a colon between.
    pub fn position(&mut self) -> Outcome<(u64, u64)> {
        let line = self.number(16, "the element's line")?;
        self.mark(':')?;
        Ok((line, self.number(16, "the element's column")?))
    }

    fn lettered(&mut self, wanted: Option<char>) -> Option<Text> {
        match self.peek() {
            Some(Kind::Text {
                letter,
                bytes,
                count,
            }) if *letter == wanted => {
                self.at += 1;
                Some(Text {
                    bytes: bytes.clone(),
                    count: *count,
                })
            }
            _ => None,
        }
    }

    pub fn text(&mut self, what: &str) -> Outcome<Text> {
        self.lettered(None)
            .ok_or_else(|| self.wrong(format!("{what} is wanted here, a string in double quotes")))
    }

    pub fn maybe_text(&mut self) -> Option<Text> {
        self.lettered(None)
    }

    /// Groups of the digits 0 and 1, and of x"hex": to the line's end.
    pub fn bits(&mut self) -> Outcome<Vec<bool>> {
        let mut bits = Vec::new();
        while !self.at_end() {
            if let Some(text) = self.lettered(Some('x')) {
                bits.extend(
                    text.bytes
                        .iter()
                        .flat_map(|b| (0..8).map(move |i| b << i & 128 != 0)),
                );
                continue;
            }
            match self.peek() {
                Some(Kind::Number(digits)) if digits.bytes().all(|d| d == b'0' || d == b'1') => {
                    bits.extend(digits.bytes().map(|d| d == b'1'));
                    self.at += 1;
                }
                _ => return Err(self.wrong("bits are wanted here: digits 0 and 1, or x\"hex\"")),
            }
        }
        Ok(bits)
    }

    /// A call: name, parameters, hash pairs. It ends before `)` or a word of the element.
    pub fn call(&mut self, depth: usize) -> Outcome<Call> {
        let mut call = Call {
            name: self.param(depth)?,
            params: Vec::new(),
            params_count: None,
            pairs: Vec::new(),
            pairs_count: None,
        };
        while !self.at_call_end() {
            if self.next_is(&Kind::Mark('=')) {
                let key = self.key()?;
                self.mark('=')?;
                call.pairs.push((key, self.param(depth)?));
            } else if self.takes_word("params") {
                self.mark(':')?;
                call.params_count = Some(self.number(4, "a count of parameters")?);
            } else if self.takes_word("pairs") {
                self.mark(':')?;
                call.pairs_count = Some(self.number(4, "a count of hash pairs")?);
            } else if call.pairs.is_empty() {
                call.params.push(self.param(depth)?);
            } else {
                return Err(self.wrong("parameters stand before the hash pairs"));
            }
        }
        Ok(call)
    }

    fn at_call_end(&self) -> bool {
        match self.peek() {
            None | Some(Kind::Mark(')')) => true,
            Some(Kind::Word(w)) => {
                ["as", "indent", "ibw"].contains(&w.as_str()) && !self.next_is(&Kind::Mark('='))
            }
            _ => false,
        }
    }

    fn key(&mut self) -> Outcome<Text> {
        if let Some(Kind::Word(word)) = self.peek() {
            self.at += 1;
            return Ok(Text {
                bytes: word.clone().into_bytes(),
                count: None,
            });
        }
        self.text("a hash pair's key")
    }

    fn param(&mut self, depth: usize) -> Outcome<Param> {
        if depth > DEEPEST {
            return Err(self.wrong(format!("more than {DEEPEST} parentheses in one another")));
        }
        if let Some(name) = self.lettered(Some('n')) {
            return Ok(Param::Name(name));
        }
        if let Some(raw) = self.lettered(Some('p')) {
            return self.path(raw);
        }
        if let Some(raw) = self.lettered(Some('l')) {
            return self.local(raw);
        }
        if self.takes_mark('(') {
            let call = self.call(depth + 1)?;
            self.mark(')')?;
            return Ok(Param::Subexpression(Box::new(call)));
        }
        self.literal().map(Param::Literal)
    }

    fn literal(&mut self) -> Outcome<Literal> {
        if let Some(text) = self.lettered(None) {
            return Ok(Literal::String(text));
        }
        for (tag, word) in ["null", "false", "true"].iter().enumerate() {
            if self.takes_word(word) {
                return Ok(Literal::Tag(tag as u64));
            }
        }
        if self.takes_word("literal") {
            self.mark(':')?;
            return Ok(Literal::Tag(self.number(3, "a literal's tag")?));
        }
        if self.takes_word("neg") {
            self.mark(':')?;
            return Ok(Literal::Negative(self.number(64, "64 bits")?));
        }
        self.integer()
    }

    fn integer(&mut self) -> Outcome<Literal> {
        let Some(Kind::Number(digits)) = self.peek() else {
            return Err(self.wrong("a parameter is wanted here"));
        };
        let read = match digits.strip_prefix('-') {
            Some(_) => digits
                .parse::<i64>()
                .ok()
                .filter(|n| *n < 0)
                .map(|n| Literal::Negative(n as u64)),
            None => digits.parse::<u64>().ok().map(Literal::Unsigned),
        };
        let literal = read.ok_or_else(|| {
            self.wrong("an integer from -2^63 to 2^64-1 is wanted here, and not -0")
        })?;
        self.at += 1;
        Ok(literal)
    }

    /// The segments in brackets; without brackets they are taken from the raw text.
    fn path(&mut self, raw: Text) -> Outcome<Param> {
        if !self.takes_mark('[') {
            let segs = segments_of(&raw.bytes);
            return Ok(Param::Path {
                raw,
                segs,
                count: None,
            });
        }
        let mut segs = Vec::new();
        while !self.takes_mark(']') {
            segs.push(self.segment()?);
        }
        let count = if self.takes_mark('@') {
            Some(self.number(8, "a count of segments")?)
        } else {
            None
        };
        Ok(Param::Path { raw, segs, count })
    }

    fn segment(&mut self) -> Outcome<Seg> {
        if let Some(name) = self.lettered(Some('n')) {
            return Ok(Seg::Named(name));
        }
        if self.takes_word("root") {
            return Ok(Seg::Tag(1));
        }
        if self.takes_word("up") {
            return Ok(Seg::Tag(2));
        }
        if self.takes_word("seg") {
            self.mark(':')?;
            return Ok(Seg::Tag(self.number(2, "a segment's tag")?));
        }
        Err(self.wrong("a segment is wanted here: n\"name\", root, up or ]"))
    }

    /// Level and name in parentheses; without them they are taken from the raw text.
    fn local(&mut self, raw: Text) -> Outcome<Param> {
        if !self.takes_mark('(') {
            let Some((level, name)) = local_of(&raw.bytes) else {
                return Err(self.wrong("level and name are wanted here: l\"raw\"(level,\"name\")"));
            };
            return Ok(Param::Local { raw, level, name });
        }
        let level = self.number(8, "a level")?;
        self.mark(',')?;
        let name = self.text("a local name")?;
        self.mark(')')?;
        Ok(Param::Local { raw, level, name })
    }
}

/// `../a.b` is up, a, b; `@root` is root; `this`, `.` and nothing are no segment.
fn segments_of(raw: &[u8]) -> Vec<Seg> {
    let mut segs = Vec::new();
    for piece in raw.split(|b| *b == b'/') {
        if piece == b".." {
            segs.push(Seg::Tag(2));
            continue;
        }
        for part in piece.split(|b| *b == b'.') {
            match part {
                b"" | b"this" => {}
                b"@root" => segs.push(Seg::Tag(1)),
                _ => segs.push(Seg::Named(Text {
                    bytes: part.to_vec(),
                    count: None,
                })),
            }
        }
    }
    segs
}

/// `../@index` is level 1, name index.
fn local_of(raw: &[u8]) -> Option<(u64, Text)> {
    let mut rest = raw;
    let mut level = 0;
    while let Some(next) = rest.strip_prefix(b"../") {
        rest = next;
        level += 1;
    }
    let bytes = rest.strip_prefix(b"@")?.to_vec();
    (level < 256).then_some((level, Text { bytes, count: None }))
}
