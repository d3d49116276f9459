//! From any bytes to the text form.

use std::fmt::Write;

use super::{Call, Literal, Param, Seg, Text, DEEPEST, KINDS};
use crate::bundle::BitReader;

/// Why a part could not be read, or that the rest of the bundle is shown already.
enum Stop {
    Broken(String),
    Shown,
}

type Outcome<T> = Result<T, Stop>;

fn broken<T>(why: impl Into<String>) -> Outcome<T> {
    Err(Stop::Broken(why.into()))
}

struct Printer<'a> {
    bytes: &'a [u8],
    reader: BitReader<'a>,
    out: String,
}

pub fn bundle(bytes: &[u8]) -> String {
    if bytes.len() < 2 {
        return format!("bytes {}\n", quoted(bytes));
    }
    let mut p = Printer {
        bytes,
        reader: BitReader::new(bytes),
        out: String::new(),
    };
    if p.templates().is_ok() {
        p.ending();
    }
    p.out
}

impl Printer<'_> {
    fn get(&mut self, width: u32) -> Outcome<u64> {
        self.reader
            .get(width)
            .or_else(|()| broken("the bytes end here"))
    }

    fn text(&mut self) -> Outcome<Text> {
        let len = self.get(16)?;
        if self.reader.at() as u64 + len * 8 > self.bytes.len() as u64 * 8 {
            return broken(format!("the bytes end in a string of {len}"));
        }
        let bytes = (0..len)
            .map(|_| self.get(8).map(|b| b as u8))
            .collect::<Outcome<Vec<u8>>>()?;
        Ok(Text { bytes, count: None })
    }

    fn line(&mut self, level: usize, text: &str) {
        let _ = writeln!(self.out, "{}{text}", "  ".repeat(level));
    }

    /// Bits from a place to the end of the bytes.
    fn bits(&self, from: usize) -> String {
        let aligned = from.div_ceil(8);
        let bit = |i: usize| {
            if self.bytes[i / 8] << (i % 8) & 128 != 0 {
                '1'
            } else {
                '0'
            }
        };
        let mut text: String = (from..aligned * 8).map(bit).collect();
        if aligned < self.bytes.len() {
            text.push_str(if text.is_empty() { "x\"" } else { " x\"" });
            for b in &self.bytes[aligned..] {
                let _ = write!(text, "{b:02x}");
            }
            text.push('"');
        }
        text
    }

    /// Shows all bits from a place on, and that nothing was understood there.
    fn rest<T>(&mut self, level: usize, from: usize, stop: Stop) -> Outcome<T> {
        if let Stop::Broken(why) = stop {
            let (bits, at) = (self.bits(from), self.reader.at());
            self.line(level, &format!("rest {bits}  # bit {at}: {why}"));
        }
        Err(Stop::Shown)
    }

    fn templates(&mut self) -> Outcome<()> {
        let version = self.get(8)?;
        self.line(0, &format!("version {version}"));
        let begin = self.out.len();
        let count = self.get(8)?;
        for i in 0..count {
            let from = self.reader.at();
            let stop = match self.template_head() {
                Ok((name, elements)) => {
                    self.line(0, &format!("template {}", quoted(&name.bytes)));
                    match self.body(1, elements) {
                        Ok(()) => continue,
                        Err(stop) => self.counted(begin, 0, "templates", count, i + 1, stop),
                    }
                }
                Err(stop) => self.counted(begin, 0, "templates", count, i, stop),
            };
            return self.rest(0, from, stop);
        }
        Ok(())
    }

    /// Puts a count in front of fewer things than it says.
    fn counted(
        &mut self,
        begin: usize,
        level: usize,
        word: &str,
        count: u64,
        shown: u64,
        stop: Stop,
    ) -> Stop {
        if count != shown {
            let line = format!("{}{word} {count}\n", "  ".repeat(level));
            self.out.insert_str(begin, &line);
        }
        stop
    }

    fn template_head(&mut self) -> Outcome<(Text, u64)> {
        Ok((self.text()?, self.get(12)?))
    }

    /// What stands behind the last template.
    fn ending(&mut self) {
        let from = self.reader.at();
        let aligned = from.div_ceil(8);
        let padding: String = self.bits(from).chars().take(aligned * 8 - from).collect();
        if padding.contains('1') {
            self.line(0, &format!("padding {padding}"));
        }
        if aligned < self.bytes.len() {
            let bits = self.bits(aligned * 8);
            self.line(0, &format!("trailing {bits}"));
        }
    }

    fn body(&mut self, level: usize, count: u64) -> Outcome<()> {
        let begin = self.out.len();
        for i in 0..count {
            let from = self.reader.at();
            let Err(stop) = self.element(level) else {
                continue;
            };
            let shown = i + u64::from(matches!(stop, Stop::Shown));
            let stop = self.counted(begin, level, "count", count, shown, stop);
            return self.rest(level, from, stop);
        }
        Ok(())
    }

    fn element(&mut self, level: usize) -> Outcome<()> {
        if level > DEEPEST {
            return broken(format!("nested deeper than {DEEPEST}"));
        }
        let (line, column) = (self.get(16)?, self.get(16)?);
        let kind = self.get(4)?;
        let Some(word) = KINDS.get(kind as usize) else {
            return broken(format!("{line}:{column} has kind {kind}"));
        };
        let head = format!("{word} {line}:{column} ");
        match kind {
            0 | 8 => {
                let text = self.text()?;
                self.line(level, &(head + &quoted(&text.bytes)));
                Ok(())
            }
            1 | 2 => {
                let call = self.call(0)?;
                let ibw = self.ibw()?;
                self.line(level, &(head + &call_text(&call) + ibw));
                Ok(())
            }
            3 => self.block(level, head),
            4 | 6 => {
                let call = self.call(0)?;
                let tail = self.indent()?;
                self.line(level, &(head + &call_text(&call) + &tail));
                Ok(())
            }
            _ => self.decorator_block(level, head),
        }
    }

    fn ibw(&mut self) -> Outcome<&'static str> {
        Ok(if self.get(1)? == 1 { " ibw" } else { "" })
    }

    fn indent(&mut self) -> Outcome<String> {
        let mut tail = String::new();
        if self.get(1)? == 1 {
            tail = format!(" indent {}", quoted(&self.text()?.bytes));
        }
        Ok(tail + self.ibw()?)
    }

    fn block(&mut self, level: usize, head: String) -> Outcome<()> {
        let call = self.call(0)?;
        let names = match self.get(2)? {
            0 => String::new(),
            1 => format!(" as {}", quoted(&self.text()?.bytes)),
            2 => format!(
                " as {} {}",
                quoted(&self.text()?.bytes),
                quoted(&self.text()?.bytes)
            ),
            _ => return broken("block names of tag 3"),
        };
        self.line(level, &(head + &call_text(&call) + &names));
        let line_end = self.out.len() - 1;
        let mut shown = self.reader.at();
        let read = self.branches(level, &mut shown).and_then(|()| self.ibw());
        match read {
            Ok(ibw) => {
                self.out.insert_str(line_end, ibw);
                Ok(())
            }
            Err(stop) => self.rest(level + 1, shown, stop),
        }
    }

    /// `then` and `else`; `shown` follows behind the last body that is shown.
    fn branches(&mut self, level: usize, shown: &mut usize) -> Outcome<()> {
        for word in ["then", "else"] {
            if self.get(1)? == 1 {
                let count = self.get(12)?;
                self.line(level + 1, word);
                self.body(level + 2, count)?;
                *shown = self.reader.at();
            }
        }
        Ok(())
    }

    fn decorator_block(&mut self, level: usize, head: String) -> Outcome<()> {
        let call = self.call(0)?;
        let count = self.get(12)?;
        self.line(level, &(head + &call_text(&call)));
        let line_end = self.out.len() - 1;
        self.body(level + 1, count)?;
        let shown = self.reader.at();
        match self.indent() {
            Ok(tail) => {
                self.out.insert_str(line_end, &tail);
                Ok(())
            }
            Err(stop) => self.rest(level + 1, shown, stop),
        }
    }

    fn call(&mut self, depth: usize) -> Outcome<Call> {
        let mut call = Call {
            name: self.param(depth)?,
            params: Vec::new(),
            params_count: None,
            pairs: Vec::new(),
            pairs_count: None,
        };
        for _ in 0..self.get(4)? {
            call.params.push(self.param(depth)?);
        }
        for _ in 0..self.get(4)? {
            call.pairs.push((self.text()?, self.param(depth)?));
        }
        Ok(call)
    }

    fn param(&mut self, depth: usize) -> Outcome<Param> {
        if depth > DEEPEST {
            return broken(format!("nested deeper than {DEEPEST}"));
        }
        match self.get(2)? {
            0 => Ok(Param::Name(self.text()?)),
            1 => self.path(),
            2 => Ok(Param::Literal(self.literal()?)),
            _ => Ok(Param::Subexpression(Box::new(self.call(depth + 1)?))),
        }
    }

    fn path(&mut self) -> Outcome<Param> {
        let raw = self.text()?;
        if self.get(1)? == 1 {
            return Ok(Param::Local {
                raw,
                level: self.get(8)?,
                name: self.text()?,
            });
        }
        let count = self.get(8)?;
        let segs = (0..count).map(|_| self.segment()).collect::<Outcome<_>>()?;
        Ok(Param::Path {
            raw,
            segs,
            count: None,
        })
    }

    fn segment(&mut self) -> Outcome<Seg> {
        match self.get(2)? {
            0 => Ok(Seg::Named(self.text()?)),
            tag => Ok(Seg::Tag(tag)),
        }
    }

    fn literal(&mut self) -> Outcome<Literal> {
        match self.get(3)? {
            3 => Ok(Literal::Unsigned(self.get(64)?)),
            4 => Ok(Literal::Negative(self.get(64)?)),
            5 => Ok(Literal::String(self.text()?)),
            tag => Ok(Literal::Tag(tag)),
        }
    }
}

fn call_text(call: &Call) -> String {
    let mut text = param_text(&call.name);
    for param in &call.params {
        text.push(' ');
        text.push_str(&param_text(param));
    }
    for (key, param) in &call.pairs {
        let _ = write!(text, " {}={}", key_text(&key.bytes), param_text(param));
    }
    text
}

/// A key without quotes where it is a plain word.
fn key_text(key: &[u8]) -> String {
    let plain = |b: &u8| b.is_ascii_alphanumeric() || *b == b'_' || *b == b'-';
    match key.first() {
        Some(b) if (b.is_ascii_alphabetic() || *b == b'_') && key.iter().all(plain) => {
            String::from_utf8_lossy(key).into_owned()
        }
        _ => quoted(key),
    }
}

fn param_text(param: &Param) -> String {
    match param {
        Param::Name(name) => format!("n{}", quoted(&name.bytes)),
        Param::Path { raw, segs, .. } => {
            let segs: Vec<String> = segs.iter().map(segment_text).collect();
            format!("p{}[{}]", quoted(&raw.bytes), segs.join(" "))
        }
        Param::Local { raw, level, name } => {
            format!("l{}({level},{})", quoted(&raw.bytes), quoted(&name.bytes))
        }
        Param::Literal(literal) => literal_text(literal),
        Param::Subexpression(call) => format!("({})", call_text(call)),
    }
}

fn segment_text(seg: &Seg) -> String {
    match seg {
        Seg::Named(name) => format!("n{}", quoted(&name.bytes)),
        Seg::Tag(1) => "root".to_owned(),
        Seg::Tag(2) => "up".to_owned(),
        Seg::Tag(tag) => format!("seg:{tag}"),
    }
}

fn literal_text(literal: &Literal) -> String {
    match literal {
        Literal::Tag(0) => "null".to_owned(),
        Literal::Tag(1) => "false".to_owned(),
        Literal::Tag(2) => "true".to_owned(),
        Literal::Tag(tag) => format!("literal:{tag}"),
        Literal::Unsigned(n) => n.to_string(),
        Literal::Negative(n) if (*n as i64) < 0 => (*n as i64).to_string(),
        Literal::Negative(n) => format!("neg:{n}"),
        Literal::String(text) => quoted(&text.bytes),
    }
}

/// A string in quotes. UTF-8 stays readable, control characters and other bytes are escaped.
pub fn quoted(bytes: &[u8]) -> String {
    let mut text = String::from("\"");
    for chunk in bytes.utf8_chunks() {
        for c in chunk.valid().chars() {
            match c {
                '\n' => text.push_str("\\n"),
                '\r' => text.push_str("\\r"),
                '\t' => text.push_str("\\t"),
                '"' | '\\' => text.extend(['\\', c]),
                c if shown(c) => text.push(c),
                c => escape(c.to_string().as_bytes(), &mut text),
            }
        }
        escape(chunk.invalid(), &mut text);
    }
    text.push('"');
    text
}

/// Control characters and marks that nobody sees or that turn the line around are not shown.
fn shown(c: char) -> bool {
    let hidden = ('\u{200b}'..='\u{200f}').contains(&c)
        || ('\u{2028}'..='\u{202e}').contains(&c)
        || ('\u{2066}'..='\u{2069}').contains(&c)
        || c == '\u{feff}';
    !c.is_control() && !hidden
}

fn escape(bytes: &[u8], text: &mut String) {
    for b in bytes {
        let _ = write!(text, "\\x{b:02x}");
    }
}
