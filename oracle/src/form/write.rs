//! From the tree of lines to the bits of a bundle.

use super::lex::{Node, Outcome};
use super::read::Cursor;
use super::{Call, Literal, Param, Seg, Text, KINDS};
use crate::bundle::BitWriter;

#[derive(Default)]
struct Writer {
    bits: BitWriter,
    /// Set by `rest`: nothing is written any more.
    stopped: bool,
}

/// The bundle that the lines describe.
pub fn bundle(nodes: &[Node]) -> Outcome<Vec<u8>> {
    if nodes.iter().any(|n| n.keyword() == "bytes") {
        return raw_bytes(nodes);
    }
    let mut w = Writer::default();
    let mut nodes = nodes;
    let version = w.leading(&mut nodes, "version")?.unwrap_or(1);
    w.put(version, 8);
    let all = nodes.iter().filter(|n| n.keyword() == "template").count() as u64;
    let told = w.leading(&mut nodes, "templates")?;
    if told.is_none() && all > 255 {
        return Err(nodes[0].wrong(
            1,
            "more than 255 templates: give a count, as in `templates 255`",
        ));
    }
    w.put(told.unwrap_or(all), 8);
    let cut = nodes.last().filter(|n| n.keyword() == "cut");
    for node in &nodes[..nodes.len() - cut.iter().count()] {
        w.top(node)?;
    }
    let mut bytes = w.bits.bytes();
    if let Some(node) = cut {
        let mut c = Cursor::new(node);
        let length = c.number(32, "a length")? as usize;
        finish(node, &c)?;
        if length > bytes.len() {
            return Err(node.wrong(1, format!("the bundle has only {} bytes", bytes.len())));
        }
        bytes.truncate(length);
    }
    Ok(bytes)
}

/// Lines of `bytes` only: the bundle's bytes as they are.
fn raw_bytes(nodes: &[Node]) -> Outcome<Vec<u8>> {
    let mut all = Vec::new();
    for node in nodes {
        if node.keyword() != "bytes" {
            return Err(node.wrong(1, "`bytes` stands alone, without other lines"));
        }
        let mut c = Cursor::new(node);
        all.extend(c.text("the bundle's bytes")?.bytes);
        finish(node, &c)?;
    }
    Ok(all)
}

/// The line was read to its end and has nothing below it.
fn finish(node: &Node, c: &Cursor<'_>) -> Outcome<()> {
    c.end()?;
    match node.children.first() {
        Some(child) => Err(child.wrong(1, format!("`{}` takes no lines below it", node.keyword()))),
        None => Ok(()),
    }
}

impl Writer {
    fn put(&mut self, value: u64, width: u32) {
        if !self.stopped {
            self.bits.put(value, width);
        }
    }

    fn put_bits(&mut self, bits: &[bool]) {
        for bit in bits {
            self.put(u64::from(*bit), 1);
        }
    }

    /// A line `word N` at the front of the bundle or of a body, if it is there.
    fn leading(&self, nodes: &mut &[Node], word: &str) -> Outcome<Option<u64>> {
        let Some(node) = nodes.first().filter(|n| n.keyword() == word) else {
            return Ok(None);
        };
        let mut c = Cursor::new(node);
        let width = if word == "count" { 12 } else { 8 };
        let value = c.number(width, &format!("the number of `{word}`"))?;
        finish(node, &c)?;
        *nodes = &nodes[1..];
        Ok(Some(value))
    }

    fn top(&mut self, node: &Node) -> Outcome<()> {
        let mut c = Cursor::new(node);
        match node.keyword() {
            "template" => {
                let name = c.text("the template's name")?;
                c.end()?;
                self.text(&name, node)?;
                return self.body(&node.children);
            }
            "trailing" => {
                while self.bits.len() % 8 != 0 && !self.stopped {
                    self.put(0, 1);
                }
                self.put_bits(&c.bits()?);
            }
            "padding" => self.put_bits(&c.bits()?),
            "version" | "templates" | "cut" => {
                let what = "first `version`, `templates`, then the templates, last `cut`";
                return Err(node.wrong(1, what));
            }
            _ => return self.loose(node, "a template"),
        }
        finish(node, &c)
    }

    /// Bits that belong to no element.
    fn loose(&mut self, node: &Node, wanted: &str) -> Outcome<()> {
        let word = node.keyword();
        if word != "bits" && word != "rest" {
            let column = node.tokens[0].column;
            return Err(node.wrong(column, format!("{wanted} is wanted here")));
        }
        let mut c = Cursor::new(node);
        self.put_bits(&c.bits()?);
        self.stopped |= word == "rest";
        finish(node, &c)
    }

    fn count(&mut self, count: Option<u64>, len: usize, width: u32, node: &Node) -> Outcome<()> {
        let most = u64::MAX >> (64 - width);
        let value = count.unwrap_or(len as u64);
        if value > most {
            let what = format!("{len} of these do not fit, at most {most} do: give a count");
            return Err(node.wrong(node.tokens[0].column, what));
        }
        self.put(value, width);
        Ok(())
    }

    fn text(&mut self, text: &Text, node: &Node) -> Outcome<()> {
        if text.count.is_none() && text.bytes.len() > 65535 {
            let what = format!(
                "a string of {} bytes does not fit, at most 65535 do: give a count with @",
                text.bytes.len()
            );
            return Err(node.wrong(node.tokens[0].column, what));
        }
        self.put(text.count.unwrap_or(text.bytes.len() as u64), 16);
        for b in &text.bytes {
            self.put(u64::from(*b), 8);
        }
        Ok(())
    }

    fn body(&mut self, nodes: &[Node]) -> Outcome<()> {
        let mut nodes = nodes;
        let told = self.leading(&mut nodes, "count")?;
        let elements = nodes
            .iter()
            .filter(|n| !["bits", "rest"].contains(&n.keyword()));
        let len = elements.count();
        match nodes.first() {
            Some(first) => self.count(told, len, 12, first)?,
            None => self.put(told.unwrap_or(0), 12),
        }
        for node in nodes {
            self.element(node)?;
        }
        Ok(())
    }

    fn element(&mut self, node: &Node) -> Outcome<()> {
        let mut c = Cursor::new(node);
        let Some(kind) = KINDS.iter().position(|w| *w == node.keyword()) else {
            return self.kind_by_number(node, c);
        };
        let (line, column) = c.position()?;
        self.put(line, 16);
        self.put(column, 16);
        self.put(kind as u64, 4);
        match kind {
            0 | 8 => {
                let text = c.text("the element's text")?;
                self.text(&text, node)?;
                finish(node, &c)
            }
            1..=3 => self.helper(node, c),
            _ => self.decorator(node, c),
        }
    }

    /// `kind L:C N bits`, or bits alone.
    fn kind_by_number(&mut self, node: &Node, mut c: Cursor<'_>) -> Outcome<()> {
        if node.keyword() != "kind" {
            return self.loose(node, "an element");
        }
        let (line, column) = c.position()?;
        self.put(line, 16);
        self.put(column, 16);
        self.put(c.number(4, "the element's kind")?, 4);
        self.put_bits(&c.bits()?);
        finish(node, &c)
    }

    fn helper(&mut self, node: &Node, mut c: Cursor<'_>) -> Outcome<()> {
        let call = c.call(0)?;
        self.call(&call, node)?;
        if node.keyword() != "block" {
            let ibw = c.takes_word("ibw");
            self.put(u64::from(ibw), 1);
            return finish(node, &c);
        }
        if c.takes_word("as") {
            self.block_names(node, &mut c)?;
        } else {
            self.put(0, 2);
        }
        let ibw = c.takes_word("ibw");
        c.end()?;
        self.branches(&node.children)?;
        self.put(u64::from(ibw), 1);
        Ok(())
    }

    /// One name, two names, or a tag without names.
    fn block_names(&mut self, node: &Node, c: &mut Cursor<'_>) -> Outcome<()> {
        let Some(first) = c.maybe_text() else {
            let tag = c.number(2, "one or two names or a tag")?;
            self.put(tag, 2);
            return Ok(());
        };
        let second = c.maybe_text();
        self.put(1 + u64::from(second.is_some()), 2);
        self.text(&first, node)?;
        match second {
            Some(second) => self.text(&second, node),
            None => Ok(()),
        }
    }

    /// `then` and `else`, each with its bit; `rest` ends the bundle before the next bit.
    fn branches(&mut self, nodes: &[Node]) -> Outcome<()> {
        let mut written = 0;
        for node in nodes {
            let branch = match node.keyword() {
                "then" => 0,
                "else" => 1,
                _ => {
                    self.loose(node, "`then` or `else`")?;
                    continue;
                }
            };
            if branch < written {
                return Err(
                    node.wrong(node.tokens[0].column, "`then` once, and before `else` once")
                );
            }
            Cursor::new(node).end()?;
            self.put(1, 1 + branch - written);
            self.body(&node.children)?;
            written = branch + 1;
        }
        self.put(0, 2 - written);
        Ok(())
    }

    fn decorator(&mut self, node: &Node, mut c: Cursor<'_>) -> Outcome<()> {
        let call = c.call(0)?;
        self.call(&call, node)?;
        let indent = match c.takes_word("indent") {
            true => Some(c.text("the indent")?),
            false => None,
        };
        let ibw = c.takes_word("ibw");
        if node.keyword().ends_with("block") {
            c.end()?;
            self.body(&node.children)?;
        } else {
            finish(node, &c)?;
        }
        self.put(u64::from(indent.is_some()), 1);
        if let Some(indent) = indent {
            self.text(&indent, node)?;
        }
        self.put(u64::from(ibw), 1);
        Ok(())
    }

    fn call(&mut self, call: &Call, node: &Node) -> Outcome<()> {
        self.param(&call.name, node)?;
        self.count(call.params_count, call.params.len(), 4, node)?;
        for param in &call.params {
            self.param(param, node)?;
        }
        self.count(call.pairs_count, call.pairs.len(), 4, node)?;
        for (key, param) in &call.pairs {
            self.text(key, node)?;
            self.param(param, node)?;
        }
        Ok(())
    }

    fn param(&mut self, param: &Param, node: &Node) -> Outcome<()> {
        match param {
            Param::Name(name) => {
                self.put(0, 2);
                self.text(name, node)
            }
            Param::Path { raw, segs, count } => {
                self.put(1, 2);
                self.text(raw, node)?;
                self.put(0, 1);
                self.count(*count, segs.len(), 8, node)?;
                segs.iter().try_for_each(|seg| self.segment(seg, node))
            }
            Param::Local { raw, level, name } => {
                self.put(1, 2);
                self.text(raw, node)?;
                self.put(1, 1);
                self.put(*level, 8);
                self.text(name, node)
            }
            Param::Literal(literal) => {
                self.put(2, 2);
                self.literal(literal, node)
            }
            Param::Subexpression(call) => {
                self.put(3, 2);
                self.call(call, node)
            }
        }
    }

    fn segment(&mut self, seg: &Seg, node: &Node) -> Outcome<()> {
        match seg {
            Seg::Named(name) => {
                self.put(0, 2);
                self.text(name, node)
            }
            Seg::Tag(tag) => {
                self.put(*tag, 2);
                Ok(())
            }
        }
    }

    fn literal(&mut self, literal: &Literal, node: &Node) -> Outcome<()> {
        match literal {
            Literal::Tag(tag) => self.put(*tag, 3),
            Literal::Unsigned(n) => {
                self.put(3, 3);
                self.put(*n, 64);
            }
            Literal::Negative(n) => {
                self.put(4, 3);
                self.put(*n, 64);
            }
            Literal::String(text) => {
                self.put(5, 3);
                self.text(text, node)?;
            }
        }
        Ok(())
    }
}
