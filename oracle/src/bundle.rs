//! The layout of bundles (document 01, "The bundle"): bits, most significant first.

use std::collections::{BTreeMap, HashSet};

use serde_json::value::Value as Json;

use crate::grammar::Rule;
use crate::json::path::{Path, PathSeg};
use crate::template::TemplateElement::{
    Comment, DecoratorBlock, DecoratorExpression, Expression, HelperBlock, HtmlExpression,
    PartialBlock, PartialExpression, RawString,
};
use crate::template::{
    BlockParam, DecoratorTemplate, HelperTemplate, Parameter, Subexpression, Template,
    TemplateElement, TemplateMapping,
};

pub const VERSION: u64 = 1;
pub const MAX_TEMPLATES: u64 = 64;
/// How deep bodies and parameters may stand inside one another.
pub const MAX_DEPTH: u32 = 16;

#[derive(Clone, Debug, PartialEq, Eq, Default)]
pub struct Bundle {
    /// Each template with its name, which `Template::name` repeats.
    pub templates: Vec<(String, Template)>,
}

/// Writes fields of 0 to 64 bits, most significant bit first.
#[derive(Clone, Debug, Default)]
pub struct BitWriter {
    bytes: Vec<u8>,
    bits: usize,
}

impl BitWriter {
    pub fn new() -> BitWriter {
        BitWriter::default()
    }

    /// How many bits were put.
    pub fn len(&self) -> usize {
        self.bits
    }

    pub fn is_empty(&self) -> bool {
        self.bits == 0
    }

    /// Puts the low `width` bits of `value`; higher ones are left out.
    pub fn put(&mut self, value: u64, width: u32) {
        let mut left = width;
        while left > 0 {
            let used = (self.bits % 8) as u32;
            if used == 0 {
                self.bytes.push(0);
            }
            let room = 8 - used;
            let take = room.min(left);
            let part = (value >> (left - take)) as u8 & (0xff >> (8 - take));
            *self.bytes.last_mut().expect("pushed above") |= part << (room - take);
            self.bits += take as usize;
            left -= take;
        }
    }

    /// A string: its byte count (16 bits) and its bytes.
    pub fn string(&mut self, bytes: &[u8]) {
        self.put(bytes.len() as u64, 16);
        for b in bytes {
            self.put(u64::from(*b), 8);
        }
    }

    /// What was put, with zero bits to the last byte's end.
    pub fn bytes(&self) -> Vec<u8> {
        self.bytes.clone()
    }
}

/// Reads fields of 0 to 64 bits, most significant bit first.
#[derive(Clone, Debug)]
pub struct BitReader<'a> {
    bytes: &'a [u8],
    at: usize,
}

impl<'a> BitReader<'a> {
    pub fn new(bytes: &'a [u8]) -> BitReader<'a> {
        BitReader { bytes, at: 0 }
    }

    /// The bit that is read next, counted from 0.
    pub fn at(&self) -> usize {
        self.at
    }

    pub fn get(&mut self, width: u32) -> Result<u64, ()> {
        if self.at + width as usize > self.bytes.len() * 8 {
            return Err(());
        }
        let mut value = 0;
        let mut left = width;
        while left > 0 {
            let room = 8 - (self.at % 8) as u32;
            let take = room.min(left);
            let part = (self.bytes[self.at / 8] >> (room - take)) & (0xff >> (8 - take));
            value = value << take | u64::from(part);
            self.at += take as usize;
            left -= take;
        }
        Ok(value)
    }

    fn flag(&mut self) -> Result<bool, ()> {
        Ok(self.get(1)? == 1)
    }

    pub fn string(&mut self) -> Result<String, ()> {
        let count = self.get(16)? as usize;
        if self.at + count * 8 > self.bytes.len() * 8 {
            return Err(());
        }
        let mut bytes = Vec::with_capacity(count);
        for _ in 0..count {
            bytes.push(self.get(8)? as u8);
        }
        String::from_utf8(bytes).map_err(|_| ())
    }

    /// Zero bits to the byte's end, and nothing more.
    pub fn end(&mut self) -> Result<(), ()> {
        let left = self.bytes.len() * 8 - self.at;
        if left < 8 && self.get(left as u32)? == 0 {
            Ok(())
        } else {
            Err(())
        }
    }
}

/// Reads a bundle; an error is check 3. Its length (check 2) is not looked at.
pub fn decode(bytes: &[u8]) -> Result<Bundle, ()> {
    let mut r = BitReader::new(bytes);
    if r.get(8)? != VERSION {
        return Err(());
    }
    let count = r.get(8)?;
    if count == 0 || count > MAX_TEMPLATES {
        return Err(());
    }
    let mut names = HashSet::new();
    let mut templates = Vec::new();
    for _ in 0..count {
        let name = r.string()?;
        if !names.insert(name.clone()) {
            return Err(());
        }
        let mut template = r.body(1)?;
        template.name = Some(name.clone());
        templates.push((name, template));
    }
    r.end()?;
    Ok(Bundle { templates })
}

/// The name, parameters and hash of an element or a subexpression.
struct Call {
    name: Parameter,
    params: Vec<Parameter>,
    hash: BTreeMap<String, Parameter>,
}

/// The parts of the layout, in document 01's order.
impl BitReader<'_> {
    fn body(&mut self, depth: u32) -> Result<Template, ()> {
        if depth > MAX_DEPTH {
            return Err(());
        }
        let count = self.get(12)?;
        let mut template = Template::new();
        for _ in 0..count {
            let line = self.get(16)? as usize;
            let column = self.get(16)? as usize;
            let element = self.element(depth)?;
            template.push_element(element, line, column);
        }
        Ok(template)
    }

    fn maybe_body(&mut self, depth: u32) -> Result<Option<Template>, ()> {
        if self.flag()? {
            self.body(depth).map(Some)
        } else {
            Ok(None)
        }
    }

    fn element(&mut self, depth: u32) -> Result<TemplateElement, ()> {
        Ok(match self.get(4)? {
            0 => RawString(self.string()?),
            1 => HtmlExpression(self.helper(depth, false)?),
            2 => Expression(self.helper(depth, false)?),
            3 => HelperBlock(self.helper(depth, true)?),
            4 => DecoratorExpression(self.decorator(depth, false)?),
            5 => DecoratorBlock(self.decorator(depth, true)?),
            6 => PartialExpression(self.decorator(depth, false)?),
            7 => PartialBlock(self.decorator(depth, true)?),
            8 => Comment(self.string()?),
            _ => return Err(()),
        })
    }

    fn helper(&mut self, depth: u32, block: bool) -> Result<Box<HelperTemplate>, ()> {
        let call = self.call(depth)?;
        let mut block_param = None;
        let mut template = None;
        let mut inverse = None;
        if block {
            block_param = self.block_names()?;
            template = self.maybe_body(depth + 1)?;
            inverse = self.maybe_body(depth + 1)?;
        }
        Ok(Box::new(HelperTemplate {
            name: call.name,
            params: call.params,
            hash: call.hash,
            block_param,
            template,
            inverse,
            block,
            chain: false,
            indent_before_write: self.flag()?,
        }))
    }

    fn block_names(&mut self) -> Result<Option<BlockParam>, ()> {
        Ok(match self.get(2)? {
            0 => None,
            1 => Some(BlockParam::Single(Parameter::Name(self.string()?))),
            2 => Some(BlockParam::Pair((
                Parameter::Name(self.string()?),
                Parameter::Name(self.string()?),
            ))),
            _ => return Err(()),
        })
    }

    fn decorator(&mut self, depth: u32, block: bool) -> Result<Box<DecoratorTemplate>, ()> {
        let call = self.call(depth)?;
        let template = if block {
            Some(self.body(depth + 1)?)
        } else {
            None
        };
        let indent = if self.flag()? {
            Some(self.string()?)
        } else {
            None
        };
        Ok(Box::new(DecoratorTemplate {
            name: call.name,
            params: call.params,
            hash: call.hash,
            template,
            indent,
            indent_before_write: self.flag()?,
        }))
    }

    /// A call that stands at `depth`; its parameters are one deeper.
    fn call(&mut self, depth: u32) -> Result<Call, ()> {
        let name = self.parameter(depth + 1)?;
        let mut params = Vec::new();
        for _ in 0..self.get(4)? {
            params.push(self.parameter(depth + 1)?);
        }
        let mut hash: BTreeMap<String, Parameter> = BTreeMap::new();
        for _ in 0..self.get(4)? {
            let key = self.string()?;
            if hash.last_key_value().is_some_and(|(last, _)| *last >= key) {
                return Err(());
            }
            hash.insert(key, self.parameter(depth + 1)?);
        }
        Ok(Call { name, params, hash })
    }

    fn parameter(&mut self, depth: u32) -> Result<Parameter, ()> {
        if depth > MAX_DEPTH {
            return Err(());
        }
        Ok(match self.get(2)? {
            0 => Parameter::Name(self.string()?),
            1 => Parameter::Path(self.path()?),
            2 => Parameter::Literal(self.literal()?),
            _ => {
                let call = self.call(depth)?;
                Parameter::Subexpression(Subexpression::new(call.name, call.params, call.hash))
            }
        })
    }

    fn path(&mut self) -> Result<Path, ()> {
        let raw = self.string()?;
        if self.flag()? {
            let level = self.get(8)? as usize;
            return Ok(Path::Local((level, self.string()?, raw)));
        }
        let mut segs = Vec::new();
        for _ in 0..self.get(8)? {
            segs.push(match self.get(2)? {
                0 => PathSeg::Named(self.string()?),
                1 => PathSeg::Ruled(Rule::path_root),
                2 => PathSeg::Ruled(Rule::path_up),
                _ => return Err(()),
            });
        }
        Ok(Path::Relative((segs, raw)))
    }

    fn literal(&mut self) -> Result<Json, ()> {
        Ok(match self.get(3)? {
            0 => Json::Null,
            1 => Json::Bool(false),
            2 => Json::Bool(true),
            3 => Json::from(self.get(64)?),
            4 => match self.get(64)? as i64 {
                n if n < 0 => Json::from(n),
                _ => return Err(()),
            },
            5 => Json::String(self.string()?),
            _ => return Err(()),
        })
    }
}

/// Writes a bundle. What the layout cannot hold is written all the same: counts and numbers
/// by their low bits, a value that is no literal under tag 6, a foreign segment under 3.
pub fn encode(bundle: &Bundle) -> Vec<u8> {
    let mut w = BitWriter::new();
    w.put(VERSION, 8);
    w.put(bundle.templates.len() as u64, 8);
    for (name, template) in &bundle.templates {
        w.string(name.as_bytes());
        w.body(template);
    }
    w.bytes
}

/// The parts of the layout, in document 01's order.
impl BitWriter {
    pub fn body(&mut self, template: &Template) {
        self.put(template.elements.len() as u64, 12);
        for (i, element) in template.elements.iter().enumerate() {
            let none = TemplateMapping(0, 0);
            let TemplateMapping(line, column) = template.mapping.get(i).unwrap_or(&none);
            self.put(*line as u64, 16);
            self.put(*column as u64, 16);
            self.element(element);
        }
    }

    fn maybe_body(&mut self, template: Option<&Template>) {
        self.put(u64::from(template.is_some()), 1);
        if let Some(t) = template {
            self.body(t);
        }
    }

    pub fn element(&mut self, element: &TemplateElement) {
        match element {
            RawString(s) => self.text(0, s),
            HtmlExpression(ht) => self.helper(1, ht),
            Expression(ht) => self.helper(2, ht),
            HelperBlock(ht) => self.helper(3, ht),
            DecoratorExpression(dt) => self.decorator(4, dt),
            DecoratorBlock(dt) => self.decorator(5, dt),
            PartialExpression(dt) => self.decorator(6, dt),
            PartialBlock(dt) => self.decorator(7, dt),
            Comment(s) => self.text(8, s),
        }
    }

    fn text(&mut self, kind: u64, s: &str) {
        self.put(kind, 4);
        self.string(s.as_bytes());
    }

    fn helper(&mut self, kind: u64, ht: &HelperTemplate) {
        self.put(kind, 4);
        self.call(&ht.name, &ht.params, &ht.hash);
        if kind == 3 {
            self.block_names(ht.block_param.as_ref());
            self.maybe_body(ht.template.as_ref());
            self.maybe_body(ht.inverse.as_ref());
        }
        self.put(u64::from(ht.indent_before_write), 1);
    }

    fn block_names(&mut self, names: Option<&BlockParam>) {
        let names = match names {
            None => vec![],
            Some(BlockParam::Single(a)) => vec![a],
            Some(BlockParam::Pair((a, b))) => vec![a, b],
        };
        self.put(names.len() as u64, 2);
        for name in names {
            self.string(name.as_name().unwrap_or("").as_bytes());
        }
    }

    fn decorator(&mut self, kind: u64, dt: &DecoratorTemplate) {
        self.put(kind, 4);
        self.call(&dt.name, &dt.params, &dt.hash);
        if kind == 5 || kind == 7 {
            self.body(dt.template.as_ref().unwrap_or(&Template::new()));
        }
        self.put(u64::from(dt.indent.is_some()), 1);
        if let Some(indent) = &dt.indent {
            self.string(indent.as_bytes());
        }
        self.put(u64::from(dt.indent_before_write), 1);
    }

    pub fn call(
        &mut self,
        name: &Parameter,
        params: &[Parameter],
        hash: &BTreeMap<String, Parameter>,
    ) {
        self.parameter(name);
        self.put(params.len() as u64, 4);
        for p in params {
            self.parameter(p);
        }
        self.put(hash.len() as u64, 4);
        for (key, p) in hash {
            self.string(key.as_bytes());
            self.parameter(p);
        }
    }

    pub fn parameter(&mut self, parameter: &Parameter) {
        match parameter {
            Parameter::Name(name) => {
                self.put(0, 2);
                self.string(name.as_bytes());
            }
            Parameter::Path(path) => {
                self.put(1, 2);
                self.path(path);
            }
            Parameter::Literal(value) => {
                self.put(2, 2);
                self.literal(value);
            }
            Parameter::Subexpression(t) => {
                self.put(3, 2);
                if let Expression(ht) = t.as_element() {
                    self.call(&ht.name, &ht.params, &ht.hash);
                }
            }
        }
    }

    pub fn path(&mut self, path: &Path) {
        self.string(path.raw().as_bytes());
        match path {
            Path::Local((level, name, _)) => {
                self.put(1, 1);
                self.put(*level as u64, 8);
                self.string(name.as_bytes());
            }
            Path::Relative((segs, _)) => {
                self.put(0, 1);
                self.put(segs.len() as u64, 8);
                for seg in segs {
                    self.segment(seg);
                }
            }
        }
    }

    fn segment(&mut self, seg: &PathSeg) {
        match seg {
            PathSeg::Named(name) => {
                self.put(0, 2);
                self.string(name.as_bytes());
            }
            PathSeg::Ruled(Rule::path_root) => self.put(1, 2),
            PathSeg::Ruled(Rule::path_up) => self.put(2, 2),
            PathSeg::Ruled(_) => self.put(3, 2),
        }
    }

    pub fn literal(&mut self, value: &Json) {
        match value {
            Json::Null => self.put(0, 3),
            Json::Bool(false) => self.put(1, 3),
            Json::Bool(true) => self.put(2, 3),
            Json::Number(n) if n.is_u64() => {
                self.put(3, 3);
                self.put(n.as_u64().unwrap_or(0), 64);
            }
            Json::Number(n) if n.is_i64() => {
                self.put(4, 3);
                self.put(n.as_i64().unwrap_or(0) as u64, 64);
            }
            Json::String(s) => {
                self.put(5, 3);
                self.string(s.as_bytes());
            }
            _ => self.put(6, 3),
        }
    }
}
