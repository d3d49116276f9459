//! Lines, tokens, and the tree that indentation makes of them.

use std::fmt;

use super::DEEPEST;

/// What is wrong, and where: line and column count from 1, the column in characters.
#[derive(Debug)]
pub struct Wrong {
    pub line: usize,
    pub column: usize,
    pub what: String,
}

impl fmt::Display for Wrong {
    fn fmt(&self, f: &mut fmt::Formatter<'_>) -> fmt::Result {
        write!(
            f,
            "line {}, column {}: {}",
            self.line, self.column, self.what
        )
    }
}

pub type Outcome<T> = Result<T, Wrong>;

#[derive(Clone, Debug, PartialEq, Eq)]
pub enum Kind {
    Word(String),
    /// The digits as written, with a sign if there is one.
    Number(String),
    /// Bytes, the letter before the quotes, and the count after `@`.
    Text {
        letter: Option<char>,
        bytes: Vec<u8>,
        count: Option<u64>,
    },
    Mark(char),
}

#[derive(Clone, Debug)]
pub struct Token {
    pub kind: Kind,
    pub column: usize,
}

/// A line that holds something, and the lines one level below it.
#[derive(Debug)]
pub struct Node {
    pub line: usize,
    /// The column behind the line's last character.
    pub end: usize,
    pub tokens: Vec<Token>,
    pub children: Vec<Node>,
}

impl Node {
    /// The line's first word.
    pub fn keyword(&self) -> &str {
        match self.tokens.first().map(|t| &t.kind) {
            Some(Kind::Word(w)) => w,
            _ => "",
        }
    }

    pub fn wrong(&self, column: usize, what: impl Into<String>) -> Wrong {
        Wrong {
            line: self.line,
            column,
            what: what.into(),
        }
    }
}

/// The lines of a text as a tree: two spaces of indent for each level.
pub fn tree(text: &str) -> Outcome<Vec<Node>> {
    let mut flat = Vec::new();
    for (i, line) in text.lines().enumerate() {
        let mut lexer = Lexer::new(i + 1, line);
        let level = lexer.indent()?;
        let tokens = lexer.tokens()?;
        if !tokens.is_empty() {
            let node = Node {
                line: i + 1,
                end: line.chars().count() + 1,
                tokens,
                children: Vec::new(),
            };
            flat.push((level, node));
        }
    }
    nest(flat)
}

fn nest(flat: Vec<(usize, Node)>) -> Outcome<Vec<Node>> {
    // open[k] collects the nodes of level k
    let mut open: Vec<Vec<Node>> = vec![Vec::new()];
    for (level, node) in flat {
        if level > open.len() || (level == open.len() && open[level - 1].is_empty()) {
            return Err(node.wrong(1, "indented deeper than one level below the line above"));
        }
        if level > DEEPEST {
            return Err(node.wrong(1, format!("indented deeper than {DEEPEST} levels")));
        }
        while open.len() > level + 1 {
            close(&mut open);
        }
        if level == open.len() {
            open.push(Vec::new());
        }
        open[level].push(node);
    }
    while open.len() > 1 {
        close(&mut open);
    }
    Ok(open.pop().unwrap_or_default())
}

/// Hands the deepest level to the last node above it.
fn close(open: &mut Vec<Vec<Node>>) {
    let children = open.pop().unwrap_or_default();
    if let Some(parent) = open.last_mut().and_then(|nodes| nodes.last_mut()) {
        parent.children = children;
    }
}

/// One string, and nothing else but comment and blanks.
pub fn lone_string(text: &str) -> Outcome<Vec<u8>> {
    let mut lexer = Lexer::new(1, text);
    let mut tokens = lexer.tokens()?;
    match (tokens.len(), tokens.pop().map(|t| t.kind)) {
        (
            1,
            Some(Kind::Text {
                letter: None,
                bytes,
                count: None,
            }),
        ) => Ok(bytes),
        _ => Err(lexer.wrong(0, "a string in double quotes is wanted")),
    }
}

struct Lexer<'a> {
    line: usize,
    chars: Vec<char>,
    at: usize,
    source: &'a str,
}

impl<'a> Lexer<'a> {
    fn new(line: usize, source: &'a str) -> Lexer<'a> {
        Lexer {
            line,
            chars: source.chars().collect(),
            at: 0,
            source,
        }
    }

    fn wrong(&self, at: usize, what: impl Into<String>) -> Wrong {
        Wrong {
            line: self.line,
            column: at + 1,
            what: what.into(),
        }
    }

    fn peek(&self) -> Option<char> {
        self.chars.get(self.at).copied()
    }

    /// The level of a line: half its leading spaces.
    fn indent(&mut self) -> Outcome<usize> {
        let rest = self.source.trim_start_matches(' ');
        let spaces = self.source.len() - rest.len();
        self.at = spaces;
        if rest.starts_with('#') || rest.trim().is_empty() {
            return Ok(0);
        }
        if rest.starts_with('\t') {
            return Err(self.wrong(spaces, "indent by spaces, not by tabs"));
        }
        if spaces % 2 != 0 {
            return Err(self.wrong(spaces, "indent by two spaces for each level"));
        }
        Ok(spaces / 2)
    }

    fn tokens(&mut self) -> Outcome<Vec<Token>> {
        let mut tokens = Vec::new();
        while let Some(c) = self.peek() {
            match c {
                ' ' | '\t' | '\r' => self.at += 1,
                '#' => break,
                _ => {
                    let column = self.at + 1;
                    let kind = self.token(c)?;
                    tokens.push(Token { kind, column });
                }
            }
        }
        Ok(tokens)
    }

    fn token(&mut self, c: char) -> Outcome<Kind> {
        if c == '"' {
            return self.text(None);
        }
        if c.is_ascii_digit() || c == '-' {
            return self.number();
        }
        if c.is_ascii_alphabetic() || c == '_' {
            let word = self.take_while(|c| c.is_ascii_alphanumeric() || c == '_' || c == '-');
            let letter = word.chars().next();
            if self.peek() == Some('"') && ["n", "p", "l", "x"].contains(&word.as_str()) {
                return self.text(letter);
            }
            return Ok(Kind::Word(word));
        }
        if "()[],=:@".contains(c) {
            self.at += 1;
            return Ok(Kind::Mark(c));
        }
        Err(self.wrong(self.at, format!("{c:?} has no meaning here")))
    }

    fn take_while(&mut self, test: impl Fn(char) -> bool) -> String {
        let begin = self.at;
        while self.peek().is_some_and(&test) {
            self.at += 1;
        }
        self.chars[begin..self.at].iter().collect()
    }

    fn number(&mut self) -> Outcome<Kind> {
        let begin = self.at;
        self.at += 1;
        let digits = self.take_while(|c| c.is_ascii_digit());
        let text: String = self.chars[begin..self.at].iter().collect();
        if text == "-" && digits.is_empty() {
            return Err(self.wrong(begin, "digits are wanted after the minus sign"));
        }
        Ok(Kind::Number(text))
    }

    /// A string; `*N` behind it repeats its bytes, `@N` gives another byte count.
    fn text(&mut self, letter: Option<char>) -> Outcome<Kind> {
        let begin = self.at;
        self.at += 1;
        let mut bytes = Vec::new();
        loop {
            let Some(c) = self.peek() else {
                return Err(self.wrong(begin, "this string has no closing quote"));
            };
            self.at += 1;
            match c {
                '"' => break,
                '\\' => bytes.push(self.escape()?),
                _ => bytes.extend(c.to_string().bytes()),
            }
        }
        if self.peek() == Some('*') {
            bytes = bytes.repeat(self.suffix(1 << 20)? as usize);
        }
        let count = match self.peek() {
            Some('@') => Some(self.suffix(65535)?),
            _ => None,
        };
        if letter == Some('x') {
            bytes = self.hex(begin, &bytes)?;
        }
        Ok(Kind::Text {
            letter,
            bytes,
            count,
        })
    }

    fn escape(&mut self) -> Outcome<u8> {
        let begin = self.at - 1;
        let c = self.peek();
        self.at += 1;
        match c {
            Some('n') => Ok(b'\n'),
            Some('r') => Ok(b'\r'),
            Some('t') => Ok(b'\t'),
            Some('\\') => Ok(b'\\'),
            Some('"') => Ok(b'"'),
            Some('x') => {
                let digits: String = self.chars.iter().skip(self.at).take(2).collect();
                self.at += 2;
                hex_byte(digits.as_bytes())
                    .ok_or_else(|| self.wrong(begin, "two hex digits are wanted after \\x"))
            }
            _ => Err(self.wrong(begin, "an escape is one of \\n \\r \\t \\\\ \\\" \\xNN")),
        }
    }

    /// The number behind `*` or `@`.
    fn suffix(&mut self, most: u64) -> Outcome<u64> {
        let begin = self.at;
        self.at += 1;
        let digits = self.take_while(|c| c.is_ascii_digit());
        match digits.parse::<u64>() {
            Ok(n) if n <= most => Ok(n),
            _ => Err(self.wrong(begin, format!("a number of at most {most} is wanted here"))),
        }
    }

    fn hex(&self, begin: usize, digits: &[u8]) -> Outcome<Vec<u8>> {
        digits
            .chunks(2)
            .map(|pair| {
                hex_byte(pair).ok_or_else(|| self.wrong(begin, "x\"\" takes pairs of hex digits"))
            })
            .collect()
    }
}

fn hex_byte(digits: &[u8]) -> Option<u8> {
    let [high, low] = digits else { return None };
    let value = |d: &u8| (*d as char).to_digit(16);
    Some((value(high)? * 16 + value(low)?) as u8)
}
