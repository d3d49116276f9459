//! The text form of bundles, for people. FORM.md gives its grammar.
//!
//! `parse` writes what it is told, right or wrong; `print` shows any bytes at all. So the
//! parts below hold what the layout has a field for, and not only what it allows.

mod lex;
mod print;
mod read;
mod write;

#[cfg(test)]
mod tests;

/// How deep `parse` and `print` follow bodies and parameters: far past the layout's 16.
const DEEPEST: usize = 200;

/// The words of the nine kinds of element, in the layout's order.
const KINDS: [&str; 9] = [
    "raw",
    "html",
    "expr",
    "block",
    "decorator",
    "decoratorblock",
    "partial",
    "partialblock",
    "comment",
];

/// A string with the byte count that is written for it, if that is not its own.
#[derive(Clone, Debug, PartialEq, Eq)]
pub struct Text {
    pub bytes: Vec<u8>,
    pub count: Option<u64>,
}

/// A name, parameters and hash pairs, the pairs in any order.
#[derive(Clone, Debug, PartialEq, Eq)]
pub struct Call {
    pub name: Param,
    pub params: Vec<Param>,
    pub params_count: Option<u64>,
    pub pairs: Vec<(Text, Param)>,
    pub pairs_count: Option<u64>,
}

#[derive(Clone, Debug, PartialEq, Eq)]
pub enum Param {
    Name(Text),
    Path {
        raw: Text,
        segs: Vec<Seg>,
        count: Option<u64>,
    },
    Local {
        raw: Text,
        level: u64,
        name: Text,
    },
    Literal(Literal),
    Subexpression(Box<Call>),
}

#[derive(Clone, Debug, PartialEq, Eq)]
pub enum Seg {
    Named(Text),
    /// 1 root, 2 up, 3 is wrong.
    Tag(u64),
}

#[derive(Clone, Debug, PartialEq, Eq)]
pub enum Literal {
    /// 0 null, 1 false, 2 true; 6 and 7 are wrong.
    Tag(u64),
    Unsigned(u64),
    /// Two's complement; without the top bit it is wrong.
    Negative(u64),
    String(Text),
}

/// A bundle from its text form. The message of an error tells line and column.
pub fn parse(text: &str) -> Result<Vec<u8>, String> {
    let nodes = lex::tree(text).map_err(|e| e.to_string())?;
    if nodes.is_empty() {
        // an empty file is more likely a slip than a bundle without templates
        let wanted = "a template is wanted here; `version` alone makes a bundle without one";
        return Err(format!("line 1, column 1: {wanted}"));
    }
    write::bundle(&nodes).map_err(|e| e.to_string())
}

/// The text form of any bytes. What does not read as layout is shown as bits.
pub fn print(bytes: &[u8]) -> Result<String, String> {
    Ok(print::bundle(bytes))
}

/// A string in the text form's quotes and escapes, alone on its line: the case files use it.
pub fn parse_string(text: &str) -> Result<Vec<u8>, String> {
    lex::lone_string(text).map_err(|e| e.to_string())
}

/// Bytes as a string in quotes.
pub fn print_string(bytes: &[u8]) -> String {
    print::quoted(bytes)
}
