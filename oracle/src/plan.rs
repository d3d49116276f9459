//! Checks 7 to 10 of a plan, written from RFC 8259 and RFC 3629 without a JSON library.

/// Bytes of a plan (7).
pub const MAX_BYTES: usize = 65_536;
/// How deep a value may be; a scalar has 0, `[]` has 1 (8).
pub const MAX_DEPTH: usize = 32;
/// Values of a plan, the root and replaced members included (10).
pub const MAX_VALUES: usize = 4_096;

/// 0, or the first of 7, 8, 9 and 10 that refuses `text`.
pub fn check_plan(text: &[u8]) -> u32 {
    if text.len() > MAX_BYTES {
        return 7;
    }
    let mut reader = Reader {
        text,
        at: 0,
        values: 0,
        refused_number: false,
    };
    if reader.whole().is_none() {
        8
    } else if reader.refused_number {
        9
    } else if reader.values > MAX_VALUES {
        10
    } else {
        0
    }
}

/// Every function reads one piece from `at` on; `None` is check 8.
struct Reader<'a> {
    text: &'a [u8],
    at: usize,
    values: usize,
    refused_number: bool,
}

impl Reader<'_> {
    fn peek(&self) -> Option<u8> {
        self.text.get(self.at).copied()
    }

    fn next(&mut self) -> Option<u8> {
        let byte = self.peek()?;
        self.at += 1;
        Some(byte)
    }

    /// The next byte, if it lies between `low` and `high`.
    fn one_of(&mut self, low: u8, high: u8) -> Option<u8> {
        self.next().filter(|b| (low..=high).contains(b))
    }

    fn word(&mut self, word: &[u8]) -> Option<()> {
        let rest = &self.text[self.at..];
        self.at += word.len();
        rest.starts_with(word).then_some(())
    }

    fn space(&mut self) {
        while matches!(self.peek(), Some(b' ' | b'\t' | b'\n' | b'\r')) {
            self.at += 1;
        }
    }

    /// JSON-text = ws value ws
    fn whole(&mut self) -> Option<()> {
        self.space();
        self.value(0)?;
        self.space();
        (self.at == self.text.len()).then_some(())
    }

    /// A value that stands inside `depth` arrays and objects.
    fn value(&mut self, depth: usize) -> Option<()> {
        self.values += 1;
        match self.peek()? {
            b'{' => self.container(depth, b'}', Reader::member),
            b'[' => self.container(depth, b']', Reader::value),
            b'"' => self.string(),
            b't' => self.word(b"true"),
            b'f' => self.word(b"false"),
            b'n' => self.word(b"null"),
            _ => self.number(),
        }
    }

    /// Items with commas between them, from the opening bracket to `close`.
    fn container(
        &mut self,
        depth: usize,
        close: u8,
        item: fn(&mut Self, usize) -> Option<()>,
    ) -> Option<()> {
        if depth == MAX_DEPTH {
            return None;
        }
        self.at += 1;
        self.space();
        if self.peek()? == close {
            self.at += 1;
            return Some(());
        }
        loop {
            self.space();
            item(self, depth + 1)?;
            self.space();
            match self.next()? {
                b',' => {}
                b if b == close => return Some(()),
                _ => return None,
            }
        }
    }

    fn member(&mut self, depth: usize) -> Option<()> {
        if self.peek()? != b'"' {
            return None;
        }
        self.string()?;
        self.space();
        self.one_of(b':', b':')?;
        self.space();
        self.value(depth)
    }

    fn string(&mut self) -> Option<()> {
        self.at += 1;
        loop {
            match self.next()? {
                b'"' => return Some(()),
                b'\\' => self.escape()?,
                0x00..=0x1f => return None,
                0x20..=0x7f => {}
                first => self.tail(first)?,
            }
        }
    }

    fn escape(&mut self) -> Option<()> {
        match self.next()? {
            b'"' | b'\\' | b'/' | b'b' | b'f' | b'n' | b'r' | b't' => Some(()),
            b'u' => self.unit_or_pair(),
            _ => None,
        }
    }

    /// `uXXXX`; a high surrogate needs the escape of a low one behind it.
    fn unit_or_pair(&mut self) -> Option<()> {
        match self.unit()? {
            0xd800..=0xdbff => {
                self.word(b"\\u")?;
                (0xdc00..=0xdfff).contains(&self.unit()?).then_some(())
            }
            0xdc00..=0xdfff => None,
            _ => Some(()),
        }
    }

    fn unit(&mut self) -> Option<u32> {
        let mut unit = 0;
        for _ in 0..4 {
            unit = unit * 16 + char::from(self.next()?).to_digit(16)?;
        }
        Some(unit)
    }

    /// What follows the first byte of a character outside ASCII (RFC 3629, section 4).
    fn tail(&mut self, first: u8) -> Option<()> {
        let (low, high, more) = match first {
            0xc2..=0xdf => (0x80, 0xbf, 0),
            0xe0 => (0xa0, 0xbf, 1),
            0xe1..=0xec | 0xee | 0xef => (0x80, 0xbf, 1),
            0xed => (0x80, 0x9f, 1),
            0xf0 => (0x90, 0xbf, 2),
            0xf1..=0xf3 => (0x80, 0xbf, 2),
            0xf4 => (0x80, 0x8f, 2),
            _ => return None,
        };
        self.one_of(low, high)?;
        for _ in 0..more {
            self.one_of(0x80, 0xbf)?;
        }
        Some(())
    }

    /// number = [ minus ] int [ frac ] [ exp ]
    fn number(&mut self) -> Option<()> {
        let negative = self.skip(b"-");
        let start = self.at;
        self.digits()?;
        let int = &self.text[start..self.at];
        if int.len() > 1 && int[0] == b'0' {
            return None;
        }
        let mut whole = true;
        if self.skip(b".") {
            self.digits()?;
            whole = false;
        }
        if self.skip(b"eE") {
            self.skip(b"+-");
            self.digits()?;
            whole = false;
        }
        if !whole || !is_kept(negative, int) {
            self.refused_number = true;
        }
        Some(())
    }

    /// Skips one byte if it is among `bytes`.
    fn skip(&mut self, bytes: &[u8]) -> bool {
        let found = self.peek().is_some_and(|b| bytes.contains(&b));
        self.at += usize::from(found);
        found
    }

    /// At least one digit.
    fn digits(&mut self) -> Option<()> {
        self.one_of(b'0', b'9')?;
        while self.peek().is_some_and(|b| b.is_ascii_digit()) {
            self.at += 1;
        }
        Some(())
    }
}

/// Check 9 of a whole number: -2^63 to 2^64-1, and not `-0`.
fn is_kept(negative: bool, digits: &[u8]) -> bool {
    // 2^64 has 20 digits, so that 20 of them fit u128
    if digits.len() > 20 {
        return false;
    }
    let size = digits.iter().fold(0, |n, d| n * 10 + u128::from(d - b'0'));
    if negative {
        (1..=1 << 63).contains(&size)
    } else {
        size < 1 << 64
    }
}

#[cfg(test)]
mod test {
    use super::check_plan;

    fn check(expected: u32, texts: &[&str]) {
        for text in texts {
            assert_eq!(check_plan(text.as_bytes()), expected, "{text}");
        }
    }

    #[test]
    fn test_whole_texts() {
        check(0, &["0", " null\n", "[]", "{}", "\t{\"a\" : [1 , true,false] }\r", "\"\""]);
        check(8, &["", " ", "\u{feff}1", "1 2", "[1,]", "[,1]", "{\"a\":1,}", "{a:1}", "{\"a\" 1}"]);
        check(8, &["[", "{", "[1", "{\"a\":", "tru", "nulll", "]", "[1}", "\u{b}1", "//1", "'a'"]);
    }

    #[test]
    fn test_numbers() {
        check(0, &["18446744073709551615", "-9223372036854775808", "-1", "10"]);
        check(9, &["18446744073709551616", "-9223372036854775809", "-0", "0.0", "1e0", "-0E+1"]);
        check(9, &["[1.5,2]", "100000000000000000000000000000000000000000000", "{\"a\":1.0,\"a\":1}"]);
        check(8, &["01", "-", "+1", "1.", ".5", "1e", "1e+", "-01", "00", "0x1", "NaN", "1.e1"]);
    }

    #[test]
    fn test_strings() {
        check(0, &[r#""\"\\\/\b\f\n\r\t\u0000\uFFFF\ud83d\ude00""#, "\"\u{7f}ä€😀\""]);
        check(8, &[r#""\ud83d""#, r#""\ude00""#, r#""\ud83d\ud83d""#, r#""\ud83dx""#, r#""\u12g4""#]);
        check(8, &["\"a", "\"\n\"", "\"\u{1f}\"", r#""\x41""#, r#""\u12"#, r#""\"#]);
        for bad in [
            &b"\x80"[..], b"\xc0\x80", b"\xc1\xbf", b"\xe0\x9f\xbf", b"\xed\xa0\x80", b"\xf0\x8f\xbf\xbf",
            b"\xf4\x90\x80\x80", b"\xf5\x80\x80\x80", b"\xe2\x82", b"\xff",
        ] {
            let text = [b"\"", bad, b"\""].concat();
            assert_eq!(check_plan(&text), 8, "{bad:x?}");
            assert!(std::str::from_utf8(bad).is_err());
        }
    }

    #[test]
    fn test_limits() {
        let nested = |n: usize| "[".repeat(n) + &"]".repeat(n);
        check(0, &[&nested(32), &format!("{}1{}", "[".repeat(32), "]".repeat(32))]);
        check(8, &[&nested(33), &format!("[1.5,{}]", nested(32))]);
        let list = |n: usize| format!("[{}]", vec!["1"; n].join(","));
        check(0, &[&list(4095)]);
        check(10, &[&list(4096), &format!("[{}]", vec!["{\"a\":1,\"a\":2}"; 1366].join(","))]);
        check(9, &[&list(4096).replacen('1', "-0", 1)]);
        check(8, &[&list(4096).replacen('1', "-0 x", 1)]);
        check(0, &[&(" ".repeat(65_535) + "1")]);
        check(7, &[&(" ".repeat(65_536) + "1"), &"x".repeat(65_537)]);
    }
}
