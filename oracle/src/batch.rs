//! The batch form: cases end to end, numbers little-endian; one line an answer.

use serde_json::value::Value as Json;

use crate::bundle;
use crate::call::{Answer, Options};
use crate::plan::{check_plan, MAX_DEPTH};

/// One case of a batch.
#[derive(Clone, Copy, Debug, PartialEq, Eq)]
pub struct Case<'a> {
    pub options: Options,
    pub start: &'a [u8],
    pub page: u32,
    pub bundle: &'a [u8],
    pub plan: &'a [u8],
}

/// Appends a case to a batch.
pub fn write(case: &Case<'_>, out: &mut Vec<u8>) {
    let bits = [
        case.options.strict,
        case.options.recursive_lookup,
        case.options.guide_truth,
    ];
    out.push((0..3).map(|i| u8::from(bits[i]) << i).sum());
    field(case.start, out);
    out.extend_from_slice(&case.page.to_le_bytes());
    field(case.bundle, out);
    field(case.plan, out);
}

fn field(bytes: &[u8], out: &mut Vec<u8>) {
    out.extend_from_slice(&(bytes.len() as u32).to_le_bytes());
    out.extend_from_slice(bytes);
}

/// All cases of a batch, or what is wrong with it and where.
pub fn read(bytes: &[u8]) -> Result<Vec<Case<'_>>, String> {
    let mut cases = Vec::new();
    let mut reader = Reader { bytes, at: 0 };
    while reader.at < bytes.len() {
        let case = reader.case();
        cases.push(case.map_err(|e| format!("case {}: {e}", cases.len() + 1))?);
    }
    Ok(cases)
}

struct Reader<'a> {
    bytes: &'a [u8],
    at: usize,
}

impl<'a> Reader<'a> {
    fn case(&mut self) -> Result<Case<'a>, String> {
        let at = self.at;
        let options = self.take("options", 1)?[0];
        if options > 7 {
            return Err(format!("byte {at}: options {options} are more than three bits"));
        }
        Ok(Case {
            options: Options {
                strict: options & 1 != 0,
                recursive_lookup: options & 2 != 0,
                guide_truth: options & 4 != 0,
            },
            start: self.field("start name")?,
            page: self.number("page length")?,
            bundle: self.field("bundle")?,
            plan: self.field("plan")?,
        })
    }

    fn take(&mut self, what: &str, count: usize) -> Result<&'a [u8], String> {
        let left = self.bytes.len() - self.at;
        if count > left {
            let at = self.at;
            return Err(format!("byte {at}: {what} needs {count} bytes, but {left} are left"));
        }
        self.at += count;
        Ok(&self.bytes[self.at - count..self.at])
    }

    fn number(&mut self, what: &str) -> Result<u32, String> {
        let bytes = self.take(what, 4)?;
        Ok(u32::from_le_bytes([bytes[0], bytes[1], bytes[2], bytes[3]]))
    }

    fn field(&mut self, what: &str) -> Result<&'a [u8], String> {
        let count = self.number(&format!("length of {what}"))?;
        self.take(what, count as usize)
    }
}

/// The line of an answer: number (`T` where the oracle gave up), template name, line, column,
/// text length, text; names and texts in hex, an empty one as `-`.
pub fn line(answer: &Answer) -> String {
    if answer.gave_up {
        return "T - 0 0 0 -".to_owned();
    }
    let template = answer.template.as_deref().unwrap_or("");
    format!(
        "{} {} {} {} {} {}",
        answer.number,
        hex(template.as_bytes()),
        answer.line,
        answer.column,
        answer.text.len(),
        hex(&answer.text)
    )
}

fn hex(bytes: &[u8]) -> String {
    if bytes.is_empty() {
        return "-".to_owned();
    }
    let digit = |n: u8| char::from(b"0123456789abcdef"[usize::from(n)]);
    bytes.iter().flat_map(|b| [digit(b >> 4), digit(b & 15)]).collect()
}

/// What `self_check` met.
#[derive(Default)]
pub struct Counts {
    pub cases: usize,
    /// Bundles read, each written again to the same bytes.
    pub bundles: usize,
    /// Plans by the own check's answer: 0, 7, 8, 9, 10.
    pub plans: [usize; 5],
    /// Plans that serde_json was asked about.
    pub compared: usize,
    /// Of these: those that serde_json reads although they are too deep.
    pub only_too_deep: usize,
    /// Of these: those with a number that serde_json misreads.
    pub misread: usize,
}

/// Checks one case: a bundle that is read is written again to the same bytes, and the own plan
/// check agrees with serde_json wherever both speak: see `agree`.
pub fn self_check(case: &Case<'_>, counts: &mut Counts) -> Result<(), String> {
    counts.cases += 1;
    if let Ok(bundle) = bundle::decode(case.bundle) {
        counts.bundles += 1;
        if bundle::encode(&bundle) != case.bundle {
            return Err("the bundle is not written again to the same bytes".to_owned());
        }
    }
    check_serde(&mut check_plan, case.plan, counts)
}

/// Whether `check`, which gives 0, 7, 8, 9 or 10, agrees with serde_json about `plan`.
pub fn check_serde(
    check: &mut dyn FnMut(&[u8]) -> u32,
    plan: &[u8],
    counts: &mut Counts,
) -> Result<(), String> {
    let number = check(plan);
    let place = [0, 7, 8, 9, 10].iter().position(|n| *n == number);
    counts.plans[place.ok_or_else(|| format!("the check gives {number}"))?] += 1;
    if number == 7 {
        return Ok(());
    }
    let serde = serde_json::from_slice(plan);
    counts.compared += 1;
    if agree(number, plan, &serde) {
        counts.only_too_deep += usize::from(number == 8 && serde.is_ok());
        return Ok(());
    }
    let plan = shorten(plan);
    if number != 0 && agree(check(&plan), &plan, &serde_json::from_slice(&plan)) {
        counts.misread += 1;
        return Ok(());
    }
    let serde = serde.map(|_| "reads it").map_err(|e| e.to_string());
    Err(format!("the check gives {number}, serde_json {serde:?}"))
}

/// Both speak at 0 and 10, where serde_json must read the plan; at 8, where it must refuse it,
/// unless the plan is only too deep (serde_json reads 127 levels); and at 9, where it must read
/// the plan, unless a number passes its floats.
fn agree(number: u32, plan: &[u8], serde: &serde_json::Result<Json>) -> bool {
    match (number, serde) {
        (0 | 9 | 10, Ok(_)) | (8, Err(_)) => true,
        (8, Ok(_)) => depth(plan) > MAX_DEPTH,
        (9, Err(e)) => e.to_string().starts_with("number out of range"),
        _ => false,
    }
}

/// How deep a JSON text is; replaced members, which serde_json does not keep, count too.
fn depth(text: &[u8]) -> usize {
    let (mut depth, mut deepest) = (0_usize, 0);
    let (mut quoted, mut escaped) = (false, false);
    for b in text {
        match b {
            _ if escaped => escaped = false,
            b'\\' => escaped = quoted,
            b'"' => quoted = !quoted,
            b'[' | b'{' if !quoted => depth += 1,
            b']' | b'}' if !quoted => depth -= 1,
            _ => {}
        }
        deepest = deepest.max(depth);
    }
    deepest
}

/// Cuts digits before a point to five. serde_json 1.0.87 counts the places of a number that
/// passes 64 bits before its point wrongly: it reads `19223372036854775808.` and refuses
/// `18446744073709551616.5`. Without the excess digits it must agree.
fn shorten(plan: &[u8]) -> Vec<u8> {
    let mut short = Vec::new();
    let mut digits = 0;
    for b in plan {
        if *b == b'.' {
            short.truncate(short.len() - digits + digits.min(5));
        }
        digits = if b.is_ascii_digit() { digits + 1 } else { 0 };
        short.push(*b);
    }
    short
}
