//! The fixed list: cases with the oracle's answers, in a form to be read front to back.
//! `vectors/README.md` states the form.

use std::collections::{BTreeMap, HashSet};

use super::rng::Rng;
use super::{cases, deep, limits, Case, Order};
use crate::call::{with_big_stack, Answer};

/// One case of the list.
#[derive(Clone, Debug, PartialEq, Eq)]
pub struct Vector {
    pub case: Case,
    pub number: u8,
    pub template: Vec<u8>,
    pub line: u32,
    pub column: u32,
    pub text: Vec<u8>,
}

impl Vector {
    fn of(case: Case, answer: Answer) -> Vector {
        Vector {
            case,
            number: answer.number as u8,
            template: answer.template.unwrap_or_default().into_bytes(),
            line: answer.line as u32,
            column: answer.column as u32,
            text: answer.text,
        }
    }

    /// The case's answer now, or what kept the oracle from one.
    fn again(&self) -> Result<Vector, String> {
        let answer = self.case.answer()?;
        if answer.gave_up {
            return Err("gave up".to_owned());
        }
        Ok(Vector::of(self.case.clone(), answer))
    }

    pub fn said(&self) -> String {
        let name = String::from_utf8_lossy(&self.template);
        format!(
            "{} {name:?} {}:{} text of {}",
            self.number,
            self.line,
            self.column,
            self.text.len()
        )
    }
}

// Making

/// A part of the list: a profile's cases from one seed, each number at most so often.
pub struct Part {
    pub profile: &'static str,
    pub seed: u64,
    pub count: usize,
    pub max_bytes: usize,
    pub cabinets: usize,
    /// So that the common answers leave room for the rare ones.
    pub most_of_one: usize,
}

const fn part(
    profile: &'static str,
    seed: u64,
    count: usize,
    max_bytes: usize,
    most_of_one: usize,
) -> Part {
    Part { profile, seed, count, max_bytes, cabinets: 0, most_of_one }
}

pub const PARTS: [Part; 12] = [
    part("rich", 1, 900, 1_800, 560),
    part("marks", 8, 260, 2_000, 250),
    part("nest", 9, 300, 2_000, 240),
    part("limits", 2, 1_200, 140_000, 200),
    part("damaged", 3, 260, 1_300, 150),
    part("json", 4, 360, 9_000, 190),
    Part { profile: "sheets", seed: 5, count: 24, max_bytes: 9_000, cabinets: 4, most_of_one: 24 },
    Part { profile: "sheets", seed: 6, count: 4, max_bytes: 40_000, cabinets: 40, most_of_one: 6 },
    Part { profile: "sheets", seed: 7, count: 1, max_bytes: 65_536, cabinets: 120, most_of_one: 3 },
    // As they are, whatever the seed.
    part(DEEP, 0, 11, 65_536, 11),
    part("calls", 1, 900, 330, 560),
    part("calls", 2, 300, 420, 110),
];

const DEEP: &str = "deep";

impl Part {
    fn order(&self) -> Order {
        Order {
            profile: self.profile.to_owned(),
            seed: self.seed,
            // Enough to choose from.
            count: self.count * 8,
            max_bytes: self.max_bytes,
            cabinets: self.cabinets,
        }
    }

    fn cases(&self) -> Vec<Case> {
        match self.profile {
            DEEP => deep::all().into_iter().map(|(_, case)| case).collect(),
            _ => cases(&self.order()).collect(),
        }
    }

    fn make(&self, seen: &mut HashSet<Vec<u8>>) -> Result<Vec<Vector>, String> {
        let mut made = Vec::new();
        let mut often: BTreeMap<u8, usize> = BTreeMap::new();
        for case in self.cases() {
            if made.len() == self.count {
                break;
            }
            let mut key = Vec::new();
            case.write(&mut key);
            let answer = case.answer()?;
            let count = often.entry(answer.number as u8).or_default();
            if answer.gave_up || *count == self.most_of_one || !seen.insert(key) {
                continue;
            }
            *count += 1;
            made.push(Vector::of(case, answer));
        }
        Ok(made)
    }
}

/// A whole list, one list for each part.
pub fn make(parts: &'static [Part]) -> Result<Vec<(&'static Part, Vec<Vector>)>, String> {
    with_big_stack(|| {
        let mut seen = HashSet::new();
        parts.iter().map(|p| Ok((p, p.make(&mut seen)?))).collect()
    })
}

// The form

fn put_number(n: u32, out: &mut Vec<u8>) {
    out.extend_from_slice(&n.to_le_bytes());
}

fn put_short(n: usize, out: &mut Vec<u8>) {
    out.extend_from_slice(&(n as u16).to_le_bytes());
}

/// Copies reach back so far, and are at least so long.
const BACK: usize = 64;
const LEAST: usize = 16;
const MOST: usize = 65_535;

/// The longest copy that goes on at `at`: its distance and its length.
fn copy_at(bytes: &[u8], at: usize) -> Option<(usize, usize)> {
    let mut best = None;
    for back in 1..=BACK.min(at) {
        let same =
            (at..bytes.len()).take(MOST).take_while(|i| bytes[*i] == bytes[*i - back]).count();
        if same >= LEAST && best.is_none_or(|(_, n)| same > n) {
            best = Some((back, same));
        }
    }
    best
}

/// A string: its length, then pieces, each of plain bytes and of bytes copied from just before.
fn put_string(bytes: &[u8], out: &mut Vec<u8>) {
    put_number(bytes.len() as u32, out);
    let mut at = 0;
    while at < bytes.len() {
        let from = at;
        let mut copy = None;
        while at < bytes.len() && at - from < MOST && copy.is_none() {
            copy = copy_at(bytes, at);
            at += usize::from(copy.is_none());
        }
        put_short(at - from, out);
        out.extend_from_slice(&bytes[from..at]);
        let (back, count) = copy.unwrap_or((0, 0));
        put_short(count, out);
        put_short(back, out);
        at += count;
    }
}

fn put_vector(v: &Vector, out: &mut Vec<u8>) {
    out.push(v.case.options);
    put_string(&v.case.start, out);
    put_number(v.case.page, out);
    put_string(&v.case.bundle, out);
    put_string(&v.case.plan, out);
    out.push(v.number);
    put_string(&v.template, out);
    put_number(v.line, out);
    put_number(v.column, out);
    put_string(&v.text, out);
}

/// No file of the list is longer, so that a program reads each whole into a buffer of this size.
const FILE: usize = 262_144;

/// The list as files: each has the number of its cases and then the cases.
pub fn write(vectors: &[&Vector]) -> Vec<Vec<u8>> {
    let mut files: Vec<(u32, Vec<u8>)> = Vec::new();
    for v in vectors {
        let mut one = Vec::new();
        put_vector(v, &mut one);
        match files.last_mut() {
            Some((count, cases)) if 4 + cases.len() + one.len() <= FILE => {
                *count += 1;
                cases.append(&mut one);
            }
            _ => files.push((1, one)),
        }
    }
    let whole = |(count, cases): &(u32, Vec<u8>)| [&count.to_le_bytes()[..], cases].concat();
    files.iter().map(whole).collect()
}

struct Reader<'a> {
    bytes: &'a [u8],
    at: usize,
}

impl<'a> Reader<'a> {
    fn take(&mut self, count: usize) -> Result<&'a [u8], String> {
        let end = self.at + count;
        let found = self.bytes.get(self.at..end);
        let found = found
            .ok_or_else(|| format!("byte {}: {count} bytes are wanted, the file ends", self.at))?;
        self.at = end;
        Ok(found)
    }

    fn byte(&mut self) -> Result<u8, String> {
        Ok(self.take(1)?[0])
    }

    fn short(&mut self) -> Result<usize, String> {
        let b = self.take(2)?;
        Ok(u16::from_le_bytes([b[0], b[1]]).into())
    }

    fn number(&mut self) -> Result<u32, String> {
        let b = self.take(4)?;
        Ok(u32::from_le_bytes([b[0], b[1], b[2], b[3]]))
    }

    fn string(&mut self) -> Result<Vec<u8>, String> {
        let length = self.number()? as usize;
        let mut s = Vec::new();
        while s.len() < length {
            let at = self.at;
            let plain = self.short()?;
            s.extend_from_slice(self.take(plain)?);
            let count = self.short()?;
            let back = self.short()?;
            if plain + count == 0
                || s.len() + count > length
                || count > 0 && (back == 0 || back > s.len())
            {
                return Err(format!("byte {at}: a piece of a string is wrong"));
            }
            for _ in 0..count {
                s.push(s[s.len() - back]);
            }
        }
        Ok(s)
    }

    fn vector(&mut self) -> Result<Vector, String> {
        Ok(Vector {
            case: Case {
                options: self.byte()?,
                start: self.string()?,
                page: self.number()?,
                bundle: self.string()?,
                plan: self.string()?,
            },
            number: self.byte()?,
            template: self.string()?,
            line: self.number()?,
            column: self.number()?,
            text: self.string()?,
        })
    }
}

pub fn read(bytes: &[u8]) -> Result<Vec<Vector>, String> {
    let mut r = Reader { bytes, at: 0 };
    let count = r.number()?;
    let mut all = Vec::new();
    for i in 0..count {
        all.push(r.vector().map_err(|e| format!("case {}: {e}", i + 1))?);
    }
    if r.at == bytes.len() {
        Ok(all)
    } else {
        Err(format!("byte {}: {} bytes are left after the last case", r.at, bytes.len() - r.at))
    }
}

/// Answers every case again; the lines tell which differ.
pub fn replay(vectors: &[Vector]) -> Vec<String> {
    with_big_stack(|| {
        let mut lines = Vec::new();
        for (i, v) in vectors.iter().enumerate() {
            match v.again() {
                Ok(now) if now == *v => {}
                Ok(now) => lines.push(format!("case {}: {}, now {}", i + 1, v.said(), now.said())),
                Err(e) => lines.push(format!("case {}: {}, now {e}", i + 1, v.said())),
            }
        }
        lines
    })
}

/// Runs each maker of the limits profile on both sides; the lines tell where the number is not the
/// one that the maker expects.
pub fn bounds(seed: u64, turns: u64) -> Vec<String> {
    with_big_stack(|| {
        let mut lines = Vec::new();
        for l in limits::all() {
            for turn in 0..2 * turns {
                let mut rng = Rng::of_case(seed, l.name, turn);
                let over = turn % 2 == 0;
                let (case, number) = (l.make)(&mut rng, over);
                let said = match case.answer() {
                    Ok(a) if a.gave_up => "gave up".to_owned(),
                    Ok(a) => a.number.to_string(),
                    Err(e) => e,
                };
                if said != number.to_string() {
                    let side = if over { "past" } else { "at" };
                    lines.push(format!(
                        "{} {:?} turn {turn} ({side} the limit): {said} instead of {number}",
                        l.number, l.name
                    ));
                }
            }
        }
        lines
    })
}
