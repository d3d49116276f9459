//! Runs the hand-worked answers of cases/*.txt; cases/README.md gives their form.

use std::fs;
use std::process::ExitCode;

use oracle_core::batch;
use oracle_core::call::{try_render_call, Answer, Options};
use oracle_core::form;
use oracle_core::gen::vectors;

const USAGE: &str = "\
usage: cases FILE...                         runs the cases, tells what differs
       cases --batch OUT ANSWERS FILE...     writes them as a batch, and the answers expected
       cases --forms FILE...                 shows each bundle in text form and makes it again
       cases --batch-forms FILE              the same for the bundles of a batch
       cases --vector-forms FILE             the same for the bundles of a fixed list
";

fn main() -> ExitCode {
    let args: Vec<String> = std::env::args().skip(1).collect();
    let result = match args.iter().map(String::as_str).collect::<Vec<_>>()[..] {
        ["--help"] => {
            print!("{USAGE}");
            Ok(true)
        }
        ["--batch", out, answers, ref files @ ..] if !files.is_empty() => {
            write_batch(out, answers, files).map(|()| true)
        }
        ["--forms", ref files @ ..] if !files.is_empty() => case_forms(files),
        ["--batch-forms", file] => batch_forms(file),
        ["--vector-forms", file] => vector_forms(file),
        [first, ..] if !first.starts_with('-') => run(&args),
        _ => Err(USAGE.trim_end().to_owned()),
    };
    match result {
        Ok(true) => ExitCode::SUCCESS,
        Ok(false) => ExitCode::FAILURE,
        Err(e) => {
            eprintln!("cases: {e}");
            ExitCode::FAILURE
        }
    }
}

struct Case {
    name: String,
    /// File and line.
    place: String,
    why: String,
    options: Options,
    page: u32,
    start: Vec<u8>,
    plan: Vec<u8>,
    bundle: Vec<u8>,
    expect: Answer,
    /// The expectation was corrected after a first run.
    corrected: bool,
}

fn run(files: &[String]) -> Result<bool, String> {
    let (mut passed, mut failed, mut corrected) = (0, 0, 0);
    for file in files {
        for case in read_file(file)? {
            let page = case.page as usize;
            let got = try_render_call(&case.bundle, &case.plan, &case.start, case.options, page)
                .map_err(|e| format!("{}: {}: fault of the oracle: {e}", case.place, case.name))?;
            corrected += usize::from(case.corrected);
            if got == case.expect {
                passed += 1;
                continue;
            }
            failed += 1;
            println!("{}: {} differs", case.place, case.name);
            println!("  why      {}", case.why);
            println!("  expected {}", shown(&case.expect));
            println!("  got      {}", shown(&got));
        }
    }
    println!("{corrected} of the expectations were corrected after a first run");
    println!("{passed} passed, {failed} failed");
    Ok(failed == 0)
}

/// An answer as the case files write it.
fn shown(answer: &Answer) -> String {
    if answer.gave_up {
        return "gave up".to_owned();
    }
    match (answer.number, &answer.template) {
        (0, _) => {
            let text: String = form::print_string(&answer.text).chars().take(300).collect();
            format!("0 {text}")
        }
        (number, None) => number.to_string(),
        (number, Some(name)) => {
            let name = form::print_string(name.as_bytes());
            format!("{number} {name} {}:{}", answer.line, answer.column)
        }
    }
}

fn write_batch(out: &str, answers: &str, files: &[&str]) -> Result<(), String> {
    let mut bytes = Vec::new();
    let mut lines = String::new();
    for file in files {
        for case in read_file(file)? {
            let entry = batch::Case {
                options: case.options,
                start: &case.start,
                page: case.page,
                bundle: &case.bundle,
                plan: &case.plan,
            };
            batch::write(&entry, &mut bytes);
            lines.push_str(&batch::line(&case.expect));
            lines.push('\n');
        }
    }
    fs::write(out, bytes).map_err(|e| format!("{out}: {e}"))?;
    fs::write(answers, lines).map_err(|e| format!("{answers}: {e}"))
}

fn case_forms(files: &[&str]) -> Result<bool, String> {
    let mut bundles = Vec::new();
    for file in files {
        bundles.extend(read_file(file)?.into_iter().map(|case| case.bundle));
    }
    forms("the cases", bundles.iter().map(Vec::as_slice))
}

fn batch_forms(file: &str) -> Result<bool, String> {
    let bytes = fs::read(file).map_err(|e| format!("{file}: {e}"))?;
    let all = batch::read(&bytes).map_err(|e| format!("{file}: {e}"))?;
    forms(file, all.iter().map(|case| case.bundle))
}

fn vector_forms(file: &str) -> Result<bool, String> {
    let bytes = fs::read(file).map_err(|e| format!("{file}: {e}"))?;
    let all = vectors::read(&bytes).map_err(|e| format!("{file}: {e}"))?;
    forms(file, all.iter().map(|vector| vector.case.bundle.as_slice()))
}

/// Shows bundles in text form and makes them again: the same bytes must come out.
fn forms<'a>(what: &str, bundles: impl Iterator<Item = &'a [u8]>) -> Result<bool, String> {
    let (mut passed, mut failed) = (0, 0);
    for (i, bundle) in bundles.enumerate() {
        let again = form::print(bundle).and_then(|text| form::parse(&text));
        if again.as_deref() == Ok(bundle) {
            passed += 1;
            continue;
        }
        failed += 1;
        let said = again.err().unwrap_or_else(|| "other bytes".to_owned());
        println!("{what}: bundle {}: {said}", i + 1);
    }
    println!("{passed} passed, {failed} failed");
    Ok(failed == 0)
}

/// The cases of a file. Each begins with a line `case NAME`.
fn read_file(file: &str) -> Result<Vec<Case>, String> {
    let text = fs::read_to_string(file).map_err(|e| format!("{file}: {e}"))?;
    let mut chunks: Vec<(usize, Vec<&str>)> = Vec::new();
    for (i, line) in text.lines().enumerate() {
        if line.trim().is_empty() || line.starts_with('#') {
            continue;
        }
        if line.starts_with("case ") {
            chunks.push((i + 1, Vec::new()));
        }
        match chunks.last_mut() {
            Some((_, lines)) => lines.push(line),
            None => {
                return Err(format!(
                    "{file}:{}: a line `case NAME` is wanted first",
                    i + 1
                ))
            }
        }
    }
    let mut cases = Vec::new();
    for (number, lines) in chunks {
        let place = format!("{file}:{number}");
        let case = read_case(&place, &lines).map_err(|e| format!("{place}: {e}"))?;
        cases.push(case);
    }
    Ok(cases)
}

fn read_case(place: &str, lines: &[&str]) -> Result<Case, String> {
    let text = repeated(&unrolled(lines)?.join("\n"))?;
    let mut case = Case {
        name: String::new(),
        place: place.to_owned(),
        why: String::new(),
        options: Options::default(),
        page: 65_536,
        start: b"main".to_vec(),
        plan: Vec::new(),
        bundle: Vec::new(),
        expect: Answer::default(),
        corrected: false,
    };
    let mut seen = Vec::new();
    for (word, rest) in fields(&text) {
        set_field(&mut case, word, &rest).map_err(|e| format!("{word}: {e}"))?;
        seen.push(word);
    }
    for wanted in ["case", "why", "bundle", "expect"] {
        if seen.iter().filter(|w| **w == wanted).count() != 1 {
            return Err(format!("one line `{wanted}` is wanted"));
        }
    }
    Ok(case)
}

/// Each word at a line's begin with what follows it; indented lines go on, less two blanks.
fn fields(text: &str) -> Vec<(&str, String)> {
    let mut fields: Vec<(&str, String)> = Vec::new();
    for line in text.lines() {
        match (line.strip_prefix("  "), fields.last_mut()) {
            (Some(more), Some((_, rest))) => {
                rest.push_str(more);
                rest.push('\n');
            }
            _ => {
                let (word, rest) = line.split_once(' ').unwrap_or((line, ""));
                fields.push((word, rest.to_owned()));
            }
        }
    }
    fields
}

fn set_field(case: &mut Case, word: &str, rest: &str) -> Result<(), String> {
    match word {
        "case" => case.name = rest.to_owned(),
        "why" => case.why = rest.to_owned(),
        "options" => case.options = options(rest)?,
        "page" => case.page = rest.parse().map_err(|_| "a length is wanted")?,
        "start" if rest.starts_with('"') => case.start = form::parse_string(rest)?,
        "start" => case.start = rest.as_bytes().to_vec(),
        "plan" => case.plan = rest.as_bytes().to_vec(),
        "planbytes" => case.plan = form::parse_string(rest)?,
        "bundle" => case.bundle = form::parse(rest)?,
        "expect" => case.expect = expected(rest)?,
        "was" => case.corrected = true,
        _ => return Err("this word has no meaning".to_owned()),
    }
    Ok(())
}

fn options(words: &str) -> Result<Options, String> {
    let mut options = Options::default();
    for word in words.split(' ') {
        match word {
            "strict" => options.strict = true,
            "recursive" => options.recursive_lookup = true,
            "guide" => options.guide_truth = true,
            _ => return Err(format!("{word:?} is none of strict, recursive, guide")),
        }
    }
    Ok(options)
}

/// `0 "text"`, a number alone, or `N "template" LINE:COLUMN`.
fn expected(text: &str) -> Result<Answer, String> {
    let mut answer = Answer::default();
    let (number, rest) = text.split_once(' ').unwrap_or((text, ""));
    answer.number = number.parse().map_err(|_| "a number is wanted")?;
    if answer.number == 0 {
        answer.text = form::parse_string(rest)?;
    } else if !rest.is_empty() {
        let (name, place) = rest.rsplit_once(' ').ok_or("name and place are wanted")?;
        let name = String::from_utf8(form::parse_string(name)?);
        answer.template = Some(name.map_err(|_| "the name is not UTF-8")?);
        let place = place.split_once(':').ok_or("LINE:COLUMN is wanted")?;
        answer.line = place.0.parse().map_err(|_| "a line is wanted")?;
        answer.column = place.1.parse().map_err(|_| "a column is wanted")?;
    }
    Ok(answer)
}

/// Writes out the lines between `%repeat` or `%nest` and `%end`.
fn unrolled(lines: &[&str]) -> Result<Vec<String>, String> {
    let mut out = Vec::new();
    let mut rest = lines;
    while let Some((line, behind)) = rest.split_first() {
        rest = behind;
        let words: Vec<&str> = line.split_whitespace().collect();
        let (["%repeat", name, from, to] | ["%nest", name, from, to]) = words[..] else {
            out.push((*line).to_owned());
            continue;
        };
        let end = rest
            .iter()
            .position(|l| l.trim() == "%end")
            .ok_or("%end is wanted")?;
        let range = range(from, to)?;
        match words[0] {
            "%repeat" => {
                for i in range {
                    out.extend(rest[..end].iter().map(|l| with_number(l, name, i)));
                }
            }
            _ => nested(&rest[..end], name, range, &mut out)?,
        }
        rest = &rest[end + 1..];
    }
    Ok(out)
}

type Range = std::ops::RangeInclusive<u64>;

fn range(from: &str, to: &str) -> Result<Range, String> {
    match (from.parse(), to.parse()) {
        (Ok(from), Ok(to)) => Ok(from..=to),
        _ => Err(format!("{from} to {to} is no range")),
    }
}

/// The lines before `%inner`, each time one body deeper, and those behind it inside them all.
fn nested(lines: &[&str], name: &str, range: Range, out: &mut Vec<String>) -> Result<(), String> {
    let inner = lines
        .iter()
        .position(|l| l.trim() == "%inner")
        .ok_or("%inner is wanted")?;
    let indent = |line: &&str| line.len() - line.trim_start().len();
    let (Some(first), Some(last)) = (lines[..inner].first(), lines[..inner].last()) else {
        return Err("lines are wanted before %inner".to_owned());
    };
    let step = indent(last) + 2 - indent(first);
    let mut depth = 0;
    for i in range {
        let blanks = " ".repeat(step * depth);
        out.extend(
            lines[..inner]
                .iter()
                .map(|l| blanks.clone() + &with_number(l, name, i)),
        );
        depth += 1;
    }
    let blanks = " ".repeat(step * depth.saturating_sub(1));
    out.extend(lines[inner + 1..].iter().map(|l| blanks.clone() + l));
    Ok(())
}

/// `$name` and `${name+1}` become numbers.
fn with_number(text: &str, name: &str, i: u64) -> String {
    text.replace(&format!("${{{name}+1}}"), &(i + 1).to_string())
        .replace(&format!("${name}"), &i.to_string())
}

/// `<<N:text>>` and `<<name=A..B:text>>` become the text so many times.
fn repeated(text: &str) -> Result<String, String> {
    let mut out = String::new();
    let mut rest = text;
    while let Some((before, behind)) = rest.split_once("<<") {
        out.push_str(before);
        let (head, behind) = behind.split_once(':').ok_or("<< without :")?;
        let (body, behind) = behind.split_once(">>").ok_or("<< without >>")?;
        let (name, range) = match head.split_once('=') {
            None => ("", range("1", head)?),
            Some((name, range_text)) => {
                let (from, to) = range_text.split_once("..").ok_or("A..B is wanted")?;
                (name, range(from, to)?)
            }
        };
        for i in range {
            match name {
                "" => out.push_str(body),
                _ => out.push_str(&with_number(body, name, i)),
            }
        }
        rest = behind;
    }
    out.push_str(rest);
    Ok(out)
}
