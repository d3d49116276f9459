//! The oracle's program; `oracle --help` lists its commands.

use std::fs;
use std::io::{self, BufWriter, Write};
use std::path::Path;
use std::process::ExitCode;

use oracle_core::batch::{self, Case, Counts};
use oracle_core::call::{try_render_call, with_big_stack, Options};
use oracle_core::form;
use oracle_core::plan::check_plan;

const USAGE: &str = "\
usage: oracle DIR                 the page of DIR/bundle.bin and DIR/plan.json, from `main`
       oracle --batch FILE        one line for each case of FILE
       oracle --self-check FILE   checks the oracle itself on the cases of FILE
       oracle asm FILE.txt OUT    makes the bundle OUT of its text form
       oracle dump FILE           shows a bundle in text form
       oracle check-plan FILE     the number of checks 7 to 10
";

/// The program's page.
const PAGE: usize = 65_536;

fn main() -> ExitCode {
    let args: Vec<String> = std::env::args().skip(1).collect();
    let args: Vec<&str> = args.iter().map(String::as_str).collect();
    let result = match args[..] {
        ["--help"] => print(USAGE.as_bytes()),
        ["--batch", file] => answer_batch(file),
        ["--self-check", file] => self_check(file),
        ["asm", file, out] => asm(file, out),
        ["dump", file] => dump(file),
        ["check-plan", file] => {
            read(file).and_then(|plan| print(format!("{}\n", check_plan(&plan)).as_bytes()))
        }
        ["asm" | "dump" | "check-plan"] => Err(USAGE.trim_end().to_owned()),
        [dir] if !dir.starts_with('-') => page(Path::new(dir)),
        _ => Err(USAGE.trim_end().to_owned()),
    };
    match result {
        Ok(()) => ExitCode::SUCCESS,
        Err(e) => {
            eprintln!("oracle: {e}");
            ExitCode::FAILURE
        }
    }
}

fn read(file: &str) -> Result<Vec<u8>, String> {
    fs::read(file).map_err(|e| format!("{file}: {e}"))
}

fn print(bytes: &[u8]) -> Result<(), String> {
    let mut out = io::stdout().lock();
    let written = out.write_all(bytes).and_then(|()| out.flush());
    written.map_err(|e| format!("standard output: {e}"))
}

/// What document 01's program prints. A file that cannot be opened counts as empty.
fn page(dir: &Path) -> Result<(), String> {
    if !dir.is_dir() {
        return Err(format!("{}: not a folder", dir.display()));
    }
    let bundle = fs::read(dir.join("bundle.bin")).unwrap_or_default();
    let plan = fs::read(dir.join("plan.json")).unwrap_or_default();
    let answer = try_render_call(&bundle, &plan, b"main", Options::default(), PAGE)
        .map_err(|e| format!("{}: fault of the oracle: {e}", dir.display()))?;
    if answer.gave_up {
        return Err(format!("{}: gave up", dir.display()));
    }
    match (answer.number, answer.template) {
        (0, _) => print(&answer.text),
        (number, None) => print(format!("{number}\n").as_bytes()),
        (number, Some(name)) => {
            print(format!("{number} {name} {} {}\n", answer.line, answer.column).as_bytes())
        }
    }
}

/// Runs `f` over the cases of a batch that was read whole before the first.
fn over_batch(
    file: &str,
    mut f: impl FnMut(&Case<'_>) -> Result<(), String> + Send,
) -> Result<(), String> {
    let bytes = read(file)?;
    let cases = batch::read(&bytes).map_err(|e| format!("{file}: {e}"))?;
    with_big_stack(|| {
        for (i, case) in cases.iter().enumerate() {
            f(case).map_err(|e| format!("{file}: case {}: {e}", i + 1))?;
        }
        Ok(())
    })
}

fn answer_batch(file: &str) -> Result<(), String> {
    let mut out = BufWriter::new(io::stdout());
    over_batch(file, |case| {
        let page = case.page as usize;
        let answer = try_render_call(case.bundle, case.plan, case.start, case.options, page)
            .map_err(|e| format!("fault of the oracle: {e}"))?;
        writeln!(out, "{}", batch::line(&answer)).map_err(|e| format!("standard output: {e}"))
    })?;
    out.flush().map_err(|e| format!("standard output: {e}"))
}

fn self_check(file: &str) -> Result<(), String> {
    let mut counts = Counts::default();
    over_batch(file, |case| batch::self_check(case, &mut counts))?;
    let [p0, p7, p8, p9, p10] = counts.plans;
    let text = format!(
        "{} cases\n\
         {} bundles read, each written again to the same bytes\n\
         plans by the own check: {p0} of 0, {p7} of 7, {p8} of 8, {p9} of 9, {p10} of 10\n\
         {} plans compared with serde_json, no difference\n\
         ({} of them only too deep for us, {} with a number that serde_json misreads)\n",
        counts.cases, counts.bundles, counts.compared, counts.only_too_deep, counts.misread
    );
    print(text.as_bytes())
}

fn asm(file: &str, out: &str) -> Result<(), String> {
    let text = String::from_utf8(read(file)?)
        .map_err(|e| format!("{file}: byte {}: not UTF-8", e.utf8_error().valid_up_to()))?;
    let bundle = form::parse(&text).map_err(|e| format!("{file}: {e}"))?;
    fs::write(out, bundle).map_err(|e| format!("{out}: {e}"))
}

fn dump(file: &str) -> Result<(), String> {
    let text = form::print(&read(file)?).map_err(|e| format!("{file}: {e}"))?;
    print(text.as_bytes())
}
