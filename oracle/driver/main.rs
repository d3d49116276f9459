//! The driver of ../compare: the C library's functions, held to the oracle.
//!
//! ../compare sets `check_bundle`, `check_plan` and `render` for the functions that the library has.

#![allow(unexpected_cfgs)]

mod library;
mod speed;
mod stack;

use std::fs;
use std::process::ExitCode;
use std::time::Instant;

use oracle_core::batch;
use oracle_core::call::with_big_stack;
use oracle_core::compare::render::{self, Lending, Rendered};
use oracle_core::compare::{self, Report};
use oracle_core::gen::{cases, Case, Order, PROFILES};

const USAGE: &str = "\
usage: oracle/compare [--lib FILE] [--valgrind] [COMMAND] [FLAGS]      without a command: all five
  check_bundle   handlebars_check_bundle on generated bundles
  check_plan     handlebars_check_plan on generated plans
  render         handlebars_render and handlebars_template_name on generated cases
  speed          MB/s of handlebars_check_plan, beside serde_json; sheets/s of handlebars_render, beside the Rust
  stack          checks with 256 KiB of stack, the deepest drawings with 4 MiB; then with less
flags: --profiles A,B or A:N,B:M (check_bundle: rich,limits,damaged,sheets; check_plan: json too; render: marks,nest too)
       --seed S (1)   --count N, for each profile without its own (10000)   --rounds R, of speed (11)
       --save DIR, for the cases that differ (a folder `handlebars-compare` for temporary files)
       of render: --batch FILE, for the cases of a batch   --exact, buffers without guards that were never written
       of speed: --csv FILE, for the sheets   --into FILE, a page between whose marks the tables go
--valgrind runs render --exact under valgrind, on 5,000 cases unless --profiles is given";

/// A profile, and its own count if it has one.
type Profile = (String, Option<usize>);

struct Flags {
    profiles: Option<Vec<Profile>>,
    seed: u64,
    count: usize,
    rounds: usize,
    save: std::path::PathBuf,
    batch: Option<String>,
    lending: Lending,
    csv: Option<String>,
    into: Option<String>,
}

impl Flags {
    fn read(args: &[String]) -> Result<Flags, String> {
        let mut flags = Flags {
            profiles: None,
            seed: 1,
            count: 10_000,
            rounds: 11,
            save: std::env::temp_dir().join("handlebars-compare"),
            batch: None,
            lending: Lending::Guarded,
            csv: None,
            into: None,
        };
        let mut args = args.iter();
        while let Some(flag) = args.next() {
            let value = || format!("{flag}: its value is missing");
            match flag.as_str() {
                "--profiles" => {
                    flags.profiles = Some(profiles(args.next().ok_or_else(value)?)?);
                }
                "--seed" => flags.seed = number(flag, args.next().ok_or_else(value)?)?,
                "--count" => flags.count = number(flag, args.next().ok_or_else(value)?)? as usize,
                "--rounds" => flags.rounds = number(flag, args.next().ok_or_else(value)?)? as usize,
                "--save" => flags.save = args.next().ok_or_else(value)?.into(),
                "--batch" => flags.batch = Some(args.next().ok_or_else(value)?.clone()),
                "--exact" => flags.lending = Lending::Exact,
                "--csv" => flags.csv = Some(args.next().ok_or_else(value)?.clone()),
                "--into" => flags.into = Some(args.next().ok_or_else(value)?.clone()),
                _ => return Err(format!("{flag}: unknown\n{USAGE}")),
            }
        }
        if flags.rounds == 0 || flags.count == 0 {
            return Err("--count, --rounds: at least 1 is wanted".to_owned());
        }
        Ok(flags)
    }

    /// What to generate: the profiles asked for, or these.
    fn orders(&self, default: &[&str]) -> Vec<Order> {
        let all = default.iter().map(|p| ((*p).to_owned(), None)).collect();
        let order = |(profile, count): Profile| Order {
            profile,
            seed: self.seed,
            count: count.unwrap_or(self.count),
            max_bytes: usize::MAX,
            cabinets: 12,
        };
        self.profiles.clone().unwrap_or(all).into_iter().map(order).collect()
    }
}

fn number(flag: &str, value: &str) -> Result<u64, String> {
    value.parse().map_err(|_| format!("{flag}: {value} is no number"))
}

fn profiles(value: &str) -> Result<Vec<Profile>, String> {
    let one = |part: &str| {
        let (name, count) = match part.split_once(':') {
            Some((name, count)) => (name, Some(number("--profiles", count)? as usize)),
            None => (part, None),
        };
        if !PROFILES.contains(&name) {
            return Err(format!("--profiles: {name} is none of {}", PROFILES.join(", ")));
        }
        Ok((name.to_owned(), count))
    };
    value.split(',').map(one).collect()
}

fn main() -> ExitCode {
    let args: Vec<String> = std::env::args().skip(1).collect();
    let (command, rest) = match args.split_first() {
        Some((first, rest)) if !first.starts_with('-') => (first.as_str(), rest),
        _ => ("all", &args[..]),
    };
    let result = match (command, rest) {
        ("all", [flag]) if flag == "--help" => {
            println!("{USAGE}");
            Ok(true)
        }
        ("stack-of", [kib]) => number("stack-of", kib).and_then(|kib| stack::stack_of(kib as usize)),
        ("draw-of", [drawing, kib]) => draw_of(drawing, kib),
        _ => Flags::read(rest).and_then(|flags| run(command, &flags)),
    };
    match result {
        Ok(true) => ExitCode::SUCCESS,
        Ok(false) => ExitCode::FAILURE,
        Err(e) => {
            eprintln!("compare: {e}");
            ExitCode::FAILURE
        }
    }
}

fn draw_of(drawing: &str, kib: &str) -> Result<bool, String> {
    stack::draw_of(number("draw-of", drawing)? as usize, number("draw-of", kib)? as usize)
}

/// Whether nothing differs.
fn run(command: &str, flags: &Flags) -> Result<bool, String> {
    match command {
        "check_bundle" => check_bundle(flags),
        "check_plan" => check_plan(flags),
        "render" => render(flags),
        "speed" => speed::speed(flags),
        "stack" => stack::stack(),
        "all" => {
            let compared = [check_bundle(flags)?, check_plan(flags)?, render(flags)?];
            let measured = [speed::speed(flags)?, stack::stack()?];
            Ok(compared.iter().chain(&measured).all(|good| *good))
        }
        _ => Err(format!("{command}: unknown\n{USAGE}")),
    }
}

fn wanted(has: bool, name: &str) -> Result<(), String> {
    if has {
        Ok(())
    } else {
        Err(format!("the library has no {name}"))
    }
}

fn check_bundle(flags: &Flags) -> Result<bool, String> {
    wanted(library::HAS_BUNDLE, "handlebars_check_bundle")?;
    let orders = flags.orders(&["rich", "limits", "damaged", "sheets"]);
    over("check_bundle", "bin", &orders, flags, |cases| {
        compare::bundles(&library::check_bundle, cases.map(|c| c.bundle))
    })
}

fn check_plan(flags: &Flags) -> Result<bool, String> {
    wanted(library::HAS_PLAN, "handlebars_check_plan")?;
    let orders = flags.orders(&["json", "rich", "limits", "damaged", "sheets"]);
    over("check_plan", "json", &orders, flags, |cases| {
        compare::plans(&library::check_plan, cases.map(|c| c.plan))
    })
}

fn counts(report: &Report) -> String {
    let numbers: Vec<String> = report.numbers.iter().map(|(n, k)| format!("{n}: {k}")).collect();
    numbers.join(", ")
}

/// Runs `compare` over the cases of each profile, prints what it met and saves the first cases that differ.
fn over(
    what: &str,
    ending: &str,
    orders: &[Order],
    flags: &Flags,
    compare: impl Fn(&mut dyn Iterator<Item = Case>) -> Report,
) -> Result<bool, String> {
    let mut good = true;
    for order in orders {
        let profile = &order.profile;
        let begin = Instant::now();
        let report = compare(&mut cases(order));
        let serde = if ending == "json" {
            format!(", {} also by serde_json", report.serde)
        } else {
            String::new()
        };
        println!(
            "{what} {profile}, seed {}: {} cases ({}){serde}, {:.1} s: {} differ",
            flags.seed,
            report.cases,
            counts(&report),
            begin.elapsed().as_secs_f64(),
            report.differ
        );
        save(what, profile, ending, flags, &report)?;
        good &= report.differ == 0;
    }
    Ok(good)
}

/// The whole call on the cases of each profile, or of a batch.
fn render(flags: &Flags) -> Result<bool, String> {
    wanted(library::HAS_RENDER, "handlebars_render and handlebars_template_name")?;
    if let Some(file) = &flags.batch {
        let bytes = fs::read(file).map_err(|e| format!("{file}: {e}"))?;
        let all = batch::read(&bytes).map_err(|e| format!("{file}: {e}"))?;
        return rendered("batch", flags, &mut all.iter().map(Case::of_batch));
    }
    let mut good = true;
    for order in flags.orders(&["rich", "marks", "nest", "limits", "damaged", "json", "sheets"]) {
        good &= rendered(&order.profile, flags, &mut cases(&order))?;
    }
    Ok(good)
}

fn rendered(profile: &str, flags: &Flags, cases: &mut (dyn Iterator<Item = Case> + Send)) -> Result<bool, String> {
    let begin = Instant::now();
    // Both the oracle and the library need a large stack.
    let met = with_big_stack(|| render::cases(&library::Linked, cases, flags.lending))?;
    let Rendered { report, calls, gave_up, library, slowest } = &met;
    println!(
        "render {profile}, seed {}: {} cases, {calls} calls ({}), {gave_up} left out, {:.1} s, of them {library:.1} in the library, \
         {:.4} at most (case {}): {} differ",
        flags.seed,
        report.cases,
        counts(report),
        begin.elapsed().as_secs_f64(),
        slowest.0,
        slowest.1,
        report.differ
    );
    save("render", profile, "batch", flags, report)?;
    Ok(report.differ == 0)
}

fn save(what: &str, profile: &str, ending: &str, flags: &Flags, report: &Report) -> Result<(), String> {
    let folder = &flags.save;
    if !report.first.is_empty() {
        fs::create_dir_all(folder).map_err(|e| format!("{}: {e}", folder.display()))?;
    }
    for d in &report.first {
        let file = folder.join(format!("{what}-{profile}-{}-{}.{ending}", flags.seed, d.case));
        fs::write(&file, &d.bytes).map_err(|e| format!("{}: {e}", file.display()))?;
        println!("  case {}: {}: {}", d.case, d.what, file.display());
    }
    Ok(())
}
