//! The generator's program; `gen --help` lists its commands.

use std::collections::BTreeMap;
use std::fs;
use std::process::ExitCode;

use oracle_core::gen::vectors::{self, Vector};
use oracle_core::gen::{cases, sheets, Order, PROFILES, SMALL};

const USAGE: &str = "\
usage: gen PROFILE --seed S --count N [--max-bytes B] [--small] [--cabinets C] -o FILE
           writes a batch; PROFILE is rich, marks, nest, limits, damaged, json, sheets or calls
       gen plan --seed S [--indented] -o FILE
           writes a plan of rooms and cabinets, 65,536 bytes long, for measuring
       gen vectors -o DIR
           writes the fixed list of cases with the oracle's answers, as DIR/cases-00.bin and so on
       gen replay FILE...
           answers the cases of these files again and tells what differs
       gen bounds [--seed S] [--count N]
           checks that each limit lies where the paper says
";

type Outcome = Result<(), String>;

fn main() -> ExitCode {
    let args: Vec<String> = std::env::args().skip(1).collect();
    let result = match args.first().map(String::as_str) {
        Some("--help") if args.len() == 1 => {
            print!("{USAGE}");
            Ok(())
        }
        Some("plan") => {
            Flags::read(&args[1..], &["--seed", "--indented", "-o"]).and_then(|f| large_plan(&f))
        }
        Some("vectors") => Flags::read(&args[1..], &["-o"]).and_then(|f| make_vectors(&f)),
        Some("replay") if args.len() >= 2 => args[1..].iter().try_for_each(|file| replay(file)),
        Some("bounds") => Flags::read(&args[1..], &["--seed", "--count"]).and_then(|f| bounds(&f)),
        Some(profile) if PROFILES.contains(&profile) => batch(profile, &args[1..]),
        _ => Err(USAGE.trim_end().to_owned()),
    };
    match result {
        Ok(()) => ExitCode::SUCCESS,
        Err(e) => {
            eprintln!("gen: {e}");
            ExitCode::FAILURE
        }
    }
}

/// The flags of a command with their values; `--small` and `--indented` have none.
struct Flags(BTreeMap<String, String>);

impl Flags {
    fn read(args: &[String], known: &[&str]) -> Result<Flags, String> {
        let mut found = BTreeMap::new();
        let mut args = args.iter();
        while let Some(flag) = args.next() {
            if !known.contains(&flag.as_str()) {
                return Err(format!("{flag}: unknown here\n{}", USAGE.trim_end()));
            }
            let alone = ["--small", "--indented"].contains(&flag.as_str());
            let value = if alone { Some(String::new()) } else { args.next().cloned() };
            let value = value.ok_or_else(|| format!("{flag}: its value is missing"))?;
            if found.insert(flag.clone(), value).is_some() {
                return Err(format!("{flag}: given twice"));
            }
        }
        Ok(Flags(found))
    }

    fn number(&self, flag: &str, default: u64) -> Result<u64, String> {
        match self.0.get(flag) {
            Some(v) => v.parse().map_err(|_| format!("{flag}: {v} is no number")),
            None => Ok(default),
        }
    }

    fn needed(&self, flag: &str) -> Result<&String, String> {
        self.0.get(flag).ok_or_else(|| format!("{flag} is missing\n{}", USAGE.trim_end()))
    }
}

fn write(file: &str, bytes: &[u8]) -> Outcome {
    fs::write(file, bytes).map_err(|e| format!("{file}: {e}"))
}

fn batch(profile: &str, args: &[String]) -> Outcome {
    let flags =
        Flags::read(args, &["--seed", "--count", "--max-bytes", "--small", "--cabinets", "-o"])?;
    flags.needed("--seed")?;
    flags.needed("--count")?;
    let file = flags.needed("-o")?;
    let most = if flags.0.contains_key("--small") { SMALL } else { usize::MAX };
    let order = Order {
        profile: profile.to_owned(),
        seed: flags.number("--seed", 0)?,
        count: flags.number("--count", 0)? as usize,
        max_bytes: flags.number("--max-bytes", most as u64)? as usize,
        cabinets: flags.number("--cabinets", 12)? as usize,
    };
    if profile != "sheets" && flags.0.contains_key("--cabinets") {
        return Err("--cabinets: only of sheets".to_owned());
    }
    if order.cabinets > sheets::MOST_CABINETS {
        return Err(format!("--cabinets: at most {} fit a plan", sheets::MOST_CABINETS));
    }
    let mut out = Vec::new();
    let mut made = 0;
    for case in cases(&order) {
        case.write(&mut out);
        made += 1;
    }
    if made < order.count {
        return Err(format!(
            "only {made} of {} cases are small enough; nothing is written",
            order.count
        ));
    }
    write(file, &out)
}

fn large_plan(flags: &Flags) -> Outcome {
    flags.needed("--seed")?;
    let file = flags.needed("-o")?;
    let seed = flags.number("--seed", 0)?;
    write(file, sheets::large_plan(seed, flags.0.contains_key("--indented")).as_bytes())
}

fn make_vectors(flags: &Flags) -> Outcome {
    let folder = flags.needed("-o")?;
    let parts = vectors::make(&vectors::PARTS)?;
    let all: Vec<&Vector> = parts.iter().flat_map(|(_, v)| v).collect();
    for (k, file) in vectors::write(&all).iter().enumerate() {
        write(&format!("{folder}/cases-{k:02}.bin"), file)?;
    }
    print_longest(&all);
    println!("\n| profile | seed | first case | cases |\n|---|---|---|---|");
    let mut first = 1;
    for (p, v) in &parts {
        println!("| {} | {} | {first} | {} |", p.profile, p.seed, v.len());
        first += v.len();
    }
    print_numbers(&all);
    println!("\n{} cases", all.len());
    Ok(())
}

/// What a reader's buffers must hold.
fn print_longest(all: &[&Vector]) {
    let longest = |of: fn(&Vector) -> usize| all.iter().map(|v| of(v)).max().unwrap_or(0);
    println!("| starting name | bundle | plan | template name | text |\n|---|---|---|---|---|");
    println!(
        "| {} | {} | {} | {} | {} |",
        longest(|v| v.case.start.len()),
        longest(|v| v.case.bundle.len()),
        longest(|v| v.case.plan.len()),
        longest(|v| v.template.len()),
        longest(|v| v.text.len()),
    );
}

fn print_numbers(all: &[&Vector]) {
    let mut often: BTreeMap<u8, usize> = BTreeMap::new();
    for v in all {
        *often.entry(v.number).or_default() += 1;
    }
    println!("\n| number | cases |\n|---|---|");
    for (n, count) in often {
        println!("| {n} | {count} |");
    }
}

fn replay(file: &str) -> Outcome {
    let bytes = fs::read(file).map_err(|e| format!("{file}: {e}"))?;
    let all = vectors::read(&bytes).map_err(|e| format!("{file}: {e}"))?;
    report(&vectors::replay(&all), &format!("{} cases of {file}", all.len()))
}

fn bounds(flags: &Flags) -> Outcome {
    let turns = flags.number("--count", 20)?;
    report(
        &vectors::bounds(flags.number("--seed", 1)?, turns),
        &format!("{turns} turns at each limit and past it"),
    )
}

/// Prints at most 20 of the lines.
fn report(lines: &[String], what: &str) -> Outcome {
    for line in lines.iter().take(20) {
        println!("{line}");
    }
    if lines.is_empty() {
        println!("{what}: no difference");
        Ok(())
    } else {
        Err(format!("{what}: {} differ", lines.len()))
    }
}
