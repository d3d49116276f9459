//! How fast the library is: plans read, and whole sheets beside the Rust core.

use std::fs;
use std::hint::black_box;

use oracle_core::compare::library::PLACES;
use oracle_core::compare::{self, sheets::beside};
use oracle_core::gen::{cases, sheets, sheets_even, Case, Order, PAGE};
use uncounted_core::call::Made;

use crate::library::{self, Buffers};
use crate::{wanted, Flags};

const SAMPLES: &str = concat!(env!("ORACLE"), "/../samples");
const NAMES: [&str; 3] = ["quotation", "cutting-list", "delivery-note"];

pub fn speed(flags: &Flags) -> Result<bool, String> {
    wanted(library::HAS_PLAN || library::HAS_RENDER, "function to measure")?;
    if library::HAS_PLAN {
        plans(flags.rounds)?;
    }
    if library::HAS_RENDER {
        whole_sheets(flags)?;
    }
    Ok(true)
}

fn sample(name: &str, file: &str) -> Result<Vec<u8>, String> {
    let file = format!("{SAMPLES}/{name}/{file}");
    fs::read(&file).map_err(|e| format!("{file}: {e}"))
}

/// The plans that are measured: those of the samples, and two of 64 KiB.
fn measured() -> Result<Vec<(String, Vec<u8>)>, String> {
    let mut plans = Vec::new();
    for name in NAMES {
        plans.push((name.to_owned(), sample(name, "plan.json")?));
    }
    for (name, indented) in [("64 KiB", false), ("64 KiB, indented", true)] {
        plans.push((name.to_owned(), sheets::large_plan(1, indented).into_bytes()));
    }
    Ok(plans)
}

fn plans(rounds: usize) -> Result<(), String> {
    println!("speed, MB/s of processor time, medians of {rounds} rounds");
    println!("{:<18} {:>7} {:>9} {:>11} {:>6}", "plan", "bytes", "library", "serde_json", "ratio");
    for (name, plan) in measured()? {
        let s = compare::speed(&library::check_plan, &plan, rounds).map_err(|e| format!("{name}: {e}"))?;
        println!(
            "{name:<18} {:>7} {:>9.1} {:>11.1} {:>6.2}",
            plan.len(),
            s.library,
            s.serde,
            s.library / s.serde
        );
    }
    println!();
    Ok(())
}

/// One row: a sheet and what it takes, in seconds.
struct Row {
    series: String,
    /// 0 for a sample.
    cabinets: usize,
    bundle_bytes: usize,
    plan_bytes: usize,
    text_bytes: usize,
    library: f64,
    rust: f64,
    /// The Rust with the bundle read and its templates registered in every call, as the library reads it.
    rust_whole: f64,
    /// Parts of the library's time, each measured by a call of its own; 0 where it has no such function.
    check_bundle: f64,
    read_plan: f64,
    clear: f64,
}

fn all_sheets() -> Result<Vec<(String, usize, Case)>, String> {
    let mut all = Vec::new();
    for name in NAMES {
        all.push((format!("sample {name}"), 0, Case::new(sample(name, "bundle.bin")?, sample(name, "plan.json")?)));
    }
    all.extend(sheets_even::all().into_iter().map(|s| (s.series.to_owned(), s.cabinets, s.case)));
    Ok(all)
}

fn whole_sheets(flags: &Flags) -> Result<(), String> {
    let mut rows = Vec::new();
    for (series, cabinets, case) in all_sheets()? {
        rows.push(row(&series, cabinets, &case, flags.rounds).map_err(|e| format!("{series} {cabinets}: {e}"))?);
    }
    let mut generated = String::new();
    for cabinets in [12, 100] {
        generated += &generated_sheets(cabinets, flags).map_err(|e| format!("profile sheets, {cabinets} cabinets: {e}"))?;
    }
    let tables = format!("{}{generated}\n{}", table(&rows, flags.rounds), parts(&rows));
    print!("{tables}");
    if let Some(file) = &flags.csv {
        fs::write(file, csv(&rows)).map_err(|e| format!("{file}: {e}"))?;
    }
    if let Some(file) = &flags.into {
        let page = fs::read_to_string(file).map_err(|e| format!("{file}: {e}"))?;
        let page = between_marks(&page, &tables).ok_or_else(|| format!("{file}: has no place for the tables"))?;
        fs::write(file, page).map_err(|e| format!("{file}: {e}"))?;
    }
    Ok(())
}

fn row(series: &str, cabinets: usize, case: &Case, rounds: usize) -> Result<Row, String> {
    let Case { mut bundle, mut plan, start, .. } = case.clone();
    let made = Made::new(&bundle).ok_or("the oracle refuses the bundle")?;
    let text = made.render("main", &plan).ok_or("the Rust refuses it")?;
    let mut buffers = Buffers::new(PAGE as usize);
    let given = buffers.render(&bundle, &plan, &start);
    if given.number != 0 || buffers.page[..given.length] != *text.as_bytes() {
        return Err("the library's page is not the Rust's".to_owned());
    }
    let (b, p) = (bundle.clone(), plan.clone());
    let mut cleared = Buffers::new(PAGE as usize);
    let mut table = vec![0; PLACES];
    let mut library = || {
        black_box(buffers.render(black_box(&b), black_box(&p), &start));
    };
    let mut rust = || {
        black_box(made.render("main", black_box(&p)));
    };
    let mut rust_whole = || {
        black_box(Made::new(black_box(&b)).map(|made| made.render("main", black_box(&p))));
    };
    let mut clear = || {
        black_box(cleared.clear(black_box(&b), black_box(&p), &start));
    };
    let mut check_bundle = || {
        black_box(library::check_bundle(black_box(&mut bundle)));
    };
    let mut read_plan = || {
        black_box(library::check_plan(black_box(&mut plan), &mut table));
    };
    let mut works: Vec<&mut dyn FnMut()> = vec![&mut library, &mut rust, &mut rust_whole, &mut clear];
    if library::HAS_BUNDLE && library::HAS_PLAN {
        works.push(&mut check_bundle);
        works.push(&mut read_plan);
    }
    let mut seconds = beside(&mut works, rounds);
    seconds.resize(6, 0.0);
    Ok(Row {
        series: series.to_owned(),
        cabinets,
        bundle_bytes: case.bundle.len(),
        plan_bytes: case.plan.len(),
        text_bytes: text.len(),
        library: seconds[0],
        rust: seconds[1],
        rust_whole: seconds[2],
        clear: seconds[3],
        check_bundle: seconds[4],
        read_plan: seconds[5],
    })
}

/// Cases of the profile sheets, quotations, cutting lists and delivery notes as they come, one after the other.
fn generated_sheets(cabinets: usize, flags: &Flags) -> Result<String, String> {
    const COUNT: usize = 100;
    let order = Order { profile: "sheets".to_owned(), seed: flags.seed, count: COUNT, max_bytes: usize::MAX, cabinets };
    let mut buffers = Buffers::new(PAGE as usize);
    let mut all = Vec::new();
    for case in cases(&order) {
        let made = Made::new(&case.bundle).ok_or("the oracle refuses a bundle")?;
        let text = made.render("main", &case.plan).ok_or("the Rust refuses a case")?;
        let given = buffers.render(&case.bundle, &case.plan, &case.start);
        if given.number != 0 || buffers.page[..given.length] != *text.as_bytes() {
            return Err("a page of the library is not the Rust's".to_owned());
        }
        all.push((made, case));
    }
    let mut library = || {
        for (_, case) in &all {
            black_box(buffers.render(black_box(&case.bundle), black_box(&case.plan), &case.start));
        }
    };
    let mut rust = || {
        for (made, case) in &all {
            black_box(made.render("main", black_box(&case.plan)));
        }
    };
    let mut rust_whole = || {
        for (_, case) in &all {
            black_box(Made::new(black_box(&case.bundle)).map(|made| made.render("main", black_box(&case.plan))));
        }
    };
    let seconds = beside(&mut [&mut library, &mut rust, &mut rust_whole], flags.rounds);
    Ok(format!(
        "{COUNT} generated cases of the profile *sheets* (seed {}) with {cabinets} cabinets each, one after the other: {:.2} times the Rust, {:.2} times where both read the bundle.\n",
        flags.seed,
        seconds[1] / seconds[0],
        seconds[2] / seconds[0],
    ))
}

fn cabinets(row: &Row) -> String {
    if row.cabinets == 0 { String::new() } else { row.cabinets.to_string() }
}

/// How a row's time has grown since the first of its series.
fn growth(rows: &[Row], row: &Row, of: fn(&Row) -> f64) -> String {
    let first = rows.iter().find(|r| r.series == row.series).filter(|_| row.cabinets > 0);
    first.map_or(String::new(), |first| format!("{:.1}", of(row) / of(first)))
}

fn table(rows: &[Row], rounds: usize) -> String {
    let mut text = format!(
        "Sheets per second of processor time, medians of {rounds} rounds in one process, all works in turn in each. Proved: `handlebars_render`\n\
         with the bundle checked, the plan read and all buffers cleared in every call, page of 65,536 bytes. Rust: the core of handlebars 6.4.4\n\
         with a registry made once; in every call serde_json reads the plan into a `Value`, which `render_with_context` takes without a copy.\n\
         Growth: time of a sheet over that of the first of its series. Last, the same job on both sides: the ratio where the Rust, too, reads\n\
         the bundle in every call and registers its templates (by the oracle's reader; handlebars itself parses templates from text).\n\n\
         | sheet | cabinets | plan, bytes | text, bytes | proved, sheets/s | Rust, sheets/s | ratio | proved, growth | Rust, growth | ratio, bundle read by both |\n\
         |---|---|---|---|---|---|---|---|---|---|\n"
    );
    for r in rows {
        text += &format!(
            "| {} | {} | {} | {} | {:.0} | {:.0} | {:.2} | {} | {} | {:.2} |\n",
            r.series,
            cabinets(r),
            r.plan_bytes,
            r.text_bytes,
            1.0 / r.library,
            1.0 / r.rust,
            r.rust / r.library,
            growth(rows, r, |r| r.library),
            growth(rows, r, |r| r.rust),
            r.rust_whole / r.library,
        );
    }
    text.push('\n');
    let samples: Vec<&Row> = rows.iter().filter(|r| r.cabinets == 0).collect();
    for (name, some) in [("All sheets of the table", rows.iter().collect()), ("The three samples", samples)] {
        let sum = |of: fn(&Row) -> f64| some.iter().map(|r| of(r)).sum::<f64>();
        text += &format!(
            "{name} one after the other: {:.2} times the Rust, {:.2} times where both read the bundle.\n",
            sum(|r| r.rust) / sum(|r| r.library),
            sum(|r| r.rust_whole) / sum(|r| r.library),
        );
    }
    text
}

/// Where the library's time goes.
fn parts(rows: &[Row]) -> String {
    let mut text = "Where the proved renderer's time goes, in microseconds: `handlebars_check_bundle` and `handlebars_check_plan` alone, a call that is\n\
                    refused by check 1 and so only clears its buffers once, and what is left of the whole call.\n\n\
                    | sheet | cabinets | bundle, bytes | whole call | bundle checked | plan read | cleared | the rest |\n\
                    |---|---|---|---|---|---|---|---|\n"
        .to_owned();
    let us = |seconds: f64| format!("{:.1}", seconds * 1e6);
    for r in rows {
        let rest = r.library - r.check_bundle - r.read_plan - r.clear;
        text += &format!(
            "| {} | {} | {} | {} | {} | {} | {} | {} |\n",
            r.series,
            cabinets(r),
            r.bundle_bytes,
            us(r.library),
            us(r.check_bundle),
            us(r.read_plan),
            us(r.clear),
            us(rest),
        );
    }
    text
}

fn csv(rows: &[Row]) -> String {
    let mut text = "series,cabinets,bundle_bytes,plan_bytes,text_bytes,library_us,rust_us,rust_whole_us,bundle_us,plan_us,clear_us\n".to_owned();
    for r in rows {
        let times = [r.library, r.rust, r.rust_whole, r.check_bundle, r.read_plan, r.clear].map(|s| format!("{:.3}", s * 1e6));
        text += &format!(
            "{},{},{},{},{},{}\n",
            r.series,
            r.cabinets,
            r.bundle_bytes,
            r.plan_bytes,
            r.text_bytes,
            times.join(",")
        );
    }
    text
}

/// The page with `tables` in the place of what stands between its two marks.
fn between_marks(page: &str, tables: &str) -> Option<String> {
    let (before, rest) = page.split_once("<!-- tables -->\n")?;
    let (_, after) = rest.split_once("<!-- end of tables -->")?;
    Some(format!("{before}<!-- tables -->\n{tables}<!-- end of tables -->{after}"))
}
