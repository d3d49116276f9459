//! How much stack the library takes: each size has a process of its own, since one that is too small ends it.

use std::process::{Command, ExitStatus};
use std::thread;

use oracle_core::compare::library::PLACES;
use oracle_core::gen::rng::Rng;
use oracle_core::gen::{deep, limits, Case};

use crate::library::{self, Buffers};
use crate::wanted;

type Verdict = Result<bool, String>;

/// The stack that the deepest drawings may take, and the steps in which less is tried.
const MOST: usize = 4 << 10;
const STEP: usize = 16;

pub fn stack() -> Verdict {
    let checks = library::HAS_BUNDLE || library::HAS_PLAN;
    wanted(checks || library::HAS_RENDER, "function to call")?;
    let good = !checks || of_checks()?;
    let drawn = !library::HAS_RENDER || of_drawings()?;
    Ok(good && drawn)
}

/// What this program says as `stack-of` or `draw-of` with these arguments.
fn child(args: &[String]) -> Result<(ExitStatus, String), String> {
    let me = std::env::current_exe().map_err(|e| format!("the driver: {e}"))?;
    let child = Command::new(&me).args(args).output().map_err(|e| format!("the driver: {e}"))?;
    Ok((child.status, String::from_utf8_lossy(&child.stdout).trim().to_owned()))
}

fn on_thread<T: Send + 'static>(kib: usize, f: impl FnOnce() -> T + Send + 'static) -> Result<T, String> {
    let thread = thread::Builder::new().stack_size(kib << 10).spawn(f);
    let thread = thread.map_err(|e| format!("a thread: {e}"))?;
    thread.join().map_err(|_| "the thread panicked".to_owned())
}

fn of_checks() -> Verdict {
    for kib in [256, 128, 64, 32, 16] {
        let (status, said) = child(&["stack-of".to_owned(), kib.to_string()])?;
        if !status.success() {
            let why = if said.is_empty() { "it does not do" } else { &said };
            println!("stack of {kib} KiB: {why} ({status})");
            return Ok(kib < 256 && said.is_empty());
        }
        println!("stack of {kib} KiB: {said}");
    }
    Ok(true)
}

/// The deepest bundles and plans, and those one deeper, checked on a thread with so much stack.
pub fn stack_of(kib: usize) -> Verdict {
    let mut rng = Rng::new(1);
    let made: Vec<[limits::Made; 3]> = (0..200).map(|i| limits::deepest(&mut rng, i % 2 == 1)).collect();
    let mut table = vec![0; PLACES];
    let mut calls: Vec<(bool, Vec<u8>, u32)> = Vec::new();
    let deep = made.len();
    for [bodies, parameters, plan] in made {
        if library::HAS_BUNDLE {
            calls.push((true, bodies.0.bundle, bodies.1));
            calls.push((true, parameters.0.bundle, parameters.1));
        }
        if library::HAS_PLAN {
            calls.push((false, plan.0.plan, plan.1));
        }
    }
    let good = on_thread(kib, move || {
        calls.iter_mut().all(|(bundle, bytes, wanted)| {
            let got = if *bundle {
                library::check_bundle(bytes)
            } else {
                library::check_plan(bytes, &mut table)
            };
            got == *wanted
        })
    })?;
    if !good {
        println!("a wrong answer");
        return Ok(false);
    }
    let bundles = usize::from(library::HAS_BUNDLE) * 2 * deep;
    let plans = usize::from(library::HAS_PLAN) * deep;
    println!("right on {bundles} bundles and {plans} plans, at the limit of depth and one past it");
    Ok(true)
}

/// The smallest stack with which each of the deepest drawings is right.
fn of_drawings() -> Verdict {
    println!("deepest drawings, the smallest stack of a thread that does, in steps of {STEP} KiB:");
    let mut most = 0;
    let mut good = true;
    for (i, (name, _)) in deep::all().iter().enumerate() {
        match smallest(i)? {
            Ok(kib) => {
                println!("  {name}: {kib} KiB");
                most = most.max(kib);
            }
            Err(why) => {
                println!("  {name}: {why} with {MOST} KiB");
                good = false;
            }
        }
    }
    println!("the most: {most} KiB, of {MOST} that are allowed");
    Ok(good)
}

/// In KiB, or why the whole stack does not do.
fn smallest(drawing: usize) -> Result<Result<usize, String>, String> {
    let does = |kib: usize| {
        child(&["draw-of".to_owned(), drawing.to_string(), kib.to_string()]).map(|(s, said)| (s.success(), said))
    };
    let (well, said) = does(MOST)?;
    if !well {
        return Ok(Err(if said.is_empty() { "it does not do".to_owned() } else { said }));
    }
    // Steps that do not do, and steps that do.
    let (mut low, mut high) = (0, MOST / STEP);
    while high - low > 1 {
        let middle = (low + high) / 2;
        let (well, _) = does(middle * STEP)?;
        *(if well { &mut high } else { &mut low }) = middle;
    }
    Ok(Ok(high * STEP))
}

/// One of the deepest drawings, on a thread with so much stack.
pub fn draw_of(drawing: usize, kib: usize) -> Verdict {
    let all = deep::all();
    let (_, case) = all.get(drawing).ok_or_else(|| format!("draw-of: there are only {}", all.len()))?;
    let answer = case.answer().map_err(|e| format!("fault of the oracle: {e}"))?;
    let Case { bundle, plan, start, page, .. } = case.clone();
    let mut buffers = Buffers::new(page as usize);
    let (given, page) = on_thread(kib, move || {
        let given = buffers.render(&bundle, &plan, &start);
        (given, buffers.page)
    })?;
    let good = given.number == 0 && given.length == answer.text.len() && page.starts_with(&answer.text);
    println!("{}", if good { "right" } else { "a wrong answer" });
    Ok(good)
}
