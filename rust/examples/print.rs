//! Prints a sample sheet: cargo run --example print [FOLDER], a folder with bundle.bin and plan.json (samples/cutting-list).

use std::path::PathBuf;
use std::process::ExitCode;
use std::{env, fs};

use zerwydd::{render, Options};

fn print(folder: PathBuf) -> Result<(), Box<dyn std::error::Error>> {
    let read = |name: &str| {
        let file = folder.join(name);
        fs::read(&file).map_err(|e| format!("{}: {e}", file.display()))
    };
    print!("{}", render(&read("bundle.bin")?, &read("plan.json")?, "main", Options::default())?);
    Ok(())
}

fn main() -> ExitCode {
    let sample = concat!(env!("CARGO_MANIFEST_DIR"), "/../samples/cutting-list");
    let folder = env::args_os().nth(1).unwrap_or_else(|| sample.into());
    match print(folder.into()) {
        Ok(()) => ExitCode::SUCCESS,
        Err(e) => {
            eprintln!("print: {e}");
            ExitCode::FAILURE
        }
    }
}
