//! Makes the submission's 18 response files anew, 100 tests each, through the unit's calls in their edition, and compares the SHA-256 of each.
//!
//! `response_files [--dir DIR] [NAME ...]`: all files, or those named (as `128-1`); with a directory they are also written there.

use compare::independent::raccoon::{Edition, Params};
use compare::known::digest;
use compare::response::{digests, file};
use std::process::ExitCode;

/// The files that were asked for, by name; none named is all.
struct Asked {
    names: Vec<String>,
    dir: Option<String>,
}

fn asked() -> Result<Asked, String> {
    let mut names: Vec<String> = std::env::args().skip(1).collect();
    let mut dir = None;
    if let Some(at) = names.iter().position(|name| name == "--dir") {
        names.remove(at);
        if at == names.len() {
            return Err("--dir needs a directory".into());
        }
        dir = Some(names.remove(at));
    }
    let known: Vec<String> = digests().iter().map(|(set, d, _)| format!("{set}-{d}")).collect();
    match names.iter().find(|name| !known.contains(name)) {
        Some(name) => Err(format!("no response file {name}")),
        None => Ok(Asked { names, dir }),
    }
}

/// Makes one file and says what came of it: is it alike?
fn make(set: usize, d: usize, expected: &str, dir: Option<&str>) -> Result<bool, String> {
    let p = Params::new(set, d, Edition::Kat).ok_or("no such parameters")?;
    let text = match file(&p, 100) {
        Ok(text) => text,
        Err(answer) => {
            println!("{set}-{d}: {answer}");
            return Ok(false);
        }
    };
    let found = digest(text.as_bytes());
    println!("{set}-{d}: {found} {}", if found == expected { "alike" } else { "DIFFERENT" });
    if let Some(dir) = dir {
        std::fs::write(format!("{dir}/Raccoon-{set}-{d}.rsp"), text).map_err(|error| format!("{dir}: {error}"))?;
    }
    Ok(found == expected)
}

fn run() -> Result<bool, String> {
    let Asked { names, dir } = asked()?;
    let (mut alike, mut made) = (0, 0);
    for (set, d, expected) in digests() {
        if names.is_empty() || names.contains(&format!("{set}-{d}")) {
            made += 1;
            alike += usize::from(make(set, d, expected, dir.as_deref())?);
        }
    }
    println!("{alike} of {made} response files alike");
    Ok(alike == made)
}

fn main() -> ExitCode {
    match run() {
        Ok(true) => ExitCode::SUCCESS,
        Ok(false) => ExitCode::FAILURE,
        Err(message) => {
            eprintln!("{message}");
            ExitCode::FAILURE
        }
    }
}
