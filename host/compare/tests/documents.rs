//! The documents name what is there: each file, each must-fail edit and each name in backquotes of docs/TRACE.md stands in the sources,
//! docs/MUST_FAIL.md lists each must-fail edit, the theorems that docs/STATEMENT.md quotes are the theorems' own text, README lists the
//! definitions that contracts reach, links lead somewhere, and the proved code's lines can be read.

use std::collections::BTreeSet;
use std::fs;
use std::path::{Path, PathBuf};

fn root() -> PathBuf {
    Path::new(env!("CARGO_MANIFEST_DIR")).join("../..")
}

fn text(path: &str) -> String {
    fs::read_to_string(root().join(path)).unwrap_or_else(|error| panic!("{path}: {error}"))
}

/// All files below a folder, as paths from the root, but for what rt made in a crate's out/.
fn files(folder: &str, found: &mut Vec<String>) {
    for entry in fs::read_dir(root().join(folder)).unwrap() {
        let entry = entry.unwrap();
        let path = format!("{folder}/{}", entry.file_name().to_str().unwrap());
        if entry.file_type().unwrap().is_dir() {
            let is_made =
                path.strip_prefix("crates/").and_then(|path| path.split_once('/')).is_some_and(|(_, rest)| rest == "out");
            if !is_made {
                files(&path, found);
            }
        } else {
            found.push(path);
        }
    }
}

/// What stands in backquotes.
fn quoted(text: &str) -> BTreeSet<&str> {
    text.lines().flat_map(|line| line.split('`').skip(1).step_by(2)).collect()
}

fn is_name_letter(c: char) -> bool {
    c.is_alphanumeric() || c == '_' || c == '-' || c == '\''
}

/// The words of all sources, and the names of their folders and files without the ending.
fn words(sources: &[String]) -> BTreeSet<String> {
    let mut words = BTreeSet::new();
    for path in sources {
        words.extend(path.split('/').map(|part| part.split('.').next().unwrap().to_string()));
        let Ok(source) = fs::read_to_string(root().join(path)) else { continue };
        words.extend(source.split(|c| !is_name_letter(c)).map(str::to_string));
    }
    words
}

#[test]
fn trace_names_what_is_there() {
    let mut sources = vec!["crates.txt".to_string(), ".ci/run".to_string(), "test".to_string(), "run".to_string()];
    for folder in ["crates", "host", "include", "examples"] {
        files(folder, &mut sources);
    }
    let words = words(&sources);
    let trace = text("docs/TRACE.md");
    let mut names = 0;
    for quote in quoted(&trace) {
        for name in quote.split(|c| !is_name_letter(c)).filter(|name| name.chars().any(char::is_alphabetic)) {
            names += 1;
            // `output-*` stands for all names that begin so
            let there = if name.ends_with('-') { words.iter().any(|word| word.starts_with(name)) } else { words.contains(name) };
            assert!(there, "`{quote}`: there is no {name}");
        }
        if quote.contains('/') && quote.contains('.') {
            assert!(sources.iter().any(|path| path.ends_with(quote.trim_start_matches("./"))), "there is no file {quote}");
        }
    }
    assert!(names > 400, "only {names} names were found");
}

#[test]
fn statement_quotes_the_theorems() {
    let statement = text("docs/STATEMENT.md");
    let theorems = ["Demand3", "Dry", "Undigested"].map(|name| text(&format!("crates/theorems/proofs/{name}.antt"))).concat();
    let quotes: Vec<&str> = statement.lines().filter_map(|line| line.strip_prefix("    ")).collect();
    assert!(quotes.len() >= 5, "the theorems are not quoted");
    for quote in quotes {
        assert!(theorems.lines().any(|line| line == quote), "not in the theorems: {quote}");
    }
}

/// The number behind a name in what the check printed of a crate, 0 where it is not printed.
fn printed(log: &str, name: &str) -> usize {
    // the last such line: those before it are of the libraries below that the check built
    let line = log.lines().rfind(|line| line.starts_with("logic=proved ")).expect("a crate that is proved");
    line.split(' ').find_map(|word| word.strip_prefix(name)?.strip_prefix('=')).map_or(0, |number| number.parse().unwrap())
}

/// The README's functions and axioms are those that `rt check` printed.
#[test]
fn functions_and_axioms() {
    let (readme, crates) = (text("README.md"), text("crates.txt"));
    // `NAME: ...`, of a static library `NAME staticlib: ...`
    let names = crates.lines().filter_map(|line| line.split_once(':')?.0.split(' ').next());
    for name in names.filter(|name| !name.starts_with('#')) {
        let log = text(&format!("target/log/{name}.say"));
        let row =
            readme.lines().find_map(|line| line.strip_prefix(&format!("| {name} | "))).unwrap_or_else(|| panic!("no row {name}"));
        let (functions, axioms) = row.split_once(" | ").unwrap();
        assert_eq!(functions.parse(), Ok(printed(&log, "functions")), "{name}");
        let axioms = axioms.split([':', ' ']).next().unwrap().replace("none", "0");
        assert_eq!(axioms.parse(), Ok(printed(&log, "axioms")), "{name}");
    }
}

/// docs/MUST_FAIL.md has a row for each must-fail edit, and no other.
#[test]
fn must_fail_edits_are_listed() {
    let mut sources = Vec::new();
    files("crates", &mut sources);
    let edits: BTreeSet<String> = sources
        .iter()
        .filter_map(|path| path.strip_prefix("crates/")?.strip_suffix(".edit")?.split_once("/must-fail/"))
        .map(|(name, edit)| format!("{name} {edit}"))
        .collect();
    let list = text("docs/MUST_FAIL.md");
    let rows: Vec<String> = list
        .lines()
        .filter_map(|line| line.strip_prefix("| ")?.split_once(" | `"))
        .map(|(name, rest)| format!("{name} {}", rest.split('`').next().unwrap()))
        .collect();
    assert_eq!(rows.len(), edits.len());
    assert_eq!(rows.into_iter().collect::<BTreeSet<_>>(), edits);
}

/// The heading that a link names behind `#`: in small letters, with hyphens for spaces.
fn has_heading(text: &str, anchor: &str) -> bool {
    let name = |line: &str| line.trim_start_matches('#').trim().to_lowercase().replace(' ', "-");
    text.lines().any(|line| line.starts_with('#') && name(line) == anchor)
}

#[test]
fn links_lead_somewhere() {
    let mut links = 0;
    for document in [
        "README.md",
        "docs/CHANGES.md",
        "docs/DECISIONS.md",
        "docs/GUIDE.md",
        "docs/MUST_FAIL.md",
        "docs/PERFORMANCE.md",
        "docs/PORT.md",
        "docs/STATEMENT.md",
        "docs/TRACE.md",
    ] {
        let text = text(document);
        for link in text.split("](").skip(1).filter_map(|rest| rest.split(')').next()) {
            links += 1;
            let (path, anchor) = link.split_once('#').unwrap_or((link, ""));
            let target = root().join(document).parent().unwrap().join(path);
            let target = if path.is_empty() { root().join(document) } else { target };
            assert!(target.exists(), "{document}: {link} leads nowhere");
            assert!(
                anchor.is_empty() || has_heading(&fs::read_to_string(target).unwrap(), anchor),
                "{document}: no heading for {link}"
            );
        }
    }
    assert!(links > 10, "only {links} links were found");
}

/// The modules of specs/ that a source uses, as crate and name.
fn specs_used(source: &str) -> BTreeSet<(String, String)> {
    let uses =
        source.lines().filter_map(|line| line.trim_start_matches("ghost ").split_once("use Rattle.")).map(|(_, path)| path);
    let module = |path: &str| {
        let (name, rest) = path.split_once(".specs.")?;
        let module = rest.split('.').next()?;
        Some((name.to_string(), module.to_string()))
    };
    uses.filter_map(module).collect()
}

/// Each file of definitions is in README's list of what a reader has to believe or is headed as steps, and nothing in the list, and no
/// contract of an export, uses steps.
#[test]
fn what_a_reader_has_to_believe() {
    let readme = text("README.md");
    let rows = readme
        .lines()
        .skip_while(|line| *line != "## What a reader has to believe")
        .skip(1)
        .take_while(|line| !line.starts_with("## "));
    let cells = rows.filter(|line| line.starts_with("| ")).skip(1).map(|line| line.split('|').nth(2).unwrap());
    let mut believed = BTreeSet::new();
    for part in cells.flat_map(|cell| cell.split(';')) {
        let quotes: Vec<&str> = part.split('`').skip(1).step_by(2).collect();
        let names = quotes[1..].iter().map(|quote| quote.trim_start_matches("specs/").trim_end_matches(".antt"));
        believed.extend(names.map(|name| (quotes[0].to_string(), name.to_string())));
    }
    let mut steps = BTreeSet::new();
    for name in ["hash", "ring", "sharing", "signature", "sizes", "slip", "theorems"] {
        let mut found = Vec::new();
        files(&format!("crates/{name}/specs"), &mut found);
        for path in found.iter().filter(|path| !path.ends_with("/Lib.antt")) {
            let module = path.rsplit('/').next().unwrap().trim_end_matches(".antt").to_string();
            let is_step = text(path).starts_with("-- Steps (");
            assert_ne!(is_step, believed.contains(&(name.to_string(), module.clone())), "{path}");
            if is_step {
                steps.insert((name.to_string(), module));
            }
        }
    }
    assert!(believed.len() > 30 && steps.len() > 12, "{} and {} files", believed.len(), steps.len());
    let lists = believed.iter().map(|(name, module)| format!("crates/{name}/specs/{module}.antt"));
    let mut used = 0;
    for path in lists.chain(["crates/capi/src/lib.rt".to_string()]) {
        let modules = specs_used(&text(&path));
        used += modules.iter().filter(|module| believed.contains(*module)).count();
        assert_eq!(modules.intersection(&steps).next(), None, "{path} uses steps");
    }
    assert!(used > 100, "only {used} uses were found");
}

/// Contracts are broken into lines that fit a screen.
#[test]
fn no_line_of_code_is_too_long() {
    let mut sources = Vec::new();
    files("crates", &mut sources);
    sources.retain(|path| path.ends_with(".rt"));
    assert!(sources.len() > 40, "{} files", sources.len());
    for path in sources {
        for (i, line) in text(&path).lines().enumerate() {
            assert!(line.chars().count() <= 160, "{path}, line {}", i + 1);
        }
    }
}
