//! The C side: include/raccoon.h has every export and the sizes of the independent implementation, each export can be called through it, the
//! example in examples/ does what it says, and calls take the stack, and archives the names from outside, that docs/GUIDE.md tells. Needs gcc
//! and the nm beside it.

use compare::independent::raccoon::{Edition, Params};
use compare::independent::ring::N;
use std::collections::BTreeSet;
use std::path::{Path, PathBuf};
use std::process::Command;

fn root() -> PathBuf {
    Path::new(env!("CARGO_MANIFEST_DIR")).join("../..")
}

fn text(path: &str) -> String {
    std::fs::read_to_string(root().join(path)).unwrap()
}

/// Compiles a C program with the archive, runs it and gives what it prints.
fn printed(source: &str) -> String {
    let program = Path::new(env!("CARGO_TARGET_TMPDIR")).join(Path::new(source).file_stem().unwrap());
    let compiled = Command::new("gcc")
        .args(["-std=c99", "-Wall", "-Wextra", "-Werror", "-O1", "-I"])
        .args([root().join("include"), root().join(source), root().join("crates/capi/out/libcapi.a")])
        .arg("-o")
        .arg(&program)
        .output()
        .unwrap();
    assert!(compiled.status.success(), "{source}: {}", String::from_utf8_lossy(&compiled.stderr));
    let run = Command::new(program).output().unwrap();
    assert!(run.status.success(), "{source}: {}", String::from_utf8_lossy(&run.stderr));
    String::from_utf8(run.stdout).unwrap()
}

/// The lines that are numbers only, `columns` of them.
fn numbers(text: &str, columns: usize) -> Vec<Vec<usize>> {
    let rows =
        text.lines().filter_map(|line| line.trim_start_matches(" *").split_whitespace().map(|word| word.parse().ok()).collect());
    rows.filter(|row: &Vec<usize>| row.len() == columns).collect()
}

fn pairs() -> impl Iterator<Item = Params> {
    let shares = [1, 2, 4, 8, 16, 32];
    [128, 192, 256].into_iter().flat_map(move |set| shares.map(|d| Params::new(set, d, Edition::Printed).unwrap()))
}

fn of_set(p: &Params) -> [usize; 6] {
    [p.k, p.l, p.vk_bytes(), p.expanded_bytes(), p.sig_bytes, p.seed_bytes()]
}

fn of_pair(p: &Params) -> [usize; 6] {
    [p.sk_bytes(), p.keygen_bytes(), p.noise_bytes(), p.noise_words(), p.l * p.d * N, p.work_words()]
}

/// An archive asks for no name from outside but the two that docs/GUIDE.md tells.
#[test]
fn names_from_outside() {
    assert!(text("docs/GUIDE.md").contains("It needs nothing but `memcpy` and `memset`."));
    for name in ["bench", "capi"] {
        let archive = root().join(format!("crates/{name}/out/lib{name}.a"));
        let listed = Command::new("nm").arg("-u").arg(archive).output().unwrap();
        assert!(listed.status.success(), "{}", String::from_utf8_lossy(&listed.stderr));
        let listed = String::from_utf8(listed.stdout).unwrap();
        let needed: BTreeSet<&str> = listed.lines().filter_map(|line| line.trim().strip_prefix("U ")).collect();
        assert_eq!(needed, BTreeSet::from(["memcpy", "memset"]), "lib{name}.a");
    }
}

#[test]
fn example() {
    let output = printed("examples/release_order.c");
    let lines: Vec<&str> = output.lines().collect();
    assert_eq!(lines.len(), 13, "{output}");
    assert_eq!(lines[0], "signing takes 18432 bytes of noise seeds, 512 of mask seeds, 33792 words of work");
    assert_eq!(lines[1], "key: 14848 bytes, the first 2256 are the public key");
    assert_eq!(lines[2], "expanded key: 2288 bytes, 8192 words in 4 shares");
    let attempt: u32 = lines[3].strip_prefix("signature: 11524 bytes, attempt ").unwrap().parse().unwrap();
    assert!((1..=16).contains(&attempt), "{output}");
    assert_eq!(lines[4], "the order: 0, accepted");
    assert_eq!(lines[5], "a changed order: 16, refused: Is the recomputed challenge hash equal? No.");
    assert_eq!(lines[6], "a changed signature: 16, refused: Is the recomputed challenge hash equal? No.");
    assert_eq!(lines[7], "a cut signature: 13, refused: Is the signature exactly as long as the set says? No.");
    assert_eq!(lines[8], "the order again: 0, accepted");
    assert_eq!(lines[9], "slip: 11562 bytes, of them 38 before the signature");
    assert_eq!(lines[10], "the slip: 0, accepted: movement 17, track 4: Gate 3, from 06:00 to 06:30.");
    assert_eq!(lines[11], "a changed slip: 16, refused: Is the recomputed challenge hash equal? No.");
    assert_eq!(lines[12], "no slip: 17, refused: Does the slip begin with the mark TMR? No.");
}

/// The macros of all 18 pairs, and that the unit tells the same lengths; calls with nothing lent; a key and its signatures by each form of
/// signing; a slip.
#[test]
fn exports() {
    let output = printed("host/compare/tests/exports.c");
    let sizes: Vec<Vec<usize>> = pairs().map(|p| [&[p.kappa, p.d][..], &of_set(&p), &of_pair(&p)].concat()).collect();
    assert_eq!(numbers(&output, 14), sizes);
    let rest: Vec<&str> = output.lines().skip(18).collect();
    let expected = [
        "slips 12046 15066 20852",
        "lengths 288, of them other than the macros 0",
        "lengths refused 1 2 6 6",
        "empty 7 7 3 3 3 3 3 3 3 3 3 3 8 8 13 17 19",
        "keygen 0",
        "expand 0",
        "refresh 0",
        "sign 0 0",
        "sign_expanded 0 0",
        "sign_explicit 0 0",
        "sign_expanded_explicit 0 0",
        "slip 0 0 0",
        "read 0, 4660 197 192, 10 8, 18 14544",
        "without a key 3 4660",
        "kat_keygen 0",
        "kat_expand 0",
        "kat_sign 0 0",
        "no message 0 0",
        "samplers 0 0",
        "bits 0 108928, 0 21475410304",
    ];
    assert_eq!(rest, expected);
}

/// The tables of sizes that are printed for the reader: in the header all pairs, in the guide the smallest and the largest share count.
#[test]
fn printed_tables() {
    let sets: Vec<Vec<usize>> = pairs().filter(|p| p.d == 1).map(|p| [&[p.kappa][..], &of_set(&p)].concat()).collect();
    let all: Vec<Vec<usize>> = pairs().map(|p| [&[p.kappa, p.d][..], &of_pair(&p)].concat()).collect();
    let ends: Vec<Vec<usize>> = all.iter().filter(|row| row[1] == 1 || row[1] == 32).cloned().collect();
    let (header, guide) = (text("include/raccoon.h"), text("docs/GUIDE.md").replace('|', " "));
    assert_eq!((numbers(&header, 7), numbers(&header, 8)), (sets.clone(), all));
    assert_eq!((numbers(&guide, 7), numbers(&guide, 8)), (sets, ends));
}

/// Every export of the unit stands in the header and is called by exports.c.
#[test]
fn complete() {
    let (unit, header, calls) = (text("crates/capi/src/lib.rt"), text("include/raccoon.h"), text("host/compare/tests/exports.c"));
    let names: Vec<&str> = unit.split("pub extern \"C\" fn ").skip(1).map(|rest| rest.split('(').next().unwrap()).collect();
    assert_eq!(names.len(), 18);
    for name in names {
        assert!(header.contains(&format!(" {name}(")), "{name} is not in raccoon.h");
        assert!(calls.contains(&format!("{name}(")), "{name} is not in exports.c");
    }
}

/// The header alone, for C and for C++.
#[test]
fn header_without_warnings() {
    for (compiler, language, standard) in
        [("gcc", "c", "-std=c99"), ("gcc", "c", "-std=c17"), ("g++", "c++", "-std=c++11"), ("g++", "c++", "-std=c++17")]
    {
        let checked = Command::new(compiler)
            .args(["-x", language, standard, "-Wall", "-Wextra", "-Wpedantic", "-Werror", "-fsyntax-only"])
            .arg(root().join("include/raccoon.h"))
            .output()
            .unwrap();
        assert!(checked.status.success(), "{compiler} {standard}: {}", String::from_utf8_lossy(&checked.stderr));
    }
}

/// Each call takes no more stack than the guide's table says, and not much less; the header tells the same.
#[test]
fn stack_of_the_guide() {
    let guide = text("docs/GUIDE.md");
    let table: Vec<&str> =
        guide.lines().skip_while(|line| *line != "## Stack").take_while(|line| !line.starts_with("## Refusals")).collect();
    let told = |call: &str| -> usize {
        let row = table.iter().find(|line| line.contains(&format!("`{call}`"))).unwrap_or_else(|| panic!("no row of {call}"));
        row.split('|').nth(2).unwrap().trim().parse().unwrap()
    };
    let measured = printed("host/compare/tests/stack.c");
    assert_eq!(measured.lines().count(), 10, "{measured}");
    for line in measured.lines() {
        let (call, kib) = line.split_once(' ').unwrap();
        let (told, kib) = (told(call), kib.parse::<usize>().unwrap());
        assert!(kib <= told && told <= kib + 16, "{call} takes {kib} KiB, told are {told}");
    }
    let [sign, keygen, verify, read] = ["raccoon_sign", "raccoon_keygen", "raccoon_verify", "raccoon_read_slip"].map(told);
    let sentence =
        format!("signing takes up to {sign} KiB of it, generating {keygen}, verifying {verify}, reading a slip {read}");
    assert!(text("include/raccoon.h").contains(&sentence), "{sentence}");
}
