//! The guide's session with a slip is what happens: each command is run as it stands, and prints what stands behind it.

use std::path::Path;
use std::process::Command;
use std::{env, fs};

/// The commands of the session, each with the lines that it prints.
fn session(guide: &str) -> Vec<(&str, Vec<&str>)> {
    let block =
        guide.lines().skip_while(|line| !line.starts_with("    $ koivrast slip ")).map_while(|line| line.strip_prefix("    "));
    let mut steps: Vec<(&str, Vec<&str>)> = vec![];
    for line in block {
        match line.strip_prefix("$ ") {
            Some(command) => steps.push((command, vec![])),
            None => steps.last_mut().expect("a command first").1.push(line),
        }
    }
    steps
}

/// What a command prints in a folder, where koivrast is the tool. Whichever attempt it took to sign, 1 is told.
fn printed(folder: &Path, command: &str) -> Vec<String> {
    let tools = Path::new(env!("CARGO_BIN_EXE_koivrast")).parent().unwrap();
    let path = env::join_paths([tools.into()].into_iter().chain(env::split_paths(&env::var_os("PATH").unwrap()))).unwrap();
    let output = Command::new("sh").args(["-c", command]).current_dir(folder).env("PATH", path).output().unwrap();
    assert!(output.status.success(), "{command}: {}", String::from_utf8_lossy(&output.stderr));
    let said = String::from_utf8(output.stdout).unwrap();
    said.lines()
        .map(|line| match line.split_once(", attempt ") {
            Some((front, _)) => format!("{front}, attempt 1"),
            None => line.into(),
        })
        .collect()
}

#[test]
fn session_of_the_guide() {
    let folder = Path::new(env!("CARGO_TARGET_TMPDIR")).join("slip_of_the_guide");
    let _ = fs::remove_dir_all(&folder);
    fs::create_dir_all(&folder).unwrap();
    printed(&folder, "koivrast keygen --set 128 --shares 4 --key gate.key --public gate.pub");
    fs::write(folder.join("order.txt"), "Release tram 17 from track 4 at 05:42.\n").unwrap();
    let steps = session(include_str!("../../../docs/GUIDE.md"));
    assert_eq!(steps.iter().map(|step| step.1.len()).collect::<Vec<_>>(), [1, 5, 4]);
    for (command, lines) in steps {
        assert_eq!(printed(&folder, command), lines, "{command}");
    }
}
