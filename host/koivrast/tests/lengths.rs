//! The guide's example of `lengths` is what the tool prints.

use std::process::Command;

#[test]
fn example_of_the_guide() {
    let guide = include_str!("../../../docs/GUIDE.md");
    let mut block =
        guide.lines().skip_while(|line| !line.starts_with("    $ koivrast lengths ")).map_while(|line| line.strip_prefix("    "));
    let arguments = block.next().and_then(|line| line.strip_prefix("$ koivrast ")).expect("an example");
    let output = Command::new(env!("CARGO_BIN_EXE_koivrast")).args(arguments.split(' ')).output().unwrap();
    assert!(output.status.success(), "{}", String::from_utf8_lossy(&output.stderr));
    let printed = String::from_utf8(output.stdout).unwrap();
    assert_eq!(printed.lines().collect::<Vec<_>>(), block.collect::<Vec<_>>());
    assert_eq!(printed.lines().count(), 5, "{printed}");
}
