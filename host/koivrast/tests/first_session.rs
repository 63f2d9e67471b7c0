//! Runs first_session.sh: a newcomer's first session, with files, wrong files, cut pipes and folders that cannot be written.

use std::path::Path;
use std::process::Command;

#[test]
fn first_session() {
    let script = Path::new(env!("CARGO_MANIFEST_DIR")).join("tests/first_session.sh");
    let run = Command::new("sh").arg(script).arg(env!("CARGO_BIN_EXE_koivrast")).output().unwrap();
    let said = String::from_utf8_lossy(&run.stdout);
    assert!(run.status.success(), "{said}{}", String::from_utf8_lossy(&run.stderr));
    let passed = said.lines().filter(|line| line.starts_with("ok ")).count();
    assert!(passed >= 500, "only {passed} checks ran");
    assert!(said.ends_with(&format!("{passed} checks, 0 failed\n")), "{said}");
}
