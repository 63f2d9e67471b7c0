//! The README's first command, as it stands: a release order signed and verified, and another order refused.

use std::process::Command;

#[test]
fn main_job() {
    let output = Command::new(concat!(env!("CARGO_MANIFEST_DIR"), "/../../run")).output().unwrap();
    let said = String::from_utf8(output.stdout).unwrap();
    assert!(output.status.success(), "{said}{}", String::from_utf8_lossy(&output.stderr));
    for line in [
        "good: order.sig is the signature of order.txt by gate.pub (set 128)",
        "koivrast: refused, 16: Is the recomputed challenge hash equal? No.",
    ] {
        assert!(said.lines().any(|said| said == line), "not said: {line}\n{said}");
    }
}
