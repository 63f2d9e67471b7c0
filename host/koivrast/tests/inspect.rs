//! What inspect tells of signatures: the bits used; at the bounds and over them the coefficient that decided, and why.

use independent::raccoon::{Edition, Fields, Params, write};
use std::io::Write;
use std::process::{Command, Stdio};

/// A coefficient of the hint or of the response, its place, and the value it is put to.
#[derive(Clone, Copy)]
enum Put {
    Hint(usize, i64),
    Response(usize, i64),
}

use Put::{Hint, Response};

/// Exit status and report of a signature of the set whose coefficients are zero but for these.
fn inspected(set: usize, puts: &[Put]) -> (Option<i32>, String) {
    let p = Params::new(set, 1, Edition::Printed).unwrap();
    let mut f = Fields { hash: vec![5; p.hash_bytes()], hint: vec![0; p.k * 512], response: vec![0; p.l * 512] };
    for &put in puts {
        match put {
            Hint(at, value) => f.hint[at] = value,
            Response(at, value) => f.response[at] = value,
        }
    }
    let signature = write(&p, &f).expect("a signature that fits");
    let mut tool = Command::new(env!("CARGO_BIN_EXE_koivrast"));
    let mut tool = tool.args(["inspect", "-"]).stdin(Stdio::piped()).stdout(Stdio::piped()).spawn().unwrap();
    tool.stdin.take().unwrap().write_all(&signature).unwrap();
    let output = tool.wait_with_output().unwrap();
    (output.status.code(), String::from_utf8(output.stdout).unwrap())
}

/// The line of the bits used is this.
fn check_bits(set: usize, puts: &[Put], used: &str) {
    let (_, report) = inspected(set, puts);
    assert!(report.contains(&format!("\n  bits used          {used}\n")), "not there: {used}\n{report}");
}

/// Zeros take 86784 bits of set 128, 108928 of set 192 and 152064 of set 256.
#[test]
fn bits_used() {
    check_bits(128, &[], "86784 of 92192 (94.1 %)");
    check_bits(192, &[Hint(3583, 1), Response(0, -(1 << 40))], "108932 of 116352 (93.6 %)");
    // full to the bit
    check_bits(128, &[Response(5, 5407 << 40)], "92192 of 92192 (100.0 %)");
    check_bits(256, &[Hint(0, -128), Hint(1, 127), Response(3583, 10_318 << 40)], "162640 of 162640 (100.0 %)");
}

/// A forged hint that a signed byte does not hold.
#[test]
fn bits_of_a_hint_beyond_a_byte() {
    for value in [128, -129, 5000] {
        let said = format!("not counted: the hint has {value}, where the unit counts from -128 to 127");
        check_bits(128, &[Hint(7, value)], &said);
        let decided = format!("hint, polynomial 0, place 7: {value}, above its limit, 2");
        check_decided(128, &[Hint(7, value), Hint(8, 3)], &decided, "8 of 4608");
    }
}

/// Nothing decided against it.
fn check_within(set: usize, puts: &[Put]) {
    let (status, report) = inspected(set, puts);
    assert_eq!(status, Some(0), "{report}");
    assert!(report.contains("\n  bounds             passed\n"), "{report}");
    assert!(!report.contains("decided by") && !report.contains("coefficients read"), "{report}");
}

/// These are the two lines behind that of the bounds.
fn check_decided(set: usize, puts: &[Put], decided_by: &str, read: &str) {
    let (status, report) = inspected(set, puts);
    assert_eq!(status, Some(1), "{report}");
    let bounds = "  bounds             refused, 15: Do the fields of the signature pass the bounds? No.";
    let lines = format!("\n{bounds}\n  decided by         {decided_by}\n  coefficients read  {read}\n  hint  ");
    assert!(report.contains(&lines), "not there: {lines}\n{report}");
}

#[test]
fn above_its_limit() {
    check_within(128, &[]);
    check_within(192, &[Hint(600, -3), Response(2559, 47_419_426_657_048)]);
    let hint = "hint, polynomial 1, place 88: -4, above its limit, 3";
    check_decided(192, &[Hint(600, -4)], hint, "601 of 6144");
    check_decided(192, &[Hint(600, -4), Hint(601, 5), Response(0, 1 << 49)], hint, "601 of 6144");
    let last = "hint, polynomial 4, place 511: 3, above its limit, 2";
    check_decided(128, &[Hint(2559, 3)], last, "2560 of 4608");
    let first = "response, polynomial 0, place 0: 41954689765972, above its limit, 41954689765971";
    check_decided(128, &[Response(0, 41_954_689_765_972), Response(1, -(1 << 49))], first, "2561 of 4608");
    let last = "response, polynomial 6, place 511: -50958538642040, above its limit, 50958538642039";
    check_decided(256, &[Response(3583, -50_958_538_642_040)], last, "8192 of 8192");
}

#[test]
fn lifting_the_squared_norm() {
    // each hint of 2 adds 2^26 to what may be 14656575897 in set 128: 218 of them pass
    let twos = |n: usize| (1000..1000 + n).map(|at| Hint(at, if at % 2 == 0 { -2 } else { 2 })).collect::<Vec<_>>();
    let and = |puts: &[Put]| [&twos(218), puts].concat();
    check_within(128, &twos(218));
    let hint = "hint, polynomial 2, place 194: -2, which lifts the squared norm to 14696841216, above 14656575897, both / 2^64";
    check_decided(128, &twos(219), hint, "1219 of 4608");
    check_decided(128, &and(&[Hint(1218, -2), Hint(2000, 9), Response(7, 1 << 49)]), hint, "1219 of 4608");
    // 5181 x 5181 is the last square that passes beside them
    check_within(128, &and(&[Response(513, -((5181 << 32) + 0xffff_ffff))]));
    let response = "response, polynomial 1, place 1: -22256520527872, which lifts the squared norm to 14656585476, above 14656575897, both / 2^64";
    check_decided(128, &and(&[Response(513, -(5182 << 32))]), response, "3074 of 4608");
    check_decided(128, &and(&[Response(513, -(5182 << 32)), Response(2047, 1 << 49)]), response, "3074 of 4608");
}
