//! The speed report with few turns: positive figures for all 18 pairs, permutations that were counted by hand, and the plot. The
//! report itself checks that the results of both sides are equal, and the permutations of the independent implementation those that
//! it tells.

use compare::independent::keccak::shake256;
use compare::independent::ring::{N, Q};
use compare::permutations::MASK_SEED;
use std::process::{Command, Output};
use std::sync::OnceLock;

fn speed(arguments: &[&str]) -> Output {
    Command::new(env!("CARGO_BIN_EXE_speed")).args(arguments).output().unwrap()
}

/// One run serves all tests.
fn report() -> &'static str {
    static REPORT: OnceLock<String> = OnceLock::new();
    REPORT.get_or_init(|| {
        let run = speed(&["--quick"]);
        assert!(run.status.success(), "{}", String::from_utf8_lossy(&run.stderr));
        String::from_utf8(run.stdout).unwrap()
    })
}

/// The rows of a table: their names and figures.
fn rows(title: &str) -> Vec<(String, Vec<f64>)> {
    let table = report().lines().skip_while(|line| !line.starts_with(&format!("{title}: "))).skip(3);
    let row = |line: &str| {
        let mut words = line.split_whitespace().map(str::to_string);
        (words.next().unwrap(), words.map(|figure| figure.parse().unwrap()).collect())
    };
    table.take_while(|line| !line.is_empty()).map(row).collect()
}

/// The figures of a pair, three for each of the five calls.
fn figures(title: &str, pair: &str) -> [[f64; 3]; 5] {
    let row = rows(title).into_iter().find(|(name, _)| name == pair).unwrap().1;
    let cells: Vec<[f64; 3]> = row.chunks(3).map(|cell| cell.try_into().unwrap()).collect();
    cells.try_into().unwrap()
}

#[test]
fn all_pairs() {
    let names: Vec<String> = [128, 192, 256].iter().flat_map(|set| (0..6).map(move |i| format!("{set}-{}", 1 << i))).collect();
    for title in ["Calls", "Permutations"] {
        assert_eq!(rows(title).into_iter().map(|(name, _)| name).collect::<Vec<String>>(), names, "{title}");
    }
    for name in names {
        assert!(figures("Calls", &name).concat().iter().all(|&figure| figure > 0.0), "{name}");
        assert!(figures("Permutations", &name).concat().iter().all(|&figure| figure >= 0.0), "{name}");
    }
}

#[test]
fn slips() {
    let rows = rows("Slips");
    assert_eq!(rows.iter().map(|(name, _)| &name[..]).collect::<Vec<&str>>(), ["128", "192", "256"]);
    for (name, figures) in rows {
        assert!(figures.len() == 6 && figures.iter().all(|&figure| figure > 0.0), "{name}");
    }
}

#[test]
fn parts() {
    let table = report().lines().skip_while(|line| !line.starts_with("Parts: ")).skip(3);
    let rows: Vec<&str> = table.take_while(|line| !line.is_empty()).collect();
    assert_eq!(rows.len(), 7);
    assert!(rows[0].starts_with("permutation ") && rows[6].starts_with("mask polynomial "));
    for row in rows {
        let figures: Vec<f64> = row.split_whitespace().rev().take(3).map(|figure| figure.parse().unwrap()).collect();
        assert!(figures.len() == 3 && figures.iter().all(|&figure| figure > 0.0), "{row}");
    }
}

/// 128-1: no masks but the generator's first block, which the unit makes twice in refreshing; 72 noise streams of 4 or 23 blocks; 20 entries
/// of the matrix, of 28 blocks; 17 blocks of the digest, 1 of mu, 20 of the challenge hash, 1 of the challenge.
#[test]
fn permutations_of_one_share() {
    let (matrix, digest) = (20 * 28, 17);
    let (generating, verifying) = (72 * 4 + matrix, matrix + digest + 1 + 20 + 1);
    let signing = 72 * 23 + verifying - digest;
    let counts = [(1 + generating, generating), (digest, digest), (2, 0), (1 + signing, signing), (verifying, verifying)];
    assert_eq!(counts, [(849, 848), (17, 17), (2, 0), (2239, 2238), (599, 599)]);
    assert_eq!(figures("Permutations", "128-1").map(|[unit, independent, _]| (unit as u32, independent as u32)), counts);
}

/// The blocks of the seed's stream up to the last draw of so many polynomials of masks. As each begins behind the one before, these are its
/// first draws below q, wherever polynomials end.
fn mask_blocks(polynomials: usize) -> u32 {
    let mut stream = vec![0; 7 * 540 * polynomials];
    shake256(&MASK_SEED, &mut stream);
    let value = |draw: &[u8]| draw.iter().rev().fold(0, |sum, &byte| sum << 8 | u64::from(byte)) % (1 << 49);
    let kept = stream.chunks_exact(7).enumerate().filter(|(_, draw)| value(draw) < Q);
    let (last, _) = kept.take(N * polynomials).last().unwrap();
    let bytes = 7 * (last as u32 + 1);
    // else the unit would have made one block more
    assert_ne!(bytes % 136, 0, "draws that end with a block");
    bytes.div_ceil(136)
}

/// 256-32: a zero encoding is 80 polynomials of masks; 71 of them in generating, 7 in refreshing, where the unit draws them twice, 92 in
/// signing. 2048 noise streams of 4 or 19 blocks, 63 entries, 217 seeded shares; 30 blocks of the digest, 2 of mu, 35 of the challenge hash,
/// 1 of the challenge.
#[test]
fn permutations_of_32_shares() {
    let masks = |encodings: usize| mask_blocks(80 * encodings);
    let (generating, refreshing) = (masks(71) + 2048 * 4 + (63 + 217) * 28, masks(7));
    let (digest, verifying) = (30, 63 * 28 + 30 + 2 + 35 + 1);
    let (seeded, signing) = (217 * 28, masks(92) + 2048 * 19 + verifying - digest);
    let unit = [generating, 2 * seeded + digest, 2 * refreshing, signing, verifying];
    let independent = [generating, seeded + digest, refreshing, signing, verifying];
    let counts: [(u32, u32); 5] = std::array::from_fn(|call| (unit[call], independent[call]));
    assert_eq!(counts, [(169278, 169278), (12182, 6106), (30216, 15108), (239293, 239293), (1832, 1832)]);
    assert_eq!(figures("Permutations", "256-32").map(|[unit, independent, _]| (unit as u32, independent as u32)), counts);
}

#[test]
fn growth() {
    let plot: Vec<&str> = report().lines().skip_while(|line| !line.starts_with("Growth")).collect();
    for d in [1, 2, 4, 8, 16, 32] {
        let rows: Vec<&&str> = plot.iter().filter(|line| line.starts_with(&format!("d = {d} "))).collect();
        assert_eq!(rows.len(), 3, "d = {d}");
        assert!(rows.iter().all(|row| row.matches('|').count() == if d > 1 { 3 } else { 0 }), "d = {d}");
    }
}

#[test]
fn other_arguments() {
    let run = speed(&["--fast"]);
    assert!(!run.status.success());
    assert!(run.stdout.is_empty());
}
