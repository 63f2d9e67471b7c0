//! Key generation of the proved code: known answers, the keys of all 18 response files in both editions, and badly sized inputs, with guards
//! around the result and the work buffer.

use compare::case::{Calls, EXPECTED, UNIT};
use compare::independent::drbg::{Drbg, tests};
use compare::independent::raccoon::{Edition, Params};
use compare::known::{digest, known, response_tests, xof};
use compare::pool::{SETS, SHARES};
use compare::random::Random;

/// A call's inputs, and the sizes of the buffers that it is lent.
#[derive(Clone)]
struct Call {
    edition: Edition,
    set: u32,
    d: u32,
    seeds: Vec<u8>,
    mask: Vec<u8>,
    key: usize,
    work: usize,
}

impl Call {
    fn new(p: &Params, set: usize, seeds: Vec<u8>, mask: Vec<u8>) -> Call {
        Call { edition: p.edition, set: set as u32, d: p.d as u32, seeds, mask, key: p.sk_bytes(), work: p.work_words() }
    }
    /// The status and, with 0, the key. A refusal must leave the result as it was; all ends but refusals 1 to 8 must leave a work buffer of
    /// zeros.
    fn run(&self, calls: &Calls) -> (u32, Option<Vec<u8>>) {
        let (mut key, mut work) = (vec![0xa7u8; self.key + 32], vec![0x1234_5678u64; self.work + 8]);
        let (result, lent) = (16..self.key + 16, 4..self.work + 4);
        let (key_out, work_out) = (&mut key[result.clone()], &mut work[lent.clone()]);
        let status = (calls.keygen)(self.edition, self.set, self.d, &self.seeds, &self.mask, key_out, work_out);
        assert!(key[..16].iter().chain(&key[result.end..]).all(|&x| x == 0xa7), "a guard was written");
        assert!(work[..4].iter().chain(&work[lent.end..]).all(|&x| x == 0x1234_5678), "a guard was written");
        let left = if (1..=8).contains(&status) { 0x1234_5678 } else { 0 };
        assert!(work[lent].iter().all(|&x| x == left), "the work buffer after {status}");
        if status == 0 {
            return (0, Some(key[result].to_vec()));
        }
        assert!(key.iter().all(|&x| x == 0xa7), "refusal {status} changed the result");
        (status, None)
    }
    fn answer(&self) -> String {
        match self.run(&UNIT) {
            (status, None) => format!("{status} -"),
            (_, Some(key)) => format!("0 {}", digest(&key)),
        }
    }
}

fn known_call(d: usize) -> Call {
    let p = Params::new(128, d, Edition::Printed).unwrap();
    Call::new(&p, 128, xof(&format!("tape 128-{d}"), p.keygen_bytes()), xof("mask", 32))
}

#[test]
fn known_keys() {
    for d in [1, 2, 4, 8] {
        assert_eq!(known_call(d).answer(), known(&format!("128-{d} keygen")));
    }
}

#[test]
fn known_refusals() {
    let c = known_call(2);
    let long = [&c.seeds[..], &[0]].concat();
    let calls: [(&str, Call); 7] = [
        ("set 0", Call { set: 0, ..c.clone() }),
        ("d 0", Call { d: 0, ..c.clone() }),
        ("d 64", Call { d: 64, ..c.clone() }),
        ("tape long", Call { seeds: long, ..c.clone() }),
        ("no mask", Call { mask: vec![], ..c.clone() }),
        ("result short", Call { key: c.key - 1, ..c.clone() }),
        ("work long", Call { work: c.work + 1, ..c.clone() }),
    ];
    for (name, call) in calls {
        assert_eq!(call.answer(), known(&format!("128-2 keygen {name}")), "{name}");
    }
}

fn check(file: &str, edition: Edition) {
    let inputs = tests(3);
    let all = response_tests(file);
    assert_eq!(all.len(), 18 * 3);
    for ((set, d, count), answers) in all {
        let p = Params::new(set, d, edition).unwrap();
        let mut drbg = Drbg::new(&inputs[count].0);
        let seeds = (0..p.keygen_bytes() / p.seed_bytes()).flat_map(|_| drbg.bytes(p.seed_bytes())).collect();
        // the key does not depend on the masks
        let call = Call::new(&p, set, seeds, xof(&format!("mask {count}"), 32));
        let key = call.run(&UNIT).1.unwrap();
        assert_eq!(digest(&key[..p.vk_bytes()]), answers["pk"], "pk of {set}-{d}, test {count}");
        assert_eq!(digest(&key), answers["sk"], "sk of {set}-{d}, test {count}");
    }
}

#[test]
fn keys_of_the_response_files() {
    check(include_str!("data/response-files.txt"), Edition::Kat);
}

#[test]
fn keys_of_the_printed_text() {
    check(include_str!("data/printed-text.txt"), Edition::Printed);
}

#[test]
fn any_sizes() {
    let mut random = Random(40);
    for _ in 0..400 {
        let edition = if random.below(2) == 0 { Edition::Printed } else { Edition::Kat };
        let (set, d) = (SETS[random.below(3)], SHARES[random.below(4)]);
        let p = Params::new(set, d, edition).unwrap();
        let mut call = Call::new(&p, set, random.bytes(p.keygen_bytes()), random.bytes(32));
        match random.below(8) {
            0 => call.seeds.truncate(random.below(p.keygen_bytes())),
            1 => call.seeds.push(0),
            2 => call.mask = vec![0; [0, 31, 33, 64][random.below(4)]],
            3 => call.key = random.below(2 * call.key),
            4 => call.work = random.below(2 * call.work),
            5 => call.set = random.below(300) as u32,
            6 => call.d = random.below(70) as u32,
            _ => {}
        }
        assert_eq!(call.run(&UNIT), call.run(&EXPECTED));
    }
}
