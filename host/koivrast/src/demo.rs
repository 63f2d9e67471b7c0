//! The course's demonstration: one secret in six share counts, noise of equal totals, six equal signatures.

use crate::args::Args;
use crate::files::print;
use crate::inspect::fingerprint;
use crate::trouble::{Doing, Trouble};
use raccoon::{ExpandedKey, Lengths, MAX_ATTEMPTS, N, PublicKey, Q, Signature, SigningKey};
use raccoon::{KeygenSeeds, Params, Refusal, Secret, Set, Shares, SigningSeeds, os_random};
use std::fmt::Write as _;
use std::io::{self, IsTerminal, Write as _};

const MESSAGE: &[u8] = b"release tram 17";

/// Bits of one noise sample where the noise of a signature is drawn in one share (paper 000, Tables 2 to 4, u_w).
const SAMPLE_BITS: u32 = 41;

/// Random words of the operating system.
struct Random {
    bytes: Secret<u8>,
    used: usize,
}

impl Random {
    fn new() -> Random {
        Random { bytes: Secret::zeros(1 << 16), used: 1 << 16 }
    }

    fn word(&mut self) -> io::Result<u64> {
        if self.used == self.bytes.len() {
            os_random(&mut self.bytes)?;
            self.used = 0;
        }
        self.used += 8;
        Ok(u64::from_le_bytes(self.bytes[self.used - 8..self.used].try_into().expect("eight bytes")))
    }

    /// A word below q, each as likely as the others.
    fn below_q(&mut self) -> io::Result<u64> {
        loop {
            let word = self.word()? & ((1 << 49) - 1);
            if word < Q {
                return Ok(word);
            }
        }
    }

    /// What the noise samples of one share add to at one coefficient.
    fn noise_total(&mut self) -> io::Result<u64> {
        let mut total = 0;
        for _ in 0..Shares::One.repetitions() {
            total += (self.word()? % (1 << SAMPLE_BITS)) as i64 - (1 << (SAMPLE_BITS - 1));
        }
        Ok(total.rem_euclid(Q as i64) as u64)
    }

    /// Cuts polynomials into random shares that add to them, the shares of one behind each other.
    fn cut(&mut self, polynomials: &[u64], shares: Shares) -> io::Result<Secret<u64>> {
        let d = shares.count();
        let mut words = Secret::zeros(polynomials.len() * d);
        for (sharing, polynomial) in words.chunks_exact_mut(d * N).zip(polynomials.chunks_exact(N)) {
            let (first, others) = sharing.split_at_mut(N);
            first.copy_from_slice(polynomial);
            for (i, word) in others.iter_mut().enumerate() {
                *word = self.below_q()?;
                first[i % N] = (first[i % N] + Q - *word) % Q;
            }
        }
        Ok(words)
    }
}

/// Lines on standard error, if somebody is there to read them.
struct Progress(bool);

impl Progress {
    fn step(&self, text: String) {
        if self.0 {
            let _ = writeln!(io::stderr(), "koivrast: {text}");
        }
    }
}

pub fn run(args: &Args) -> Result<(), Trouble> {
    let set = match args.number("--set")? {
        Some(number) => Set::try_from(number).map_err(|refusal| Trouble::refused(refusal, Doing::MakingKey))?,
        None => Set::Raccoon128,
    };
    let progress = Progress(args.flag("--progress") || io::stderr().is_terminal());
    progress.step(format!("making a key of set {} and cutting it six times", set.number()));
    let mut random = Random::new();
    let (public, keys) = six_keys(set, &mut random)?;
    for attempt in 1..=MAX_ATTEMPTS {
        let answers = six_answers(set, &keys, &mut random, &progress)?;
        if answers.iter().any(|answer| *answer != Err(Refusal::NoAttemptPassed)) {
            return show(&public, &keys, attempt, &answers);
        }
    }
    Err(Trouble::refused(Refusal::NoAttemptPassed, Doing::Signing))
}

/// One secret, cut at random into each number of shares.
fn six_keys(set: Set, random: &mut Random) -> Result<(PublicKey, Vec<ExpandedKey>), Trouble> {
    let seeds = KeygenSeeds::draw(Params::new(set, Shares::One), os_random).map_err(Trouble::random)?;
    let making = |refusal| Trouble::refused(refusal, Doing::MakingKey);
    let whole = SigningKey::generate(seeds).and_then(|key| key.expand()).map_err(making)?;
    let mut keys = vec![];
    for shares in Shares::ALL {
        let words = random.cut(whole.words(), shares).map_err(Trouble::random)?;
        keys.push(ExpandedKey::from_parts(Params::new(set, shares), whole.bytes(), &words).map_err(making)?);
    }
    Ok((whole.public_key(), keys))
}

/// What each key answered.
type Answers = Vec<Result<Signature, Refusal>>;

/// One attempt of each key with noise of the same totals, the noise cut at random too, the masks drawn for each. Keys whose masks run dry
/// need not agree with the others: that ends the demonstration with 20.
fn six_answers(set: Set, keys: &[ExpandedKey], random: &mut Random, progress: &Progress) -> Result<Answers, Trouble> {
    let mut totals = Secret::zeros(N * (set.l() + set.k()));
    for total in totals.iter_mut() {
        *total = random.noise_total().map_err(Trouble::random)?;
    }
    let mut answers = vec![];
    for (number, key) in keys.iter().enumerate() {
        let params = key.params();
        progress.step(format!("{} of {}: signing, share count {}", number + 1, keys.len(), params.shares.count()));
        let noise = random.cut(&totals, params.shares).map_err(Trouble::random)?;
        let signing = |refusal| Trouble::refused(refusal, Doing::Signing);
        let mut mask_seed = Secret::zeros(Lengths::of(params, 1).map_err(signing)?.mask_seed_bytes);
        os_random(&mut mask_seed).map_err(Trouble::random)?;
        let explicit = SigningSeeds::new(params).attempts(1).and_then(|seeds| seeds.explicit(&noise, &mask_seed));
        let explicit = explicit.map_err(signing)?;
        let answer = key.sign_explicit(MESSAGE, explicit).map(|signed| signed.signature).map_err(|answer| answer.refusal);
        if answer == Err(Refusal::MasksNotFilled) {
            return Err(Trouble::refused(Refusal::MasksNotFilled, Doing::Signing));
        }
        answers.push(answer);
    }
    Ok(answers)
}

/// The words of the shares at the first place, shortened, and what all of them add to.
fn first_place(key: &ExpandedKey) -> (String, u64) {
    let words: Vec<u64> = key.words()[..N * key.params().shares.count()].iter().copied().step_by(N).collect();
    let shown = match words[..] {
        [only] => format!("{only:>15}"),
        [first, second] => format!("{first:>15} + {second:>15}"),
        _ => format!("{:>15} + {} more", words[0], words.len() - 1),
    };
    (shown, words.iter().fold(0, |sum, word| (sum + word) % Q))
}

/// Prints the table and the verdicts.
fn show(public: &PublicKey, keys: &[ExpandedKey], attempt: u32, answers: &Answers) -> Result<(), Trouble> {
    let mut text = String::from(INTRODUCTION);
    let _ = writeln!(text, "shares  {:<33}  {:<15}  signature", "first word of each share", "sum modulo q");
    for (key, answer) in keys.iter().zip(answers) {
        let (words, sum) = first_place(key);
        let said = match answer {
            Ok(signature) => fingerprint(signature.as_bytes())[..16].to_string(),
            Err(refusal) => refusal.to_string(),
        };
        let _ = writeln!(text, "{:>6}  {words:<33}  {sum:>15}  {said}", key.params().shares.count());
    }
    let equal = answers.iter().all(|answer| answer.is_ok() && *answer == answers[0]);
    let differ = keys.iter().enumerate().all(|(i, key)| keys[..i].iter().all(|other| other.words()[..N] != key.words()[..N]));
    let good = answers.iter().all(|answer| answer.as_ref().is_ok_and(|signature| public.verify(MESSAGE, signature).is_ok()));
    let yes_no = |yes| if yes { "yes" } else { "NO" };
    let _ = writeln!(text, "\nset {}, attempt {attempt}", public.set().number());
    let _ = writeln!(text, "six equal signatures: {}\nshares differ: {}", yes_no(equal), yes_no(differ));
    let _ = writeln!(text, "verifier: {}", if good { "good" } else { "REFUSED" });
    let _ = writeln!(text, "\nSix runs are an example; for all sharings it is proved: docs/STATEMENT.md.");
    print(text)?;
    if equal && differ && good { Ok(()) } else { Err(Trouble::Said(1)) }
}

const INTRODUCTION: &str = "\
Does cutting a key into random shares leave a trace in the signature? Here one
secret is cut at random into 1, 2, 4, 8, 16 and 32 shares. Each cut signs 'release
tram 17', with masks of its own and with noise of the same totals, cut at random
too. The last column is a fingerprint of the signature.

";
