//! The commands that make, change and use keys.

use crate::args::Args;
use crate::files::{Contents, NewFile, Target, print, same_place};
use crate::keys::{Key, expanded_key, public_key, signature, signing_key};
use crate::kind::{Kind, LONGEST};
use crate::trouble::{Doing, Trouble};
use raccoon::{KeygenSeeds, Params, Refusal, Secret, Set, Shares, SigningKey, SigningSeeds, os_random};
use raccoon::{MASK_SEED_BYTES, MAX_ATTEMPTS, MAX_MESSAGE_BYTES};
use std::fs;
use std::path::Path;

/// Makes a signing key and its public key.
pub fn keygen(args: &Args) -> Result<(), Trouble> {
    let (set, shares) = (args.required_number("--set")?, args.required_number("--shares")?);
    let (key_path, public_path) = (args.path("--key"), args.path("--public"));
    if same_place(key_path, public_path) {
        return Err(args.usage("--key and --public name the same file".into()));
    }
    let key_file = secret_file(args, "--key", args.flag("--force"))?;
    let public = Target::new(public_path, args.flag("--force"))?;
    let making = |refusal| Trouble::refused(refusal, Doing::MakingKey);
    let params = Params::new(Set::try_from(set).map_err(making)?, Shares::try_from(shares).map_err(making)?);
    let key = SigningKey::generate(KeygenSeeds::draw(params, os_random).map_err(Trouble::random)?).map_err(making)?;
    let quiet = matches!(public, Target::StandardOutput);
    write_pair(&key, key_file, public, public_path)?;
    let secret = format!("{}: {}; keep it secret", key_path.display(), Kind::SigningKey(params));
    let public = format!("{}: {}; hand it out", public_path.display(), Kind::PublicKey(params.set));
    if quiet { Ok(()) } else { print(format!("{secret}\n{public}\n")) }
}

/// Writes both keys or none. The public key gets its name first: whatever fails, an old signing key is not lost.
fn write_pair(key: &SigningKey, key_file: NewFile, public: Target, public_path: &Path) -> Result<(), Trouble> {
    let staged = key_file.stage(key.as_bytes())?;
    let is_file = matches!(public, Target::File(_));
    public.write(key.public_key().as_bytes())?;
    staged.publish().inspect_err(|_| {
        if is_file {
            let _ = fs::remove_file(public_path);
        }
    })
}

/// The secret file that an option names.
fn secret_file(args: &Args, option: &str, replace: bool) -> Result<NewFile, Trouble> {
    let path = args.path(option);
    if path.as_os_str() == "-" {
        return Err(args.usage(format!("{option}: a secret key is never written to standard output; name a file")));
    }
    NewFile::secret(path, replace)
}

/// The contents of a file with a secret key.
fn read_secret(args: &Args, path: &Path) -> Result<Contents, Trouble> {
    if path.as_os_str() == "-" {
        return Err(args.usage("a secret key is read from a file, not from standard input".into()));
    }
    Contents::read(path, LONGEST)
}

/// Expands a signing key.
pub fn open(args: &Args) -> Result<(), Trouble> {
    let out = secret_file(args, "--out", args.flag("--force"))?;
    let key = signing_key(&read_secret(args, &args.operands()[0])?)?;
    let expanded = key.expand().map_err(|refusal| Trouble::refused(refusal, Doing::LoadingKey))?;
    out.stage(&expanded.to_bytes())?.publish()?;
    print(format!("{}: {}; keep it secret\n", args.path("--out").display(), Kind::ExpandedKey(expanded.params())))
}

/// A new sharing of an expanded key. In place it needs no `--force`: the secret stays what it was.
pub fn refresh(args: &Args) -> Result<(), Trouble> {
    let path = &args.operands()[0];
    let in_place = same_place(path, args.path("--out"));
    let out = secret_file(args, "--out", in_place || args.flag("--force"))?;
    let key = expanded_key(&read_secret(args, path)?)?;
    let mut mask_seed = Secret::zeros(MASK_SEED_BYTES);
    os_random(&mut mask_seed).map_err(Trouble::random)?;
    let mask_seed = mask_seed.first_chunk().expect("as long as a mask seed");
    let fresh = key.refresh(mask_seed).map_err(|refusal| Trouble::refused(refusal, Doing::LoadingKey))?;
    out.stage(&fresh.to_bytes())?.publish()?;
    print(format!("{}: {}, shared anew\n", args.path("--out").display(), Kind::ExpandedKey(fresh.params())))
}

/// What a command that signs was given: the key, what is to be signed, seeds, and where the result goes.
pub struct Task {
    pub key: Key,
    pub input: Contents,
    pub seeds: SigningSeeds,
    pub out: Target,
}

impl Task {
    /// The option `input` names what is to be signed: of what is longer than the limit, one byte more than that is read.
    pub fn given(args: &Args, input: &str, limit: usize) -> Result<Task, Trouble> {
        let attempts = args.number("--attempts")?.unwrap_or(MAX_ATTEMPTS);
        let out_path = args.path("--out");
        if let Some(name) = ["--key", input].into_iter().find(|name| same_place(args.path(name), out_path)) {
            return Err(args.usage(format!("{name} and --out name the same file")));
        }
        let out = Target::new(out_path, args.flag("--force"))?;
        let key = read_secret(args, args.path("--key"))?;
        let input = Contents::read(args.path(input), limit)?;

        let key = Key::from_file(&key)?;
        let seeds = SigningSeeds::new(key.params()).attempts(attempts);
        let seeds = seeds.map_err(|refusal| Trouble::refused(refusal, Doing::Signing))?;
        Ok(Task { key, input, seeds: seeds.draw(os_random).map_err(Trouble::random)?, out })
    }
}

/// Writes what was signed and, unless that is standard output, says what it is and which attempt it took.
pub fn deliver(args: &Args, out: Target, bytes: &[u8], kind: Kind, attempt: u32) -> Result<(), Trouble> {
    let quiet = matches!(out, Target::StandardOutput);
    out.write(bytes)?;
    if quiet { Ok(()) } else { print(format!("{}: {kind}, attempt {attempt}\n", args.path("--out").display())) }
}

/// Signs a message.
pub fn sign(args: &Args) -> Result<(), Trouble> {
    let Task { key, input: message, seeds, out } = Task::given(args, "--message", MAX_MESSAGE_BYTES)?;
    let signed = key.sign(&message, seeds).map_err(Trouble::not_signed)?;
    deliver(args, out, signed.signature.as_bytes(), Kind::Signature(key.params().set), signed.attempt)
}

/// Is a signature good for a message and a public key?
pub fn verify(args: &Args) -> Result<(), Trouble> {
    let paths = ["--public", "--message", "--signature"].map(|name| args.path(name));
    args.one_standard_input(paths)?;
    let [public_path, message_path, signature_path] = paths;
    let public = Contents::read(public_path, LONGEST)?;
    let message = Contents::read(message_path, MAX_MESSAGE_BYTES)?;
    let file = Contents::read(signature_path, LONGEST)?;

    let key = public_key(&public)?;
    let verifying = |refusal| Trouble::refused(refusal, Doing::Verifying);
    if message.len() > MAX_MESSAGE_BYTES {
        return Err(verifying(Refusal::BadMessageLength));
    }
    key.verify(&message, &signature(key.set(), &file)?).map_err(verifying)?;
    print(format!("good: {} is the signature of {} by {} (set {})\n", file.name, message.name, public.name, key.set().number()))
}
