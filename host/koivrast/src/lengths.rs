//! What a signing call takes. The unit tells it.

use crate::args::Args;
use crate::files::print;
use crate::trouble::{Doing, Trouble};
use raccoon::{Lengths, MAX_ATTEMPTS, Params, Set, Shares};

pub fn run(args: &Args) -> Result<(), Trouble> {
    let (set, shares) = (args.required_number("--set")?, args.required_number("--shares")?);
    let attempts = args.number("--attempts")?.unwrap_or(MAX_ATTEMPTS);
    let signing = |refusal| Trouble::refused(refusal, Doing::Signing);
    let params = Params::new(Set::try_from(set).map_err(signing)?, Shares::try_from(shares).map_err(signing)?);
    let lengths = Lengths::of(params, attempts).map_err(signing)?;
    let rows = [
        ("noise seed bytes", lengths.noise_seed_bytes),
        ("mask seed bytes", lengths.mask_seed_bytes),
        ("work words", lengths.work_words),
        ("work buffer bytes", lengths.work_words * size_of::<u64>()),
    ];
    let table: String = rows.iter().map(|(name, number)| format!("  {name:<18} {number:>8}\n")).collect();
    print(format!("set {set}, share count {shares}, attempts {attempts}\n{table}"))
}
