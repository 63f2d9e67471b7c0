//! The speed report: the machine, the parts, the calls of the unit beside the independent implementation at all 18 pairs of set
//! and share count, reading a slip of each set, the permutations that calls take, and the growth with the share count.
//!
//! `speed [--quick] [--markdown]`: with few turns, in seconds; as markdown.

use compare::speed::{Style, Turns, report};
use std::process::ExitCode;

fn main() -> ExitCode {
    let (mut turns, mut style) = (Turns::FULL, Style::Text);
    for argument in std::env::args().skip(1) {
        match argument.as_str() {
            "--quick" => turns = Turns::QUICK,
            "--markdown" => style = Style::Markdown,
            _ => {
                eprintln!("speed [--quick] [--markdown]");
                return ExitCode::FAILURE;
            }
        }
    }
    print!("{}", report(turns, style));
    ExitCode::SUCCESS
}
