//! The command line tool of the Raccoon gate unit: keys, signatures, slips and verdicts in files. `koivrast help` tells the rest.

mod args;
mod commands;
mod demo;
mod files;
mod help;
mod inspect;
mod keys;
mod kind;
mod lengths;
mod slip;
mod trouble;

use args::{Args, Operands, Syntax, did_you_mean};
use std::ffi::OsString;
use std::process::ExitCode;
use trouble::Trouble;

/// A command: its name, of one word or two, what it takes, its help and what it does.
struct Command {
    name: &'static str,
    syntax: Syntax,
    help: &'static str,
    run: fn(&Args) -> Result<(), Trouble>,
}

static COMMANDS: [Command; 10] = [
    Command {
        name: "keygen",
        syntax: Syntax {
            required: &["--set", "--shares", "--key", "--public"],
            optional: &[],
            flags: &["--force"],
            operands: Operands::None,
        },
        help: help::KEYGEN,
        run: commands::keygen,
    },
    Command {
        name: "open",
        syntax: Syntax { required: &["--out"], optional: &[], flags: &["--force"], operands: Operands::One },
        help: help::OPEN,
        run: commands::open,
    },
    Command {
        name: "refresh",
        syntax: Syntax { required: &["--out"], optional: &[], flags: &["--force"], operands: Operands::One },
        help: help::REFRESH,
        run: commands::refresh,
    },
    Command {
        name: "sign",
        syntax: Syntax {
            required: &["--key", "--message", "--out"],
            optional: &["--attempts"],
            flags: &["--force"],
            operands: Operands::None,
        },
        help: help::SIGN,
        run: commands::sign,
    },
    Command {
        name: "verify",
        syntax: Syntax {
            required: &["--public", "--message", "--signature"],
            optional: &[],
            flags: &[],
            operands: Operands::None,
        },
        help: help::VERIFY,
        run: commands::verify,
    },
    Command {
        name: "slip sign",
        syntax: Syntax {
            required: &["--key", "--movement", "--track", "--text", "--out"],
            optional: &["--attempts"],
            flags: &["--force"],
            operands: Operands::None,
        },
        help: help::SLIP_SIGN,
        run: slip::sign,
    },
    Command {
        name: "slip read",
        syntax: Syntax { required: &["--public"], optional: &[], flags: &[], operands: Operands::One },
        help: help::SLIP_READ,
        run: slip::read,
    },
    Command {
        name: "inspect",
        syntax: Syntax { required: &[], optional: &[], flags: &[], operands: Operands::OneOrMore },
        help: help::INSPECT,
        run: inspect::run,
    },
    Command {
        name: "lengths",
        syntax: Syntax { required: &["--set", "--shares"], optional: &["--attempts"], flags: &[], operands: Operands::None },
        help: help::LENGTHS,
        run: lengths::run,
    },
    Command {
        name: "bench-demo",
        syntax: Syntax { required: &[], optional: &["--set"], flags: &["--progress"], operands: Operands::None },
        help: help::BENCH_DEMO,
        run: demo::run,
    },
];

fn main() -> ExitCode {
    let words: Vec<OsString> = std::env::args_os().skip(1).collect();
    match run(&words) {
        Ok(()) => ExitCode::SUCCESS,
        Err(trouble) => {
            trouble.report();
            ExitCode::from(trouble.status())
        }
    }
}

fn run(words: &[OsString]) -> Result<(), Trouble> {
    let Some((first, rest)) = words.split_first() else {
        return Err(usage("which command?".into()));
    };
    match first.to_str() {
        Some("help" | "--help" | "-h") => help_of(rest),
        Some("--version") => files::print(concat!("koivrast ", env!("CARGO_PKG_VERSION"), "\n")),
        Some("slip") if rest.first().is_some_and(|word| word == "--help" || word == "-h") => files::print(help::SLIP),
        _ => {
            let (command, rest) = command(words)?;
            if rest.iter().take_while(|word| *word != "--").any(|word| word == "--help" || word == "-h") {
                return files::print(command.help);
            }
            (command.run)(&Args::parse(command.name, &command.syntax, rest)?)
        }
    }
}

/// The help of the command that these words name, or of the whole tool.
fn help_of(words: &[OsString]) -> Result<(), Trouble> {
    match words {
        [] => files::print(help::OVERVIEW),
        [word] if word == "help" => files::print(help::OVERVIEW),
        [word] if word == "slip" => files::print(help::SLIP),
        _ => match command(words)? {
            (command, []) => files::print(command.help),
            _ => Err(usage("help: of one command at a time".into())),
        },
    }
}

fn usage(message: String) -> Trouble {
    Trouble::Usage { message, help: "koivrast help".into() }
}

/// The command that the first words name, and the words behind its name.
fn command(words: &[OsString]) -> Result<(&'static Command, &[OsString]), Trouble> {
    for command in &COMMANDS {
        let length = command.name.split(' ').count();
        if words.len() >= length && command.name.split(' ').zip(words).all(|(part, word)| word == part) {
            return Ok((command, &words[length..]));
        }
    }
    Err(no_command(words))
}

/// No command has the name that these words begin with: one word, or behind `slip` two.
fn no_command(words: &[OsString]) -> Trouble {
    let names: Vec<&str> = COMMANDS.iter().map(|command| command.name).collect();
    let no_name = |name: String, names: &[&str]| format!("there is no command '{name}'{}", did_you_mean(&name, names));
    let of_slips = |message| Trouble::Usage { message, help: "koivrast help slip".into() };
    match words {
        [first] if first == "slip" => of_slips("slip: sign or read?".into()),
        [first, second, ..] if first == "slip" => of_slips(no_name(format!("slip {}", second.display()), &names)),
        _ => usage(no_name(words[0].display().to_string(), &[&names[..], &["slip", "help"]].concat())),
    }
}
