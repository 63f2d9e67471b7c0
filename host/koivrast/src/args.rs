//! The words behind a command: options with a value (`--name value` or `--name=value`), options without one, files.

use crate::trouble::Trouble;
use std::ffi::{OsStr, OsString};
use std::fmt::Display;
use std::num::IntErrorKind;
use std::os::unix::ffi::{OsStrExt, OsStringExt};
use std::path::{Path, PathBuf};
use std::str::FromStr;

/// How many files a command takes without an option before them.
#[derive(Clone, Copy, PartialEq, Eq, Debug)]
pub enum Operands {
    None,
    One,
    OneOrMore,
}

/// What a command takes.
#[derive(Debug)]
pub struct Syntax {
    /// Options with a value that have to be there.
    pub required: &'static [&'static str],
    /// Options with a value that may be left out.
    pub optional: &'static [&'static str],
    /// Options without a value.
    pub flags: &'static [&'static str],
    pub operands: Operands,
}

/// What a command was given.
#[derive(Debug)]
pub struct Args {
    command: &'static str,
    values: Vec<(&'static str, OsString)>,
    flags: Vec<&'static str>,
    operands: Vec<PathBuf>,
}

impl Args {
    /// Sorts the words behind the command's name, or says what is wrong with them.
    pub fn parse(command: &'static str, syntax: &Syntax, words: &[OsString]) -> Result<Args, Trouble> {
        let mut args = Args { command, values: vec![], flags: vec![], operands: vec![] };
        let mut words = words.iter();
        while let Some(word) = words.next() {
            match option(word) {
                None => args.operands.push(word.into()),
                Some((name, None)) if name == "--" => args.operands.extend(words.by_ref().map(PathBuf::from)),
                Some((name, given)) => args.take(syntax, &name, given, &mut words)?,
            }
        }
        args.complete(syntax)?;
        Ok(args)
    }

    /// Takes one option, and its value from the next word where it does not carry one.
    fn take(
        &mut self,
        syntax: &Syntax,
        name: &str,
        given: Option<OsString>,
        words: &mut std::slice::Iter<OsString>,
    ) -> Result<(), Trouble> {
        let known = |names: &'static [&'static str]| names.iter().copied().find(|&known| known == name);
        if self.flag(name) || self.value(name).is_some() {
            return Err(self.usage(format!("{name} is given twice")));
        }
        if let Some(flag) = known(syntax.flags) {
            self.flags.push(flag);
            return if given.is_none() { Ok(()) } else { Err(self.usage(format!("{name} takes no value"))) };
        }
        let Some(option) = known(syntax.required).or(known(syntax.optional)) else {
            let names = [syntax.required, syntax.optional, syntax.flags].concat();
            return Err(self.usage(format!("there is no option {name}{}", did_you_mean(name, &names))));
        };
        let value = given.or_else(|| words.next().filter(|word| !word.as_bytes().starts_with(b"--")).cloned());
        match value.filter(|value| !value.is_empty()) {
            Some(value) => self.values.push((option, value)),
            None => return Err(self.usage(format!("{name} needs a value"))),
        }
        Ok(())
    }

    /// Is all there that has to be?
    fn complete(&self, syntax: &Syntax) -> Result<(), Trouble> {
        let missing: Vec<&str> = syntax.required.iter().copied().filter(|name| self.value(name).is_none()).collect();
        if !missing.is_empty() {
            let word = if missing.len() == 1 { "option" } else { "options" };
            return Err(self.usage(format!("missing {word} {}", missing.join(", "))));
        }
        match (syntax.operands, self.operands.len()) {
            (Operands::None, 0) | (Operands::One, 1) => Ok(()),
            (Operands::OneOrMore, n) if n > 0 => Ok(()),
            (_, 0) => Err(self.usage("no file is named".into())),
            (operands, _) => {
                let extra = self.operands[usize::from(operands == Operands::One)].display();
                Err(self.usage(format!("'{extra}' is one word too many")))
            }
        }
    }

    /// Trouble with how the command was called.
    pub fn usage(&self, message: String) -> Trouble {
        Trouble::Usage { message: format!("{}: {message}", self.command), help: format!("koivrast help {}", self.command) }
    }

    pub fn flag(&self, name: &str) -> bool {
        self.flags.contains(&name)
    }

    pub fn value(&self, name: &str) -> Option<&OsStr> {
        self.values.iter().find(|(known, _)| *known == name).map(|(_, value)| value.as_os_str())
    }

    /// A required option as a path.
    pub fn path(&self, name: &str) -> &Path {
        Path::new(self.value(name).expect("a required option is there"))
    }

    /// An option as a number. One that is too large for the type is too large for every check, too.
    pub fn number(&self, name: &str) -> Result<Option<u32>, Trouble> {
        let Some(value) = self.value(name) else { return Ok(None) };
        match value.to_string_lossy().parse() {
            Ok(number) => Ok(Some(number)),
            Err(error) if *error.kind() == IntErrorKind::PosOverflow => Ok(Some(u32::MAX)),
            Err(_) => Err(self.usage(format!("{name} wants a number, not '{}'", value.display()))),
        }
    }

    /// A required option as a number.
    pub fn required_number(&self, name: &str) -> Result<u32, Trouble> {
        self.number(name).map(|number| number.expect("a required option is there"))
    }

    /// A required option as a number of a field that holds no larger one than this.
    pub fn field<T: FromStr + Display>(&self, name: &str, largest: T) -> Result<T, Trouble> {
        let value = self.value(name).expect("a required option is there").to_string_lossy();
        value.parse().map_err(|_| self.usage(format!("{name} wants a number from 0 to {largest}, not '{value}'")))
    }

    pub fn operands(&self) -> &[PathBuf] {
        &self.operands
    }

    /// Only one of these can be standard input.
    pub fn one_standard_input<'a>(&self, paths: impl IntoIterator<Item = &'a Path>) -> Result<(), Trouble> {
        match paths.into_iter().filter(|path| path.as_os_str() == "-").count() {
            0 | 1 => Ok(()),
            _ => Err(self.usage("only one file can be '-': there is one standard input".into())),
        }
    }
}

/// Name and value of a word that is an option; `-` is a file.
fn option(word: &OsStr) -> Option<(String, Option<OsString>)> {
    let bytes = word.as_bytes();
    if bytes.first() != Some(&b'-') || bytes == b"-" {
        return None;
    }
    let (name, value) = match bytes.iter().position(|&byte| byte == b'=') {
        Some(at) => (&bytes[..at], Some(OsString::from_vec(bytes[at + 1..].to_vec()))),
        None => (bytes, None),
    };
    Some((String::from_utf8_lossy(name).into_owned(), value))
}

/// `; did you mean sign?`, or nothing where no name is near.
pub fn did_you_mean(word: &str, names: &[&str]) -> String {
    let nearest = names.iter().map(|name| (distance(word, name), name)).min();
    nearest.filter(|&(distance, _)| distance <= 2).map_or(String::new(), |(_, name)| format!("; did you mean {name}?"))
}

/// How many letters have to be put in, taken out or changed (Levenshtein).
fn distance(a: &str, b: &str) -> usize {
    let mut row: Vec<usize> = (0..=b.chars().count()).collect();
    for (i, x) in a.chars().enumerate() {
        let mut corner = i;
        row[0] = i + 1;
        for (j, y) in b.chars().enumerate() {
            let change = corner + usize::from(x != y);
            corner = row[j + 1];
            row[j + 1] = change.min(corner + 1).min(row[j] + 1);
        }
    }
    row[b.chars().count()]
}

#[cfg(test)]
mod tests {
    use super::*;

    const SYNTAX: Syntax =
        Syntax { required: &["--key", "--out"], optional: &["--attempts"], flags: &["--force"], operands: Operands::None };

    fn parse(syntax: &Syntax, line: &str) -> Result<Args, String> {
        let words: Vec<OsString> = line.split_whitespace().map(OsString::from).collect();
        Args::parse("sign", syntax, &words).map_err(|trouble| trouble.to_string())
    }

    fn refused(line: &str, message: &str) {
        let said = parse(&SYNTAX, line).unwrap_err();
        assert_eq!(said, format!("koivrast: sign: {message}\nTry: koivrast help sign\n"), "{line}");
    }

    #[test]
    fn both_forms_of_an_option() {
        for line in ["--key a --out b=c --attempts 3 --force", "--force --out=b=c --attempts=3 --key=a"] {
            let args = parse(&SYNTAX, line).unwrap();
            assert_eq!((args.path("--key"), args.path("--out")), (Path::new("a"), Path::new("b=c")));
            assert_eq!(args.number("--attempts").unwrap(), Some(3));
            assert!(args.flag("--force"));
        }
        let args = parse(&SYNTAX, "--key - --out=--strange").unwrap();
        assert_eq!((args.path("--key"), args.path("--out")), (Path::new("-"), Path::new("--strange")));
        assert_eq!(args.number("--attempts").unwrap(), None);
        assert!(!args.flag("--force"));
    }

    #[test]
    fn wrong_words_are_named() {
        refused("", "missing options --key, --out");
        refused("--key a", "missing option --out");
        refused("--key a --out", "--out needs a value");
        refused("--key --out b", "--key needs a value");
        refused("--key= --out b", "--key needs a value");
        refused("--key a --key=c --out b", "--key is given twice");
        refused("--force --force", "--force is given twice");
        refused("--force=yes", "--force takes no value");
        refused("--kye a", "there is no option --kye; did you mean --key?");
        refused("--message-digest a", "there is no option --message-digest");
        refused("-k a", "there is no option -k");
        refused("--key a --out b c", "'c' is one word too many");
    }

    #[test]
    fn numbers() {
        let number = |text: &str| parse(&SYNTAX, &format!("--key a --out b --attempts={text}")).unwrap().number("--attempts");
        assert_eq!(number("017").unwrap(), Some(17));
        assert_eq!(number("99999999999999999999").unwrap(), Some(u32::MAX));
        for text in ["four", "-1", "1.5", "0x10"] {
            let said = number(text).unwrap_err().to_string();
            assert!(said.starts_with(&format!("koivrast: sign: --attempts wants a number, not '{text}'\n")), "{said}");
        }
    }

    #[test]
    fn fields() {
        let args = |text: &str| parse(&SYNTAX, &format!("--key a --out {text}")).unwrap();
        assert_eq!((args("0").field("--out", u8::MAX).unwrap(), args("255").field("--out", u8::MAX).unwrap()), (0, 255));
        assert_eq!(args("65535").field("--out", u16::MAX).unwrap(), 65535);
        for text in ["256", "-1", "99999999999999999999", "4.0", "four"] {
            let said = args(text).field("--out", u8::MAX).unwrap_err().to_string();
            assert!(said.starts_with(&format!("koivrast: sign: --out wants a number from 0 to 255, not '{text}'\n")), "{said}");
        }
        assert!(args("65536").field("--out", u16::MAX).is_err());
    }

    #[test]
    fn files_without_an_option() {
        let one = Syntax { required: &[], optional: &[], flags: &["--force"], operands: Operands::One };
        let more = Syntax { operands: Operands::OneOrMore, ..one };
        assert_eq!(parse(&one, "a").unwrap().operands(), ["a"].map(PathBuf::from));
        assert_eq!(parse(&one, "-- --force").unwrap().operands(), ["--force"].map(PathBuf::from));
        assert_eq!(parse(&more, "a - b").unwrap().operands(), ["a", "-", "b"].map(PathBuf::from));
        assert!(parse(&one, "").unwrap_err().contains("no file is named"));
        assert!(parse(&more, "--force").unwrap_err().contains("no file is named"));
        assert!(parse(&one, "a b").unwrap_err().contains("'b' is one word too many"));
    }

    #[test]
    fn one_standard_input() {
        let args = parse(&SYNTAX, "--key a --out b").unwrap();
        assert!(args.one_standard_input(["-", "a"].map(Path::new)).is_ok());
        assert!(args.one_standard_input(["-", "a", "-"].map(Path::new)).is_err());
    }
}
