//! The arguments of a program.

use crate::program::Program;
use model::Edition;

const MOST_THREADS: u64 = 256;

/// What to run.
#[derive(Clone, Copy, Debug, PartialEq, Eq)]
pub struct Options {
    /// How many comparisons.
    pub count: u64,
    pub seed: u64,
    pub threads: u64,
    /// The edition that the model follows.
    pub edition: Edition,
}

#[derive(Clone, Debug, PartialEq, Eq)]
pub enum Request {
    Help,
    Compare(Options),
}

/// Reads the arguments; a mistake in them comes back as a sentence.
pub fn read(program: &Program, mut words: impl Iterator<Item = String>) -> Result<Request, String> {
    let mut options = Options {
        count: program.usual,
        seed: 1,
        threads: 1,
        edition: Edition::Mended,
    };
    while let Some(word) = words.next() {
        let slot = match word.as_str() {
            "--help" | "-h" => return Ok(Request::Help),
            "--edition" if program.takes_edition => {
                options.edition = edition(words.next())?;
                continue;
            }
            "--seed" => &mut options.seed,
            "--threads" => &mut options.threads,
            other if other.strip_prefix("--") == Some(program.counted) => &mut options.count,
            _ => return Err(format!("there is no argument \"{word}\"")),
        };
        let value = words
            .next()
            .ok_or_else(|| format!("{word} needs a number"))?;
        *slot = value.parse().map_err(|_| {
            format!(
                "{word} needs a number from 0 to {}, not \"{value}\"",
                u64::MAX
            )
        })?;
    }
    if options.count == 0 {
        return Err(format!("--{} must be at least 1", program.counted));
    }
    if !(1..=MOST_THREADS).contains(&options.threads) {
        return Err(format!("--threads must be 1 to {MOST_THREADS}"));
    }
    Ok(Request::Compare(options))
}

fn edition(word: Option<String>) -> Result<Edition, String> {
    let named = |edition: &Edition| word.as_deref() == Some(edition.name());
    let found = Edition::ALL.into_iter().find(named);
    found.ok_or_else(|| "--edition needs printed or mended".into())
}

#[cfg(test)]
mod tests {
    use super::{read, Options, Request};
    use crate::program::Program;
    use model::Edition;

    const PROGRAM: Program = Program {
        name: "tested",
        help: "",
        counted: "calls",
        usual: 7,
        takes_edition: true,
    };

    fn of(line: &str) -> Result<Request, String> {
        read(&PROGRAM, line.split_whitespace().map(String::from))
    }

    #[test]
    fn has_defaults() {
        let wanted = Options {
            count: 7,
            seed: 1,
            threads: 1,
            edition: Edition::Mended,
        };
        assert_eq!(of(""), Ok(Request::Compare(wanted)));
    }

    #[test]
    fn reads_all_four() {
        let wanted = Options {
            count: 1_000_000_000,
            seed: 18_446_744_073_709_551_615,
            threads: 2,
            edition: Edition::Printed,
        };
        let line = "--threads 2 --edition printed --seed 18446744073709551615 --calls 1000000000";
        assert_eq!(of(line), Ok(Request::Compare(wanted)));
    }

    #[test]
    fn takes_no_edition_where_there_is_none() {
        let reader = Program {
            takes_edition: false,
            ..PROGRAM
        };
        let words = ["--edition", "mended"].map(String::from);
        assert!(read(&reader, words.into_iter()).is_err());
    }

    #[test]
    fn rejects_what_it_cannot_read() {
        let lines = [
            "--call 5",
            "--inputs 5",
            "--calls",
            "--calls many",
            "--calls -1",
            "--calls 0",
            "--threads 0",
            "--threads 257",
            "--edition",
            "--edition 102",
            "calls 5",
            "5",
        ];
        for line in lines {
            assert!(of(line).is_err(), "{line}");
        }
    }
}
