//! The arguments of the program.

use std::path::PathBuf;
use std::time::Duration;

pub const HELP: &str = "\
compare: holds the programs `calls` and `replay` to `second-calls` and `second-replay`

usage: compare [--product DIR] [--second DIR] [--seed N] [--lists N] [--soak MINUTES]

  --product DIR    folder of `calls` and `replay`                (target/bin)
  --second DIR     folder of `second-calls` and `second-replay`  (second/target/release)
  --seed N         seed of the lists                             (8446)
  --lists N        how many random lists                         (3000)
  --soak MINUTES   after one pass, go on with new seeds for so long
  --help           print this

Exit status: 0 no difference and every reachable answer seen; 1 a difference, a wrong answer or
an answer never seen; 2 bad arguments.";

/// What the arguments ask for.
#[derive(Debug)]
pub struct Args {
    pub product: PathBuf,
    pub second: PathBuf,
    pub seed: u64,
    pub lists: u64,
    pub soak: Option<Duration>,
}

/// A pass, or only the help.
#[derive(Debug)]
pub enum Asked {
    Pass(Args),
    Help,
}

/// Reads the arguments; the error says what is wrong with them.
pub fn read(mut words: impl Iterator<Item = String>) -> Result<Asked, String> {
    let mut args = Args {
        product: PathBuf::from("target/bin"),
        second: PathBuf::from("second/target/release"),
        seed: 8446,
        lists: 3000,
        soak: None,
    };
    while let Some(word) = words.next() {
        if word == "--help" || word == "-h" {
            return Ok(Asked::Help);
        }
        let known = ["--product", "--second", "--seed", "--lists", "--soak"];
        if !known.contains(&word.as_str()) {
            return Err(format!("unknown argument `{word}`"));
        }
        let value = words
            .next()
            .ok_or_else(|| format!("{word} needs a value behind it"))?;
        match word.as_str() {
            "--product" => args.product = PathBuf::from(value),
            "--second" => args.second = PathBuf::from(value),
            "--seed" => args.seed = number(&word, &value)?,
            "--lists" => args.lists = number(&word, &value)?,
            _ => args.soak = Some(minutes(&word, &value)?),
        }
    }
    Ok(Asked::Pass(args))
}

fn number(word: &str, value: &str) -> Result<u64, String> {
    value
        .parse()
        .map_err(|_| format!("{word} takes a whole number, not `{value}`"))
}

fn minutes(word: &str, value: &str) -> Result<Duration, String> {
    let minutes: u64 = number(word, value)?;
    let seconds = minutes.checked_mul(60);
    let seconds = seconds.filter(|&seconds| seconds <= 60 * 60 * 24 * 365);
    seconds
        .map(Duration::from_secs)
        .ok_or_else(|| format!("{word} takes at most a year of minutes, not `{value}`"))
}

#[cfg(test)]
mod tests {
    use super::{read, Asked};

    fn words(text: &str) -> Result<Asked, String> {
        read(text.split_whitespace().map(String::from))
    }

    #[test]
    fn takes_what_the_help_names() {
        let Ok(Asked::Pass(args)) = words("--seed 7 --lists 0 --product a --second b --soak 2")
        else {
            panic!("refused");
        };
        assert_eq!((args.seed, args.lists), (7, 0));
        assert_eq!(args.soak.map(|soak| soak.as_secs()), Some(120));
        assert!(matches!(words("--help"), Ok(Asked::Help)));
    }

    #[test]
    fn says_what_is_wrong() {
        for text in [
            "--seed",
            "--seed x",
            "--lists -1",
            "seed 7",
            "--soak 99999999",
        ] {
            assert!(words(text).is_err(), "{text}");
        }
    }
}
