//! What a run of the tests is asked for.

use std::ops::Range;

/// The operations that may be run alone.
pub const OPERATIONS: [&str; 6] = ["tokens", "check", "canon", "order", "compare", "stack"];

pub struct Options {
    count: u64,
    pub seed: u64,
    only: Option<String>,
    case: Option<u64>,
}

impl Options {
    /// Options by name, and up to two numbers: those of `count` and `seed`.
    pub fn read(mut arguments: impl Iterator<Item = String>) -> Result<Options, String> {
        let mut options = Options {
            count: 100_000,
            seed: 1,
            only: None,
            case: None,
        };
        let mut numbers = 0;
        while let Some(argument) = arguments.next() {
            let mut value = || arguments.next().ok_or(format!("{argument}: no value"));
            match argument.as_str() {
                "--only" => options.only = Some(operation(value()?)?),
                "--case" => options.case = Some(number(&value()?)?),
                "--seed" => options.seed = number(&value()?)?,
                _ if numbers == 0 => options.count = number(&argument)?,
                _ if numbers == 1 => options.seed = number(&argument)?,
                _ => return Err(format!("{argument}: one argument too many")),
            }
            numbers += u32::from(!argument.starts_with("--"));
        }
        Ok(options)
    }

    pub fn takes(&self, operation: &str) -> bool {
        self.only.as_ref().is_none_or(|only| only == operation)
    }

    /// The numbers of the random cases.
    pub fn cases(&self) -> Range<u64> {
        self.one().unwrap_or(0..self.count)
    }

    /// The numbers of the random families of cases: a tenth as many.
    pub fn families(&self) -> Range<u64> {
        self.one().unwrap_or(0..self.count / 10)
    }

    fn one(&self) -> Option<Range<u64>> {
        self.case.map(|case| case..case + 1)
    }
}

fn operation(name: String) -> Result<String, String> {
    if OPERATIONS.contains(&name.as_str()) {
        Ok(name)
    } else {
        Err(format!("{name}: none of {}", OPERATIONS.join(", ")))
    }
}

fn number(text: &str) -> Result<u64, String> {
    text.parse().map_err(|_| format!("{text}: no number"))
}
