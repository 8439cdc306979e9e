//! Command lines of names and values: `--seed 7 --exact`.

use std::collections::BTreeMap;
use std::str::FromStr;

/// The options that were given; a flag has an empty value.
#[derive(Debug)]
pub struct Options(BTreeMap<String, String>);

impl Options {
    /// Takes the arguments apart. `valued` are the options with a value behind
    /// them, `flags` those without.
    pub fn of(arguments: &[String], valued: &[&str], flags: &[&str]) -> Result<Options, String> {
        let mut given = BTreeMap::new();
        let mut words = arguments.iter();
        while let Some(word) = words.next() {
            let value = if flags.contains(&word.as_str()) {
                String::new()
            } else if valued.contains(&word.as_str()) {
                words.next().ok_or(format!("{word} needs a value"))?.clone()
            } else {
                return Err(format!("`{word}` is not an option"));
            };
            given.insert(word.clone(), value);
        }
        Ok(Options(given))
    }

    pub fn has(&self, name: &str) -> bool {
        self.0.contains_key(name)
    }

    pub fn text(&self, name: &str) -> Option<&str> {
        self.0.get(name).map(String::as_str)
    }

    /// The value as a number, or the number that stands for a missing one.
    pub fn number<Number: FromStr>(&self, name: &str, otherwise: Number) -> Result<Number, String> {
        match self.text(name) {
            None => Ok(otherwise),
            Some(text) => text.replace(',', "").parse().map_err(|_| format!("{name} {text} is not a number")),
        }
    }
}

#[cfg(test)]
mod tests {
    use super::*;

    fn words(text: &str) -> Vec<String> {
        text.split_whitespace().map(str::to_string).collect()
    }

    #[test]
    fn values_and_flags_are_told_apart() {
        let options = Options::of(&words("--cases 1,000 --exact"), &["--cases"], &["--exact"]).unwrap();
        assert_eq!(options.number("--cases", 5), Ok(1_000));
        assert_eq!(options.number("--seed", 5), Ok(5));
        assert!(options.has("--exact"));
        assert!(Options::of(&words("--case 1"), &["--cases"], &[]).is_err());
        assert!(Options::of(&words("--cases"), &["--cases"], &[]).is_err());
    }
}
