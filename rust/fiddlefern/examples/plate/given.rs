//! The arguments by name, each with its value.
use std::ffi::OsString;

const NAMES: [&str; 8] = [
    "--n", "--r", "--s", "--e", "--lose", "--mode", "--size", "--out",
];

pub struct Given(Vec<(&'static str, OsString)>);

impl Given {
    pub fn new(words: Vec<OsString>) -> Result<Given, String> {
        let named = |word: &OsString| NAMES.into_iter().find(|name| word == name);
        let mut given = Given(Vec::new());
        let mut words = words.into_iter();
        while let Some(word) = words.next() {
            let Some(name) = named(&word) else {
                let word = word.display();
                return Err(format!("there is no argument {word}; --help lists them"));
            };
            let value = words.next().filter(|value| named(value).is_none());
            let value = value.ok_or_else(|| format!("{name} needs a value after it"))?;
            if given.value(name).is_some() {
                return Err(format!("{name} is given twice"));
            }
            given.0.push((name, value));
        }
        Ok(given)
    }

    pub fn value(&self, name: &str) -> Option<&OsString> {
        let found = self.0.iter().find(|(given, _)| *given == name);
        found.map(|(_, value)| value)
    }

    /// The number by this name, if there is one.
    pub fn number(&self, name: &str) -> Result<Option<usize>, String> {
        let Some(value) = self.value(name) else {
            return Ok(None);
        };
        let number = value.to_str().and_then(|text| text.parse().ok());
        match number {
            Some(number) => Ok(Some(number)),
            None => Err(format!(
                "{name} takes a whole number, and {} is none",
                value.display()
            )),
        }
    }

    /// The two numbers by this name, if there are any.
    pub fn pair(&self, name: &str) -> Result<Option<[usize; 2]>, String> {
        let Some(value) = self.value(name) else {
            return Ok(None);
        };
        let parts = value.to_str().unwrap_or_default().split(',');
        let numbers: Vec<Option<usize>> = parts.map(|part| part.parse().ok()).collect();
        match numbers[..] {
            [Some(first), Some(second)] => Ok(Some([first, second])),
            _ => Err(format!(
                "{name} takes two whole numbers with a comma between them, and {} is not that",
                value.display()
            )),
        }
    }
}
