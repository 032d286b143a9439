//! The options of a subcommand: `--name value` pairs, and words without a dash.

pub struct Options<'a> {
    words: Vec<&'a str>,
    pairs: Vec<(&'a str, &'a str)>,
}

impl<'a> Options<'a> {
    /// `flags` are the options without a value.
    pub fn parse(words: &[&'a str], flags: &[&str]) -> Result<Self, String> {
        let mut options = Self {
            words: Vec::new(),
            pairs: Vec::new(),
        };
        let mut rest = words.iter();
        while let Some(word) = rest.next() {
            match word.strip_prefix("--") {
                None => options.words.push(word),
                Some(name) if flags.contains(&name) => options.pairs.push((name, "")),
                Some(name) => {
                    let value = rest.next().ok_or(format!("--{name} needs a value"))?;
                    options.pairs.push((name, value));
                }
            }
        }
        Ok(options)
    }

    /// Fails on an option that is not in `names`.
    pub fn only(&self, names: &[&str]) -> Result<(), String> {
        match self.pairs.iter().find(|(name, _)| !names.contains(name)) {
            Some((name, _)) => Err(format!("no option --{name} here")),
            None => Ok(()),
        }
    }

    pub fn words(&self) -> &[&'a str] {
        &self.words
    }

    pub fn text(&self, name: &str) -> Option<&'a str> {
        let last = self.pairs.iter().rev().find(|(n, _)| *n == name)?;
        Some(last.1)
    }

    pub fn has(&self, name: &str) -> bool {
        self.text(name).is_some()
    }

    pub fn number<T: std::str::FromStr>(&self, name: &str, default: T) -> Result<T, String> {
        match self.text(name) {
            None => Ok(default),
            Some(text) => text
                .parse()
                .map_err(|_| format!("--{name} {text}: not a number of its kind")),
        }
    }

    /// `count` numbers with commas between, where the option is given.
    pub fn numbers(&self, name: &str, count: usize) -> Result<Option<Vec<f64>>, String> {
        let Some(text) = self.text(name) else {
            return Ok(None);
        };
        let all: Result<Vec<f64>, _> = text.split(',').map(str::parse).collect();
        match all {
            Ok(all) if all.len() == count => Ok(Some(all)),
            _ => Err(format!(
                "--{name} takes {count} numbers with commas between"
            )),
        }
    }
}
