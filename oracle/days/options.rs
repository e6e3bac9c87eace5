//! Options of the command line: `--name value`, and words without a name.

pub struct Options {
    named: Vec<(String, String)>,
    pub words: Vec<String>,
}

/// Says what is wrong and ends the program.
pub fn fail(what: &str) -> ! {
    eprintln!("{what}");
    std::process::exit(2)
}

impl Options {
    /// The command line's, with the names that may be given.
    pub fn read(names: &[&str]) -> Options {
        let mut options = Options { named: Vec::new(), words: Vec::new() };
        let mut words = std::env::args().skip(1);
        while let Some(word) = words.next() {
            let Some(name) = word.strip_prefix("--") else {
                options.words.push(word);
                continue;
            };
            if !names.contains(&name) {
                fail(&format!("unknown option --{name}; known: {}", names.join(", ")));
            }
            let value = words.next().unwrap_or_else(|| fail(&format!("--{name} has no value")));
            options.named.push((name.to_string(), value));
        }
        options
    }

    pub fn text(&self, name: &str, otherwise: &str) -> String {
        let found = self.named.iter().rev().find(|(known, _)| known == name);
        found.map_or(otherwise.to_string(), |(_, value)| value.clone())
    }

    pub fn number(&self, name: &str, otherwise: u64) -> u64 {
        let value = self.text(name, &otherwise.to_string());
        value.parse().unwrap_or_else(|_| fail(&format!("--{name} {value}: no number")))
    }
}
