//! The programs' options: `--name value` and `--name` alone. A number that is
//! not given may come from the environment, as COMPARE_NAME.

use std::process::exit;
use std::str::FromStr;

pub struct Options {
    usage: &'static str,
    given: Vec<(String, String)>,
}

impl Options {
    /// Reads the program's arguments. `valued` options have a value behind
    /// them, `flags` have none; anything else ends the program.
    pub fn read(usage: &'static str, valued: &[&str], flags: &[&str]) -> Options {
        let mut options = Options { usage, given: Vec::new() };
        let mut arguments = std::env::args().skip(1);
        while let Some(argument) = arguments.next() {
            let name = argument.strip_prefix("--").unwrap_or("");
            if flags.contains(&name) {
                options.given.push((name.to_string(), String::new()));
            } else if valued.contains(&name) {
                let Some(value) = arguments.next() else { options.stop() };
                options.given.push((name.to_string(), value));
            } else {
                options.stop();
            }
        }
        options
    }

    pub fn flag(&self, name: &str) -> bool {
        self.text(name).is_some()
    }

    pub fn text(&self, name: &str) -> Option<&str> {
        let (_, value) = self.given.iter().rev().find(|(given, _)| given == name)?;
        Some(value)
    }

    /// A number from the arguments, the environment, or the usual one.
    pub fn number<N: FromStr>(&self, name: &str, usual: N) -> N {
        let variable = format!("COMPARE_{}", name.to_uppercase().replace('-', "_"));
        let environment = std::env::var(variable).ok();
        match self.text(name).or(environment.as_deref()) {
            Some(text) => text.parse().unwrap_or_else(|_| self.stop()),
            None => usual,
        }
    }

    /// Says how the program is used, and ends it.
    pub fn stop(&self) -> ! {
        eprintln!("usage: {}", self.usage);
        exit(2)
    }
}
