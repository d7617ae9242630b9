//! The commands that the documents give, run as they stand there.
//!
//! In Markdown a command stands in a block marked `console`, after `$ `, and what
//! stands after it, up to the next command, is all that it prints. In a comment of
//! a C file a command is a line of its own, after `$ `. A command with nothing
//! after it has to end well.

use crate::named::text;
use std::path::Path;
use std::process::{Command, Stdio};

const DOCUMENTS: [&str; 7] = [
    "README.md",
    "docs/FORMAT.md",
    "docs/DESIGN.md",
    "CONTRIBUTING.md",
    "CHANGES.md",
    "include/toqhaymi.h",
    "examples/load.c",
];
/// What runs these commands is not run by them, nor what proves again all that the gate proves.
const RUNNERS: [&str; 5] = [".ci/run", "tests/run", "rt ci", "rt ci bigendian", "rt all check"];
/// What tests/run has done to set up, by these words, where it has the prover.
const SET_UP: &str = "tools/build";

struct Given {
    at: String,
    command: String,
    prints: String,
}

impl Given {
    fn first_word(&self) -> &str {
        self.command.split(' ').next().unwrap_or("")
    }

    fn is_runner(&self) -> bool {
        RUNNERS.contains(&self.command.as_str())
    }

    /// Its words, each a row of letters, digits, '-', '/' and '.'.
    fn words(&self) -> impl Iterator<Item = &str> {
        let is_part = |c: char| c.is_alphanumeric() || c == '-' || c == '/' || c == '.';
        self.command.split(move |c| !is_part(c))
    }

    /// Whether it names a tool that is not there.
    fn lacks(&self, without: &[&str]) -> bool {
        self.words().any(|word| without.contains(&word))
    }

    /// Whether it calls the prover, as in "(cd crates/sizes && rt check)".
    fn proves(&self) -> bool {
        self.words().any(|word| word == "rt")
    }

    /// What the prover and the tests make belongs under the root's own folders.
    fn folder<'a>(&self, folder: &'a Path) -> &'a Path {
        let is_ours = |name: &&str| self.first_word().starts_with(name);
        match self.proves() || ["tests/", "tools/"].iter().any(is_ours) {
            true => Path::new("."),
            false => folder,
        }
    }

    fn run(&self, folder: &Path) -> Result<(), String> {
        let told = |failure: String| format!("{}: $ {}\n{failure}", self.at, self.command);
        let mut shell = Command::new("sh");
        shell.args(["-c", &format!("exec 2>&1\n{}", self.command)]);
        shell.current_dir(self.folder(folder)).stdin(Stdio::null());
        if self.folder(folder) == folder {
            // The archive is where the documents say.
            shell.env_remove("TOQHAYMI_LIB");
        }
        let output = shell.output().map_err(|error| told(error.to_string()))?;
        let printed = String::from_utf8_lossy(&output.stdout);
        if self.prints.is_empty() && !output.status.success() {
            return Err(told(format!("{}\n{printed}", output.status)));
        }
        if !self.prints.is_empty() && printed != self.prints {
            return Err(told(format!("prints:\n{printed}and not, as stated:\n{}", self.prints)));
        }
        Ok(())
    }
}

/// The commands of a document, in its order.
fn commands(name: &str, text: &str) -> Vec<Given> {
    let mut found: Vec<Given> = Vec::new();
    let is_markdown = name.ends_with(".md");
    let mut inside = !is_markdown;
    for (number, line) in text.lines().enumerate() {
        if is_markdown && line.starts_with("```") {
            inside = !inside && line == "```console";
            continue;
        }
        let line = if is_markdown { line } else { line.trim_start_matches([' ', '*']) };
        if let (true, Some(command)) = (inside, line.strip_prefix("$ ")) {
            let at = format!("{name}:{}", number + 1);
            found.push(Given { at, command: command.to_string(), prints: String::new() });
        } else if let (true, true, Some(last)) = (inside, is_markdown, found.last_mut()) {
            last.prints += &format!("{line}\n");
        }
    }
    found
}

/// All commands, in a folder that looks like a clone with its programs built. What
/// the prover has done once it does not do again.
pub fn run(folder: &Path, without: &[&str]) -> Result<String, String> {
    let (mut count, mut left_out) = (0, 0);
    let mut proved: Vec<String> = match without.contains(&"rt") {
        true => Vec::new(),
        false => vec![SET_UP.to_string()],
    };
    for name in DOCUMENTS {
        for given in commands(name, &text(name)?) {
            if given.is_runner() || proved.contains(&given.command) {
                continue;
            }
            if given.lacks(without) {
                left_out += 1;
                continue;
            }
            given.run(folder)?;
            count += 1;
            if given.proves() {
                proved.push(given.command);
            }
        }
    }
    match left_out {
        0 => Ok(format!("{count} commands do as stated")),
        _ => Ok(format!(
            "{count} commands do as stated; {left_out} were not run, without {}",
            without.join(", ")
        )),
    }
}

#[cfg(test)]
mod tests {
    use super::commands;

    #[test]
    fn finds_commands_and_what_they_print() {
        let text = "$ no\n```console\n$ echo 1\n1\n$ true\n```\n```c\n$ no\n```\n";
        let found = commands("a.md", text);
        let found: Vec<_> =
            found.iter().map(|given| (given.command.as_str(), given.prints.as_str())).collect();
        assert_eq!(found, [("echo 1", "1\n"), ("true", "")]);
        assert_eq!(commands("a.c", "/*\n *   $ true\n *   false\n */\n").len(), 1);
    }
}
