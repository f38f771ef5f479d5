//! What lines of nvcc say.
use crate::memory::{OutOfMemory, copied, copied_pairs, listed};
use std::process::Command;

/// A program to run, without a shell.
#[derive(Clone, Debug, PartialEq, Eq)]
pub struct Run {
    words: Vec<String>,
    cwd: String,
    environment: Vec<(String, String)>,
}

impl Run {
    /// A program with its words in a directory, without an environment.
    #[must_use]
    pub fn new(words: Vec<String>, cwd: String) -> Run {
        Run { words, cwd, environment: Vec::new() }
    }

    pub(crate) fn within(self, environment: Vec<(String, String)>) -> Run {
        Run { environment, ..self }
    }

    /// The program's name or path, and its words.
    #[must_use]
    pub fn words(&self) -> &[String] {
        &self.words
    }

    /// The directory that it runs in.
    #[must_use]
    pub fn cwd(&self) -> &str {
        &self.cwd
    }

    /// Its whole environment: that of the call without [`FLAG_VARIABLES`](crate::FLAG_VARIABLES), whose words
    /// are among its own.
    #[must_use]
    pub fn environment(&self) -> &[(String, String)] {
        &self.environment
    }

    /// The program with its words, directory and environment, as the standard library starts it.
    #[must_use]
    pub fn command(&self) -> Command {
        let mut command = Command::new(self.words.first().map_or("", String::as_str));
        let environment = self.environment.iter().map(|(name, value)| (name, value));
        command.args(self.words.iter().skip(1)).current_dir(&self.cwd).env_clear().envs(environment);
        command
    }

    /// The same with further words.
    pub(crate) fn with(&self, words: &[&str]) -> Result<Run, OutOfMemory> {
        let all = self.words.iter().map(String::as_str).chain(words.iter().copied());
        Ok(Run {
            words: listed(all.map(copied))?,
            cwd: copied(&self.cwd)?,
            environment: copied_pairs(self.environment.iter())?,
        })
    }

    /// The word behind an option.
    pub(crate) fn behind(&self, option: &str) -> Option<&str> {
        self.words.iter().map(String::as_str).skip_while(|word| *word != option).nth(1)
    }
}

/// What a line that is split says.
#[derive(Clone, Debug, PartialEq, Eq)]
pub struct Outline {
    /// What writes the dependency file, if the line asks for one. It's no command of the plan.
    pub dependencies: Option<Run>,
    /// The dry run of the line as it is. It says what nvcc does for the line.
    pub own_dry_run: Run,
    /// The first dry run that is planned.
    pub first_dry_run: Run,
    /// The second dry run that is planned.
    pub second_dry_run: Run,
    /// The option that says what nvcc makes, as `-c`.
    pub flag: String,
    /// How many commands may run at once, if the line or the environment says so.
    pub jobs: Option<usize>,
    /// The directory that keeps generated files, if the line names one.
    pub keep_dir: Option<String>,
}

impl Outline {
    /// The source's path, as the dry runs have it.
    #[must_use]
    pub fn input(&self) -> &str {
        // (`--dryrun` and `--keep` are behind it)
        self.first_dry_run.words().iter().rev().nth(2).map_or("", String::as_str)
    }

    /// The path of what the call makes, as the dry runs have it.
    #[must_use]
    pub fn product(&self) -> Option<&str> {
        self.first_dry_run.behind("-o")
    }

    /// The paths of what the call makes: the product, and the dependency file if there is one.
    pub fn outputs(&self) -> impl Iterator<Item = &str> {
        let rule = self.dependencies.as_ref().and_then(|run| run.behind("-MF"));
        self.product().into_iter().chain(rule)
    }
}
