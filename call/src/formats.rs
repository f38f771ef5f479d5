//! The formats of plans.
use crate::compdb;
use crate::error::Error;
use crate::memory::copied;
use crate::plan::Plan;
use rattle_std::alloc::Global;

/// What a plan is written as.
#[derive(Clone, Copy, Debug, PartialEq, Eq, Hash)]
#[non_exhaustive]
pub enum Format {
    /// All there is to know, for programs.
    Json,
    /// A Ninja file.
    Ninja,
    /// A script for a POSIX shell.
    Shell,
    /// A compilation database, for clang's tools.
    Compdb,
    /// A few lines for people, without quotes.
    Text,
}

impl Format {
    /// All formats: the list that help, completion, the manual and tests go by.
    pub const ALL: [Format; 5] = [Format::Json, Format::Ninja, Format::Shell, Format::Compdb, Format::Text];

    /// Its name, as people type it.
    #[must_use]
    pub const fn name(self) -> &'static str {
        match self {
            Format::Json => "json",
            Format::Ninja => "ninja",
            Format::Shell => "shell",
            Format::Compdb => "compdb",
            Format::Text => "text",
        }
    }

    /// What it is good for.
    #[must_use]
    pub const fn about(self) -> &'static str {
        match self {
            Format::Json => "all that is known of each command, for programs",
            Format::Ninja => "a file for ninja",
            Format::Shell => "a script for sh",
            Format::Compdb => "compile_commands.json, for clang's tools",
            Format::Text => "lines for people",
        }
    }

    /// The format of a name.
    #[must_use]
    pub fn named(name: &str) -> Option<Format> {
        Format::ALL.into_iter().find(|format| format.name() == name)
    }

    /// A plan as a file in this format.
    pub(crate) fn file(self, plan: &Plan) -> Result<String, Error> {
        let format = match self {
            Format::Json => plan_texts::Format::Json,
            Format::Ninja => plan_texts::Format::Ninja,
            Format::Shell => plan_texts::Format::Shell,
            Format::Compdb => return Ok(compdb::text(plan)?),
            Format::Text => plan_texts::Format::Text,
        };
        let text =
            plan_formats::plan_file(Global, format, plan.cwd(), plan.tmp(), plan.flag(), plan.proved())?;
        Ok(copied(text.as_str())?)
    }
}

impl Plan {
    /// The plan in a format. It ends in a newline.
    ///
    /// # Errors
    ///
    /// [`ErrorKind::Unwritable`](crate::ErrorKind) if the format can't represent the plan, `OutOfMemory`.
    pub fn text(&self, format: Format) -> Result<String, Error> {
        format.file(self)
    }
}

#[cfg(test)]
mod tests {
    use super::*;

    #[test]
    fn each_format_has_a_name_of_its_own() {
        for format in Format::ALL {
            assert_eq!(Format::named(format.name()), Some(format));
            assert!(!format.about().is_empty());
        }
        assert_eq!(Format::named("Json"), None);
    }
}
