//! Why the cache has nothing for a call.
use std::fmt::{self, Display};
use std::path::PathBuf;

/// How something is otherwise on which a call depends.
#[derive(Clone, Copy, PartialEq, Eq, Debug)]
pub enum Change {
    /// A file has another content.
    Content,
    /// A file whose time counts has another.
    Time,
    /// A file or a folder is gone, or can't be read.
    Gone,
    /// There is something where nothing was.
    New,
    /// A folder has other names.
    Names,
    /// A path leads elsewhere.
    Place,
    /// A variable has another value.
    Variable,
}

impl Change {
    /// A word for it.
    pub const fn name(self) -> &'static str {
        match self {
            Change::Content => "changed",
            Change::Time => "time",
            Change::Gone => "gone",
            Change::New => "new",
            Change::Names => "names",
            Change::Place => "place",
            Change::Variable => "variable",
        }
    }
}

/// What isn't as it was of all on which a call depends.
#[derive(Clone, PartialEq, Eq, Debug)]
pub struct Difference {
    /// Its path, seen from the call's working directory, or a variable's name.
    pub name: PathBuf,
    /// What has become of it.
    pub change: Change,
}

impl Display for Difference {
    fn fmt(&self, out: &mut fmt::Formatter<'_>) -> fmt::Result {
        let name = self.name.display();
        match self.change {
            Change::Content => write!(out, "{name} has changed"),
            Change::Time => write!(out, "{name} has another time"),
            Change::Gone => write!(out, "{name} is gone, or can't be read"),
            Change::New => write!(out, "{name} is new"),
            Change::Names => write!(out, "{name} has other files"),
            Change::Place => write!(out, "{name} leads elsewhere"),
            Change::Variable => write!(out, "the variable {name} has another value"),
        }
    }
}

/// Why the cache has nothing for a call.
#[derive(Clone, PartialEq, Eq, Debug)]
pub enum Miss {
    /// Calls aren't looked up as a whole, and why.
    NotLookedUp(&'static str),
    /// It has no call of these words and variables.
    Unknown,
    /// It has, but doesn't keep them as a whole, and why.
    Refused(String),
    /// What one depends on isn't as it was.
    Input(Difference),
    /// All is as it was, but what the call made is no longer there.
    NoAnswer,
    /// Its messages are for another kind of terminal.
    Terminal,
    /// A product can't be put in its place.
    Product(PathBuf),
}

impl Miss {
    /// A word for it.
    pub const fn name(&self) -> &'static str {
        match self {
            Miss::NotLookedUp(_) => "not looked up",
            Miss::Unknown => "unknown",
            Miss::Refused(_) => "not kept",
            Miss::Input(_) => "input",
            Miss::NoAnswer => "no answer",
            Miss::Terminal => "terminal",
            Miss::Product(_) => "product",
        }
    }

    /// Of two reasons, for keys of one call, the one that says more: a key under which nothing is says least.
    #[must_use]
    pub fn or(self, other: Miss) -> Miss {
        if self == Miss::Unknown { other } else { self }
    }
}

impl Display for Miss {
    fn fmt(&self, out: &mut fmt::Formatter<'_>) -> fmt::Result {
        match self {
            Miss::NotLookedUp(why) => write!(out, "no call is looked up as a whole: {why}"),
            Miss::Unknown => out.write_str("it has no call of these words and variables"),
            Miss::Refused(why) => write!(out, "it does not keep the call as a whole: {why}"),
            Miss::Input(difference) => difference.fmt(out),
            Miss::NoAnswer => out.write_str("what the call made was thrown away"),
            Miss::Terminal => out.write_str("its messages are for another kind of terminal"),
            Miss::Product(path) => write!(out, "{} can't be written", path.display()),
        }
    }
}

#[cfg(test)]
mod tests {
    use super::*;

    #[test]
    fn of_two_reasons_the_one_counts_that_says_more() {
        let input = Miss::Input(Difference { name: "a.h".into(), change: Change::New });
        assert_eq!(Miss::Unknown.or(input.clone()), input);
        assert_eq!(input.clone().or(Miss::Unknown), input);
        assert_eq!(input.clone().or(Miss::NoAnswer).to_string(), "a.h is new");
        assert_eq!(Miss::Unknown.or(Miss::Unknown), Miss::Unknown);
    }
}
