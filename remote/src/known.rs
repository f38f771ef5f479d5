//! What the commands of a call tell each other of servers, by a file beside their notes: each asks only what
//! none before has learnt.
use crate::connection::Abilities;
use std::fmt::{self, Display, Formatter};
use std::fs::{self, OpenOptions};
use std::io::Write;
use std::path::{Path, PathBuf};

const NAME: &str = "servers";

/// What is known of a server.
#[derive(Clone, Copy, PartialEq, Eq, Debug)]
pub enum Known {
    /// An earlier command couldn't reach it.
    Unreached,
    /// It can do this.
    Can(Abilities),
}

impl Display for Known {
    fn fmt(&self, to: &mut Formatter<'_>) -> fmt::Result {
        match self {
            Known::Unreached => write!(to, "unreached"),
            Known::Can(can) => write!(
                to,
                "{} {} {} {} {}",
                can.most_in_message, can.executes, can.takes_results, can.has_zstd, can.takes_zstd
            ),
        }
    }
}

impl Known {
    fn read(words: &[&str]) -> Option<Known> {
        match words {
            ["unreached"] => Some(Known::Unreached),
            [most, executes, takes_results, has_zstd, takes_zstd] => Some(Known::Can(Abilities {
                most_in_message: most.parse().ok()?,
                executes: executes.parse().ok()?,
                takes_results: takes_results.parse().ok()?,
                has_zstd: has_zstd.parse().ok()?,
                takes_zstd: takes_zstd.parse().ok()?,
            })),
            _ => None,
        }
    }
}

/// The file of a call, if it has one.
#[derive(Clone, PartialEq, Eq, Debug)]
pub struct Shared(Option<PathBuf>);

impl Shared {
    /// That beside a command's note.
    #[must_use]
    pub fn beside(note: Option<&str>) -> Shared {
        Shared(note.and_then(|note| Some(Path::new(note).parent()?.join(NAME))))
    }

    /// What earlier commands have learnt of a server, the last of it.
    #[must_use]
    pub fn of(&self, server: &str) -> Option<Known> {
        let text = self.0.as_ref().and_then(|file| fs::read_to_string(file).ok())?;
        text.lines().rev().find_map(|line| {
            let (name, rest) = line.split_once(' ')?;
            Known::read(&rest.split(' ').collect::<Vec<_>>()).filter(|_| name == server)
        })
    }

    /// Tells later commands.
    pub fn tell(&self, server: &str, known: Known) {
        let file =
            self.0.as_ref().and_then(|file| OpenOptions::new().append(true).create(true).open(file).ok());
        // (one write, so that lines don't mix; without it the next command asks itself)
        let _ = file.map(|mut file| file.write_all(format!("{server} {known}\n").as_bytes()));
    }
}

#[cfg(test)]
mod tests {
    use super::*;

    fn abilities(number: usize) -> Abilities {
        let bit = |place: usize| number >> place & 1 == 1;
        let most_in_message = number << 20;
        Abilities {
            executes: bit(0),
            takes_results: bit(1),
            most_in_message,
            has_zstd: bit(2),
            takes_zstd: bit(3),
        }
    }

    #[test]
    fn the_last_of_what_commands_tell_counts() {
        let folder = tempfile::tempdir().unwrap();
        let shared = Shared::beside(folder.path().join("note").to_str());
        assert_eq!(shared.of("grpc://a:1"), None);
        for number in 0..16 {
            shared.tell("grpc://a:1", Known::Can(abilities(number)));
            shared.tell("grpc://a:10", Known::Unreached);
            assert_eq!(shared.of("grpc://a:1"), Some(Known::Can(abilities(number))));
        }
        assert_eq!((shared.of("grpc://a:10"), shared.of("grpc://a")), (Some(Known::Unreached), None));
        shared.tell("grpc://a:1", Known::Unreached);
        assert_eq!(shared.of("grpc://a:1"), Some(Known::Unreached));
    }

    #[test]
    fn half_a_line_says_nothing() {
        let folder = tempfile::tempdir().unwrap();
        let line = format!("grpc://a:1 {}", Known::Can(abilities(5)));
        for size in 0..line.len() - 1 {
            fs::write(folder.path().join(NAME), &line[..size]).unwrap();
            assert_eq!(Shared::beside(folder.path().join("note").to_str()).of("grpc://a:1"), None, "{size}");
        }
        let nowhere = Shared::beside(None);
        nowhere.tell("grpc://a:1", Known::Unreached);
        assert_eq!(nowhere.of("grpc://a:1"), None);
    }
}
