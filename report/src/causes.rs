//! Why two calls made different products: the proved crate `record_causes` says where, and here is told what
//! is there.
use crate::places::{Place, place};
use crate::recorded::Found;
use machine::bytes::contains;
use machine::proved::{list_of, text};
use rattle_std::alloc::{AllocError, Global};
use rattle_std::vec::{Collect, Vec as List};
use record_causes::{Part, Ran, Record, cause_of};
use runner::records::{File, RecordedCommand, TMP};
use serde::Serialize;
use texts::variables::Variables;
use texts::words::Words;

/// The macros whose values are the time at which a text is preprocessed, or that of its file.
const TIMES: [&str; 3] = ["__DATE__", "__TIME__", "__TIMESTAMP__"];
/// How variables begin that name a locale.
const LOCALES: [&str; 2] = ["LC_", "LANG"];
/// How the names of what linkers read end.
const OBJECTS: [&str; 3] = [".o", ".a", ".so"];
/// How many words of a list are shown.
const MOST_WORDS: usize = 6;

/// Why two calls made different products.
#[derive(Clone, PartialEq, Eq, Debug, Serialize)]
pub struct Cause {
    /// The product.
    pub product: String,
    /// What kind of thing the cause is: a word, a variable, a locale, a tool, a source, a header, an object, a
    /// generated file, a path, a folder, a time, an id, or something unknown.
    pub kind: &'static str,
    /// The command: its program and the file that it made, and which of how many it is.
    pub command: String,
    /// What has another value: a word before it, a variable, a file.
    pub name: String,
    /// The values in each. One is missing if only the other has it.
    pub values: [Option<String>; 2],
    /// Where a file first differs, if its texts were kept.
    pub place: Option<Place>,
    /// The first word of nvcc's own that differs, if one does.
    pub line: Option<[Option<String>; 2]>,
}

fn words(list: &[String]) -> Result<Words, AllocError> {
    Ok(Words::from_vec(list_of(list)?.into_iter().collect_in(Global)?))
}

fn pairs<'a>(list: impl Iterator<Item = (&'a str, &'a str)>) -> Result<Variables, AllocError> {
    let mut pairs = List::new(Global);
    for (name, value) in list {
        pairs.push((text(name)?, text(value)?))?;
    }
    Ok(Variables::from_vec(pairs))
}

/// Digests alone: what a file is called doesn't make it another.
fn made(files: &[File]) -> Result<Variables, AllocError> {
    pairs(files.iter().map(|(_, digest)| ("", digest.as_str())))
}

fn ran(found: &Found, command: &RecordedCommand) -> Result<Ran, AllocError> {
    let plain = |files: &[File]| {
        files.iter().map(|(name, digest)| (found.short(name).to_owned(), digest.clone())).collect::<Vec<_>>()
    };
    let held = |files: &[File]| pairs(files.iter().map(|(name, digest)| (name.as_str(), digest.as_str())));
    Ok(Ran {
        words: words(&command.words)?,
        variables: held(&command.variables)?,
        tools: held(&command.tools)?,
        inputs: held(&plain(&command.inputs))?,
        folders: words(&command.folders)?,
        outputs: made(&command.outputs)?,
    })
}

fn record(found: &Found, commands: &[RecordedCommand], products: &[File]) -> Result<Record, AllocError> {
    let mut all = List::new(Global);
    for command in commands {
        all.push(ran(found, command)?)?;
    }
    Ok(Record { commands: all, products: made(products)? })
}

/// What is at a place of a list, and of another.
fn at<T: Clone>(lists: [&[T]; 2], place: usize) -> [Option<T>; 2] {
    lists.map(|list| list.get(place).cloned())
}

/// What two lists have from a place on that differs, up to where all is the same again: some words, or none.
fn middles(lists: [&[String]; 2], place: usize) -> [Option<String>; 2] {
    let behind = lists.map(|list| list.get(place..).unwrap_or_default());
    let same = behind[0].iter().rev().zip(behind[1].iter().rev()).take_while(|(a, b)| a == b).count();
    behind.map(|list| {
        let (middle, more) = list[..list.len() - same].split_at((list.len() - same).min(MOST_WORDS));
        let end = if more.is_empty() { "" } else { " .." };
        (!middle.is_empty()).then(|| middle.join(" ") + end)
    })
}

/// What two lists of words have that differs.
fn other_words(lists: [&[String]; 2]) -> Option<[Option<String>; 2]> {
    let [one, other] = lists;
    let same = one.iter().zip(other).take_while(|(a, b)| a == b).count();
    (same < one.len().max(other.len())).then(|| middles(lists, same))
}

/// A command as it is shown: its program, and the file that it made.
fn shown(found: &Found, command: &RecordedCommand) -> String {
    let name = command.words.first().and_then(|path| path.rsplit('/').next()).unwrap_or_default();
    let made = command.outputs.first().map(|(file, _)| found.short(file));
    let made = made.map(|file| format!(" for {}", file.trim_start_matches(TMP).trim_start_matches('/')));
    format!("{name}{}", made.unwrap_or_default())
}

/// What two values that differ look like.
fn look(values: &[&str]) -> Option<&'static str> {
    let is_id = |text: &str| {
        text.len() >= 6 && text.bytes().filter(u8::is_ascii_hexdigit).count() * 4 > text.len() * 3
    };
    match values {
        values if values.iter().all(|value| value.contains('/')) => Some("path"),
        values
            if values
                .iter()
                .any(|value| value.split(|letter: char| !letter.is_ascii_alphanumeric()).any(is_id)) =>
        {
            Some("id")
        }
        _ => None,
    }
}

/// The calls that are compared.
pub struct Pair<'a> {
    /// One of them.
    pub one: &'a Found,
    /// The other.
    pub other: &'a Found,
}

impl Pair<'_> {
    fn sides(&self) -> [&Found; 2] {
        [self.one, self.other]
    }

    /// Why their products differ. Nothing if they don't.
    /// Errors: memory runs out.
    pub fn cause(&self) -> Result<Option<Cause>, AllocError> {
        let [one, other] = self.sides().map(|side| record(side, &side.call.commands, &side.call.products));
        let Some(found) = cause_of(&one?, &other?) else { return Ok(None) };
        Ok(Some(self.told(found.command, found.part)))
    }

    /// The commands that made other files from the same words, variables, tools and files.
    /// Errors: memory runs out.
    pub fn not_deterministic(&self) -> Result<Vec<Cause>, AllocError> {
        let mut causes = Vec::new();
        for (number, commands) in self.one.call.commands.iter().zip(&self.other.call.commands).enumerate() {
            let [one, other] = [(self.one, commands.0), (self.other, commands.1)]
                .map(|(side, command)| record(side, std::slice::from_ref(command), &command.outputs));
            let found = cause_of(&one?, &other?);
            if let Some(part @ (Part::Nothing | Part::Folder(_))) = found.map(|cause| cause.part) {
                causes.push(self.told(number, part));
            }
        }
        Ok(causes)
    }

    fn told(&self, number: usize, part: Part) -> Cause {
        let commands = self.sides().map(|side| side.call.commands.get(number));
        let count = self.one.call.commands.len().max(self.other.call.commands.len());
        let line = other_words(self.sides().map(|side| side.call.words.as_slice()));
        let mut sides = self.sides().into_iter().zip(commands);
        let made = sides.find_map(|(side, command)| Some(shown(side, command?)));
        let cause = Cause {
            product: self.one.name(),
            kind: "unknown",
            command: made.map(|made| format!("{made} ({} of {count})", number + 1)).unwrap_or_default(),
            name: String::new(),
            values: [None, None],
            place: None,
            line,
        };
        match commands {
            [Some(one), Some(other)] => self.of_commands([one, other], part, cause),
            _ => Cause {
                kind: "count",
                name: "number of commands".into(),
                values: self.sides().map(|side| Some(side.call.commands.len().to_string())),
                ..cause
            },
        }
    }

    /// What two commands had otherwise.
    fn of_commands(&self, commands: [&RecordedCommand; 2], part: Part, cause: Cause) -> Cause {
        match part {
            Part::Word(place) => Self::word(commands, place, cause),
            Part::Variable(place) => {
                Self::variable(at(commands.map(|it| it.variables.as_slice()), place), cause)
            }
            Part::Tool(place) => Self::tool(at(commands.map(|it| it.tools.as_slice()), place), cause),
            Part::Input(place) => self.input(commands, place, cause),
            Part::Folder(place) => {
                let cause = self.output(commands, cause);
                let name = if place == 0 { "where it ran" } else { "where temporary files were" };
                let values = at(commands.map(|it| it.folders.as_slice()), place);
                // (what asks for the time, or has a random number, would differ anyway)
                if cause.kind == "unknown" {
                    Cause { kind: "folder", name: name.into(), values, ..cause }
                } else {
                    cause
                }
            }
            Part::Count | Part::Unseen => cause,
            Part::Nothing => self.output(commands, cause),
        }
    }

    fn word(commands: [&RecordedCommand; 2], place: usize, cause: Cause) -> Cause {
        let values = middles(commands.map(|it| it.words.as_slice()), place);
        let before = commands[0].words.get(place.wrapping_sub(1)).filter(|word| word.starts_with('-'));
        let known: Vec<&str> = values.iter().flatten().map(String::as_str).collect();
        let kind = if look(&known) == Some("path") && known.len() == 2 { "path" } else { "word" };
        Cause { kind, name: before.cloned().unwrap_or_default(), values, ..cause }
    }

    /// A variable. If only one has it at its place, the other may have it behind.
    fn variable(pairs: [Option<File>; 2], cause: Cause) -> Cause {
        let names = pairs.each_ref().map(|pair| pair.as_ref().map(|(name, _)| name.clone()));
        let name = names.iter().flatten().min().cloned().unwrap_or_default();
        let values = pairs.map(|pair| pair.filter(|(own, _)| *own == name).map(|(_, value)| value));
        let is_locale = LOCALES.iter().any(|begin| name.starts_with(begin));
        Cause { kind: if is_locale { "locale" } else { "variable" }, name, values, ..cause }
    }

    fn tool(tools: [Option<File>; 2], cause: Cause) -> Cause {
        let name = tools.iter().flatten().map(|(path, _)| path.clone()).next().unwrap_or_default();
        let value = |(path, digest): File| if path == name { format!("digest {digest:.16}") } else { path };
        Cause { kind: "tool", values: tools.map(|tool| tool.map(value)), name, ..cause }
    }

    /// A file that only one has read, or that was another in each.
    fn input(&self, commands: [&RecordedCommand; 2], place: usize, cause: Cause) -> Cause {
        let files = at(commands.map(|it| it.inputs.as_slice()), place);
        let names = [0, 1]
            .map(|side| files[side].as_ref().map(|(name, _)| self.sides()[side].short(name).to_owned()));
        let name = names[0].clone().or(names[1].clone()).unwrap_or_default();
        let kind = match place {
            _ if name.starts_with(TMP) => "generated",
            _ if OBJECTS.iter().any(|end| name.ends_with(end)) => "object",
            0 => "source",
            _ => "header",
        };
        if names[0] != names[1] {
            return Cause { kind, name, values: names, ..cause };
        }
        let digests = files.map(|file| file.map(|(_, digest)| digest).unwrap_or_default());
        let place = self.place(&digests);
        Cause {
            kind,
            name,
            values: digests.map(|digest| Some(format!("digest {digest:.16}"))),
            place,
            ..cause
        }
    }

    /// Where the texts with two digests differ.
    fn place(&self, digests: &[String; 2]) -> Option<Place> {
        place(&self.one.text(&digests[0])?, &self.other.text(&digests[1])?)
    }

    /// A file that a command made in another way from the same.
    fn output(&self, commands: [&RecordedCommand; 2], cause: Cause) -> Cause {
        let mut files = commands[0].outputs.iter().zip(&commands[1].outputs);
        let Some((one, other)) = files.find(|(one, other)| one.1 != other.1) else { return cause };
        let place = self.place(&[one.1.clone(), other.1.clone()]);
        let excerpts: Vec<&str> =
            place.iter().flat_map(|place| place.excerpts.iter().map(String::as_str)).collect();
        let (kind, name) = match self.time_of(commands[0]) {
            Some(time) => ("time", time),
            None => (look(&excerpts).filter(|kind| *kind == "id").unwrap_or("unknown"), String::new()),
        };
        let name = if name.is_empty() { self.one.short(&one.0).to_owned() } else { name };
        Cause { kind, name, place, ..cause }
    }

    /// What of a command's files asks for the time: the macro, and the file.
    fn time_of(&self, command: &RecordedCommand) -> Option<String> {
        let asks = |(name, digest): &File| {
            let text = self.one.text(digest)?;
            let time = TIMES.iter().find(|time| contains(&text, time.as_bytes()))?;
            Some(format!("{time} in {}", self.one.short(name)))
        };
        command.inputs.iter().find_map(asks)
    }
}

#[cfg(test)]
mod tests {
    use super::*;
    use crate::places::Place;
    use runner::records::{RecordedCall, TEXTS};
    use std::fs;
    use unix::test_folder::TestFolder;

    /// A call of two commands: one reads a source and a header, the other makes an object of what it made.
    fn call() -> RecordedCall {
        let list = |words: &str| words.split(' ').map(String::from).collect::<Vec<_>>();
        let files = |words: &str| {
            words
                .split(' ')
                .map(|file| file.split_once('=').map(|(a, b)| (a.to_owned(), b.to_owned())).unwrap())
                .collect()
        };
        let first = RecordedCommand {
            words: list("/b/gcc -E -D N=1 k.cu"),
            variables: files("LANG=C CPATH=/i"),
            tools: files("/b/gcc=1"),
            inputs: files("/w/k.cu=2 a.h=3"),
            folders: list("/w /tmp"),
            outputs: files("$TMP/k.ii=4"),
        };
        let second = RecordedCommand {
            words: list("/b/gcc -c $TMP/k.ii"),
            inputs: files("$TMP/k.ii=4"),
            outputs: files("k.o=5"),
            ..first.clone()
        };
        let products = second.outputs.clone();
        RecordedCall {
            time: 1.0,
            folder: "/w".into(),
            words: list("nvcc -c k.cu"),
            commands: vec![first, second],
            products,
        }
    }

    /// The cause if something of the first command was otherwise, from which all that it made comes.
    fn cause(room: &TestFolder, change: &dyn Fn(&mut RecordedCommand)) -> Cause {
        let mut other = call();
        change(&mut other.commands[0]);
        other.commands[0].outputs[0].1 = "4a".into();
        other.commands[1].inputs[0].1 = "4a".into();
        other.commands[1].outputs[0].1 = "5a".into();
        other.products[0].1 = "5a".into();
        let [one, other] = [call(), other].map(|call| Found { folder: room.to_path_buf(), call });
        Pair { one: &one, other: &other }.cause().unwrap().unwrap()
    }

    #[test]
    fn equal_products_have_no_cause() {
        let room = TestFolder::new();
        let mut other = call();
        other.commands[0].words[3] = "N=2".into();
        other.commands[0].outputs[0].1 = "4a".into();
        other.commands[1].outputs[0].0 = "j.o".into();
        let [one, other] = [call(), other].map(|call| Found { folder: room.to_path_buf(), call });
        assert_eq!(Pair { one: &one, other: &other }.cause(), Ok(None));
    }

    type Change = Box<dyn Fn(&mut RecordedCommand)>;

    #[test]
    fn causes_have_kinds_names_and_values() {
        let room = TestFolder::new();
        let cases: [(Change, &str, &str, [Option<&str>; 2]); 12] = [
            (Box::new(|it| it.words[3] = "N=2".into()), "word", "-D", [Some("N=1"), Some("N=2")]),
            (Box::new(|it| it.words[4] = "/x/k.cu".into()), "word", "", [Some("k.cu"), Some("/x/k.cu")]),
            (Box::new(|it| it.words.push("-g".into())), "word", "", [None, Some("-g")]),
            (
                Box::new(|it| drop(it.words.splice(1..1, ["-D".into(), "M".into()]))),
                "word",
                "",
                [None, Some("-D M")],
            ),
            (Box::new(|it| it.variables[0].1 = "de".into()), "locale", "LANG", [Some("C"), Some("de")]),
            (Box::new(|it| it.variables[1].1 = "/j".into()), "variable", "CPATH", [Some("/i"), Some("/j")]),
            (Box::new(|it| drop(it.variables.pop())), "variable", "CPATH", [Some("/i"), None]),
            (
                Box::new(|it| it.tools[0].0 = "/c/gcc".into()),
                "tool",
                "/b/gcc",
                [Some("digest 1"), Some("/c/gcc")],
            ),
            (
                Box::new(|it| it.inputs[0].1 = "2a".into()),
                "source",
                "k.cu",
                [Some("digest 2"), Some("digest 2a")],
            ),
            (Box::new(|it| it.inputs.push(("b.h".into(), "6".into()))), "header", "b.h", [None, Some("b.h")]),
            (
                Box::new(|it| it.folders[1] = "/t".into()),
                "folder",
                "where temporary files were",
                [Some("/tmp"), Some("/t")],
            ),
            (Box::new(|_| ()), "unknown", "$TMP/k.ii", [None, None]),
        ];
        for (change, kind, name, values) in &cases {
            let found = cause(&room, change);
            let own = found.values.each_ref().map(Option::as_deref);
            assert_eq!((found.kind, found.name.as_str(), own), (*kind, *name, *values));
            assert_eq!((found.product.as_str(), found.command.as_str()), ("k.o", "gcc for k.ii (1 of 2)"));
        }
    }

    #[test]
    fn texts_say_where_and_why() {
        let room = TestFolder::new();
        fs::create_dir(room.join(TEXTS)).unwrap();
        let keep = |digest: &str, text: &str| fs::write(room.join(TEXTS).join(digest), text).unwrap();
        keep("3", "a\nb\n");
        keep("3a", "a\nc\n");
        let at = |excerpts: [&str; 2]| {
            Some(Place { line: Some(2), byte: 2, excerpts: excerpts.map(String::from) })
        };
        let header = cause(&room, &|it| it.inputs[1].1 = "3a".into());
        assert_eq!((header.kind, header.place), ("header", at(["b", "c"])));
        keep("4", "a\nint id_4f2a91c0;\n");
        keep("4a", "a\n9int id_4f2a91c0;\n");
        assert_eq!(cause(&room, &|_| ()).kind, "id");
        keep("2", "char *when = __TIME__;");
        let time = cause(&room, &|_| ());
        assert_eq!((time.kind, time.name.as_str()), ("time", "__TIME__ in k.cu"));
    }

    #[test]
    fn all_commands_that_are_not_deterministic_are_named() {
        let room = TestFolder::new();
        let mut other = call();
        other.commands[0].outputs[0].1 = "4a".into();
        other.commands[1].inputs[0].1 = "4a".into();
        other.commands[1].outputs[0].1 = "5a".into();
        let [one, mut other] = [call(), other].map(|call| Found { folder: room.to_path_buf(), call });
        let names = |one: &Found, other: &Found| {
            Pair { one, other }
                .not_deterministic()
                .unwrap()
                .into_iter()
                .map(|cause| cause.name)
                .collect::<Vec<_>>()
        };
        assert_eq!(names(&one, &other), ["$TMP/k.ii"], "the other one has read another file");
        other.call.commands[1].inputs[0].1 = "4".into();
        assert_eq!(names(&one, &other), ["$TMP/k.ii", "k.o"]);
        assert_eq!(names(&one, &one), [""; 0]);
    }
}
