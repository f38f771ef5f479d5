//! What the environment says to the driver: the one place that reads variables, and knows which values those
//! of `ZIGRUNK_..` may have.
use crate::nearest::nearest;
use call::compiler::Caller;
use std::env;
use std::ffi::{OsStr, OsString};
use std::fs;
use std::os::unix::ffi::OsStrExt;
use std::path::{Path, PathBuf};

/// The cache of commands that is asked for.
#[derive(Clone, PartialEq, Eq, Debug, Default)]
pub enum AskedCache {
    /// No cache.
    #[default]
    None,
    /// The user's own.
    Users,
    /// The one in a folder, whose path may be relative.
    Folder(PathBuf),
}

/// A checkout whose files have the same names in products as those of any other checkout.
#[derive(Clone, PartialEq, Eq, Debug, Default)]
pub struct AskedRoot {
    /// Its folder, absolute, without a slash at its end.
    pub folder: String,
    /// What stands for the folder, absolute, without a slash at its end.
    pub name: String,
}

/// What commands wait for, though they can begin without it.
#[derive(Clone, Copy, PartialEq, Eq, Debug, Default)]
pub struct Waits {
    /// Each for the end of all that it needs.
    pub for_needs: bool,
    /// The last host compile for the fatbin.
    pub for_fatbin: bool,
}

/// The variables `ZIGRUNK_..` and `TMPDIR`. Where two of them meet:
///
/// | Set | and | What counts, and why |
/// |---|---|---|
/// | `RUNNER` | `LAUNCHER` | both, the runner first, since it may take the rest elsewhere |
/// | `RUNNER` | `SLOTS` | no limit, because commands don't run here |
/// | `RUNNER`, `LAUNCHER`, `REMOTE` | `CACHE` | no cache, since it observes the plan's own commands |
/// | the same | `EARLY`, `LATE` | nothing begins early, because they get the plan's own commands |
/// | `RECORDS`, `PROVENANCE` | `EARLY`, `LATE` | the same, since they note the plan's own commands |
/// | `PROVENANCE` | `CACHE` and those | refused, because a statement says what commands read here |
/// | `ROOT` | `LAUNCHER` | refused, because a launcher gets the plan's own words |
/// | `TMP` | `TMPDIR` | plans' files and commands' own, since only the first is shared |
/// | `LAUNCHER` sccache | `TMPDIR` | commands have it, because a server may start there, and stays |
/// | `JOBS` | `--threads` | the variable, since a build system writes the line |
#[derive(Clone, PartialEq, Eq, Debug, Default)]
pub struct Settings {
    /// nvcc's name or path.
    pub nvcc: OsString,
    /// The cache of commands.
    pub cache: AskedCache,
    /// How many bytes the cache may have, if that is set.
    pub cache_size: Option<u64>,
    /// The cache that runs cacheable commands: a program and its words, or nothing.
    pub launcher: Vec<String>,
    /// Which commands the launcher runs, if not those that the plan says.
    pub launched: Vec<String>,
    /// What runs each command: a program and its words, or nothing.
    pub runner: Vec<String>,
    /// Whether commands go by servers of the Remote Execution API.
    pub has_remote: bool,
    /// Whether they fail if none is of help.
    pub needs_remote: bool,
    /// How many commands of a call or a batch run at once, if that is set.
    pub jobs: Option<usize>,
    /// How many commands of all the user's calls run at once, if that is set; 0 for no limit.
    pub slots: Option<usize>,
    /// The directory that other machines share.
    pub shared: Option<PathBuf>,
    /// The directory for temporary files.
    pub temporary: PathBuf,
    /// The file that gets a line for each call.
    pub log: Option<PathBuf>,
    /// Whether to say why nvcc makes a call.
    pub explains: bool,
    /// What commands wait for.
    pub waits: Waits,
    /// The folder that gets a record of each call.
    pub records: Option<PathBuf>,
    /// The checkout that products don't name, if one is set.
    pub root: Option<AskedRoot>,
    /// The folder that gets a statement of each product, if one is set.
    pub provenance: Option<PathBuf>,
    /// The nvccs through which this call came.
    pub inside: OsString,
}

/// What looks a variable up by its name.
type Lookup<'a> = &'a dyn Fn(&str) -> Option<OsString>;

/// A value that a variable can't have.
fn refused(name: &str, value: &OsStr, allowed: &str) -> String {
    format!("{name}={}: expected {allowed}", value.to_string_lossy())
}

/// What a variable's value means, if it has one.
/// Errors: the value, and what is allowed.
fn read<T>(
    of: Lookup<'_>,
    name: &str,
    meaning: impl Fn(&str) -> Option<T>,
    allowed: &str,
) -> Result<Option<T>, String> {
    let Some(value) = of(name) else { return Ok(None) };
    value.to_str().and_then(meaning).map(Some).ok_or_else(|| refused(name, &value, allowed))
}

/// Whether a text says yes or no, in any case.
fn truth(text: &str) -> Option<bool> {
    match text.to_ascii_lowercase().as_str() {
        "1" | "true" | "on" | "yes" => Some(true),
        "0" | "false" | "off" | "no" => Some(false),
        _ => None,
    }
}

/// The same of a variable, or `usual` if it has no value.
fn switch(of: Lookup<'_>, name: &str, usual: bool) -> Result<bool, String> {
    Ok(read(of, name, truth, "yes or no (or 1, 0, true, false, on, off)")?.unwrap_or(usual))
}

/// The number that a text is, if it has only digits.
fn number(text: &str) -> Option<usize> {
    let digits = !text.is_empty() && text.bytes().all(|byte| byte.is_ascii_digit());
    digits.then(|| text.parse().unwrap_or(usize::MAX))
}

/// How many bytes a text such as `500M` means: digits, and a letter K, M, G or T for powers of 1024. Bytes
/// without one.
pub fn bytes_of(text: &str) -> Option<u64> {
    let digits = text.trim_end_matches(|letter: char| letter.is_ascii_alphabetic());
    let shift = match text[digits.len()..].to_ascii_uppercase().as_str() {
        "" => 0,
        "K" => 10,
        "M" => 20,
        "G" => 30,
        "T" => 40,
        _ => return None,
    };
    let is_number = !digits.is_empty() && digits.bytes().all(|byte| byte.is_ascii_digit());
    digits.parse::<u64>().ok().filter(|_| is_number)?.checked_mul(1 << shift)
}

/// The cache that `ZIGRUNK_CACHE` asks for. A name without a slash would be a folder in each working
/// directory: a mistyped `yes`.
fn cache(of: Lookup<'_>) -> Result<AskedCache, String> {
    let name = "ZIGRUNK_CACHE";
    let Some(value) = of(name) else { return Ok(AskedCache::None) };
    match value.to_str().and_then(truth) {
        Some(true) => Ok(AskedCache::Users),
        Some(false) => Ok(AskedCache::None),
        None if value.as_bytes().contains(&b'/') => Ok(AskedCache::Folder(value.into())),
        None => Err(refused(name, &value, "yes, no, or a folder's path with a slash, such as ./cache")),
    }
}

/// What stands for a checkout's folder if the setting doesn't say it: a debugger that starts in the checkout
/// finds sources by it, and no tool does, since none of those that note a source's time and size runs there.
const USUAL_ROOT: &str = "/proc/self/cwd";

/// A checkout's folder, with `=` and what stands for it or without. Both are in words that gcc cuts at `=`,
/// and in line markers.
fn root(text: &str) -> Option<AskedRoot> {
    let (folder, name) = text.split_once('=').unwrap_or((text, USUAL_ROOT));
    let [folder, name] = [folder, name].map(|path| path.trim_end_matches('/'));
    let is_plain = |byte: u8| byte >= b' ' && !matches!(byte, b'=' | b'"' | b'\\' | 0x7f);
    let is_path = |path: &str| path.starts_with('/') && path.bytes().all(is_plain);
    let asked = || AskedRoot { folder: folder.to_owned(), name: name.to_owned() };
    (is_path(folder) && is_path(name)).then(asked)
}

/// An absolute path, without a slash at its end.
fn whole_path(text: &str) -> Option<PathBuf> {
    text.starts_with('/').then(|| Path::new(text).components().collect())
}

/// The words of a text, as a shell cuts it at its blanks.
fn cut(text: &str) -> Vec<String> {
    text.split_whitespace().map(String::from).collect()
}

/// A variable's words.
fn words(of: Lookup<'_>, name: &str) -> Vec<String> {
    cut(&of(name).unwrap_or_default().to_string_lossy())
}

/// The names by which `ZIGRUNK_LAUNCHED` has commands.
const LAUNCHED: [&str; 6] = ["-E", "cudafe++", "cicc", "ptxas", "fatbinary", "-c"];

/// The commands that the launcher runs.
fn launched(text: &str) -> Option<Vec<String>> {
    let words = cut(text);
    words.iter().all(|word| LAUNCHED.contains(&word.as_str())).then_some(words)
}

/// Whether a text has servers. What has to stand behind the name of the protocol `zigrunk-remote` knows.
fn servers(text: &str) -> Option<bool> {
    let is_server = |word: &str| word.starts_with("grpc://") || word.starts_with("grpcs://");
    (text.split_whitespace().count() > 0 && text.split_whitespace().all(is_server)).then_some(true)
}

/// Our variables: those for users, and those by which our programs hear of each other.
const VARIABLES: [&str; 32] = [
    "ZIGRUNK_BATCH",
    "ZIGRUNK_CACHE",
    "ZIGRUNK_CACHE_SIZE",
    "ZIGRUNK_CALLS",
    "ZIGRUNK_EARLY",
    "ZIGRUNK_EXPLAIN",
    "ZIGRUNK_INSIDE",
    "ZIGRUNK_IN_PLACE",
    "ZIGRUNK_JOBS",
    "ZIGRUNK_LATE",
    "ZIGRUNK_LAUNCHED",
    "ZIGRUNK_LAUNCHER",
    "ZIGRUNK_LIBRARY",
    "ZIGRUNK_LOG",
    "ZIGRUNK_NODE",
    "ZIGRUNK_NVCC",
    "ZIGRUNK_OBSERVED",
    "ZIGRUNK_PROVENANCE",
    "ZIGRUNK_RECORDS",
    "ZIGRUNK_REMOTE",
    "ZIGRUNK_REMOTE_CA",
    "ZIGRUNK_REMOTE_CERTIFICATE",
    "ZIGRUNK_REMOTE_FALLBACK",
    "ZIGRUNK_REMOTE_INSTANCE",
    "ZIGRUNK_REMOTE_KEY",
    "ZIGRUNK_REMOTE_PLATFORM",
    "ZIGRUNK_REMOTE_TOKEN",
    "ZIGRUNK_REMOTE_USE",
    "ZIGRUNK_ROOT",
    "ZIGRUNK_RUNNER",
    "ZIGRUNK_SLOTS",
    "ZIGRUNK_TMP",
];

/// Why a variable isn't ours whose name is nearly that of one: a mistyped name would change nothing, and nobody
/// would hear of it. Others may have names that begin alike.
fn mistyped(name: &str) -> Option<String> {
    if !name.starts_with("ZIGRUNK_") || VARIABLES.contains(&name) {
        return None;
    }
    nearest(name, VARIABLES).map(|meant| format!("unknown variable {name}; did you mean {meant}?"))
}

/// A variable of this process, also if it is empty: what isn't for us, but counts for us as it does for make,
/// a shell or a compiler.
pub fn own_variable(name: impl AsRef<OsStr>) -> Option<OsString> {
    env::var_os(name)
}

/// The same as a text. Nothing if it isn't UTF-8.
pub fn own_text(name: &str) -> Option<String> {
    env::var(name).ok()
}

/// All variables of this process: tools get them, so they are in keys.
pub fn own_variables() -> impl Iterator<Item = (OsString, OsString)> {
    env::vars_os()
}

/// A variable of this process, unless it is empty.
fn variable(name: &str) -> Option<OsString> {
    env::var_os(name).filter(|value| !value.is_empty())
}

/// This machine's name, for messages and marks: `ZIGRUNK_NODE`, or Slurm's name of it, or its own.
pub fn machine_name() -> String {
    let given = ["ZIGRUNK_NODE", "SLURMD_NODENAME"].into_iter().find_map(variable);
    let own = || fs::read_to_string("/proc/sys/kernel/hostname").unwrap_or_default().trim().to_owned();
    given.map_or_else(own, |name| name.to_string_lossy().into_owned())
}

/// Whether the cache keeps whole calls, by a variable that `Settings` has found good.
pub fn keeps_calls() -> bool {
    switch(&variable, "ZIGRUNK_CALLS", true).unwrap_or(true)
}

impl Settings {
    /// Those of this process.
    /// Errors: the first variable with a value that it can't have, the value, and what is allowed; or one whose
    /// name isn't ours, but nearly.
    pub fn of_environment() -> Result<Settings, String> {
        let names = env::vars_os().filter_map(|(name, _)| name.into_string().ok());
        names.filter_map(|name| mistyped(&name)).min().map_or(Ok(()), Err)?;
        Settings::of(&variable)
    }

    fn of(of: Lookup<'_>) -> Result<Settings, String> {
        switch(of, "ZIGRUNK_CALLS", true)?;
        let mut settings = Settings::each(of)?;
        // Records and statements are of the plan's own commands, so none may begin early or in two halves.
        let is_noted = settings.records.is_some() || settings.provenance.is_some();
        settings.waits.for_needs |= is_noted;
        settings.waits.for_fatbin |= is_noted;
        let has_launcher = !settings.launcher.is_empty();
        if settings.root.is_some() && has_launcher {
            return Err(
                "ZIGRUNK_ROOT and ZIGRUNK_LAUNCHER cannot both be set: a launcher gets the plan's own words"
                    .into(),
            );
        }
        let elsewhere = [
            ("CACHE", settings.cache != AskedCache::None),
            ("LAUNCHER", has_launcher),
            ("RUNNER", !settings.runner.is_empty()),
            ("REMOTE", settings.has_remote),
        ];
        let why = "a statement says what commands read here";
        let other = elsewhere.iter().find(|(_, is_set)| settings.provenance.is_some() && *is_set);
        other.map_or(Ok(settings), |(name, _)| {
            Err(format!("ZIGRUNK_PROVENANCE and ZIGRUNK_{name} cannot both be set: {why}"))
        })
    }

    /// Each by itself.
    fn each(of: Lookup<'_>) -> Result<Settings, String> {
        let provenance = read(
            of,
            "ZIGRUNK_PROVENANCE",
            whole_path,
            "a folder's absolute path, such as /home/me/statements",
        )?;
        Ok(Settings {
            nvcc: of("ZIGRUNK_NVCC").unwrap_or_else(|| "nvcc".into()),
            cache: cache(of)?,
            cache_size: read(
                of,
                "ZIGRUNK_CACHE_SIZE",
                bytes_of,
                "a number of bytes, or one with K, M, G or T, such as 5G",
            )?,
            launcher: words(of, "ZIGRUNK_LAUNCHER"),
            launched: read(of, "ZIGRUNK_LAUNCHED", launched, "some of -E cudafe++ cicc ptxas fatbinary -c")?
                .unwrap_or_default(),
            runner: words(of, "ZIGRUNK_RUNNER"),
            has_remote: read(of, "ZIGRUNK_REMOTE", servers, "grpc://HOST:PORT or grpcs://HOST:PORT")?
                .unwrap_or_default(),
            needs_remote: !switch(of, "ZIGRUNK_REMOTE_FALLBACK", true)?,
            jobs: read(of, "ZIGRUNK_JOBS", number, "a number of commands, such as 8")?
                .filter(|&jobs| jobs > 0),
            slots: read(of, "ZIGRUNK_SLOTS", number, "a number of commands, such as 8, or 0 for no limit")?,
            shared: of("ZIGRUNK_TMP").map(PathBuf::from),
            temporary: of("TMPDIR").map_or_else(|| "/tmp".into(), PathBuf::from),
            log: of("ZIGRUNK_LOG").map(PathBuf::from),
            explains: switch(of, "ZIGRUNK_EXPLAIN", false)?,
            waits: Waits {
                for_needs: !switch(of, "ZIGRUNK_EARLY", true)?,
                for_fatbin: !switch(of, "ZIGRUNK_LATE", true)?,
            },
            records: of("ZIGRUNK_RECORDS").map(PathBuf::from),
            provenance,
            root: read(
                of,
                "ZIGRUNK_ROOT",
                root,
                "a checkout's absolute path, or such a path, = and what stands for it, such as /home/me/project=/src",
            )?,
            inside: of("ZIGRUNK_INSIDE").unwrap_or_default(),
        })
    }

    /// Whether this process's machine runs the commands, as far as it knows.
    pub fn runs_here(&self) -> bool {
        self.runner.is_empty() && !self.has_remote
    }

    /// Whether commands of a call may begin before all that they need has ended. A launcher and a runner get
    /// the plan's own commands.
    pub fn begins_early(&self) -> bool {
        !self.waits.for_needs && self.launcher.is_empty() && self.runs_here()
    }

    /// What decides which nvcc a call means, given the name by which this program was started.
    pub fn caller<'a>(&'a self, own_name: &'a OsStr) -> Caller<'a> {
        Caller { nvcc: &self.nvcc, inside: &self.inside, own_name }
    }

    /// The directory below which the files of plans are.
    pub fn plans(&self) -> &PathBuf {
        self.shared.as_ref().unwrap_or(&self.temporary)
    }

    /// The directory for temporary files of a command, if it isn't the call's own. sccache may start its
    /// server, whose directory has to stay, and whose socket there needs a short path. A runner may take a
    /// command to a machine on which `TMPDIR` is a disk of its own.
    pub fn scratch(&self) -> Option<&PathBuf> {
        let cache_server = self.launcher.iter().any(|word| word.contains("sccache"));
        let elsewhere = self.shared.is_some() && !self.runs_here();
        (elsewhere || cache_server).then_some(&self.temporary)
    }
}

#[cfg(test)]
mod tests {
    use super::*;
    use crate::forked::{in_own_process, set_variable};

    #[test]
    fn numbers_have_digits_only() {
        let cases = [
            ("0", Some(0)),
            ("00", Some(0)),
            ("8", Some(8)),
            ("", None),
            ("+1", None),
            ("8 ", None),
            ("some", None),
        ];
        for (text, wanted) in cases {
            assert_eq!(number(text), wanted, "{text}");
        }
        assert_eq!(number("99999999999999999999999"), Some(usize::MAX));
    }

    #[test]
    fn a_root_is_a_folder_and_what_stands_for_it() {
        let asked = |folder: &str, name: &str| Some(AskedRoot { folder: folder.into(), name: name.into() });
        for (text, wanted) in [
            ("/w/p", asked("/w/p", USUAL_ROOT)),
            ("/w/p//=/src/", asked("/w/p", "/src")),
            ("/w/a b=/x/y", asked("/w/a b", "/x/y")),
            ("w/p", None),
            ("/w/p=src", None),
            ("/w/p=", None),
            ("/", None),
            ("/w=/a=/b", None),
            ("/w\"=/a", None),
            ("/w\\=/a", None),
            ("/w\n", None),
            ("yes", None),
        ] {
            assert_eq!(root(text), wanted, "{text}");
        }
    }

    #[test]
    fn sizes_have_letters() {
        let cases = [
            ("0", Some(0)),
            ("500", Some(500)),
            ("2k", Some(2048)),
            ("3M", Some(3 << 20)),
            ("5G", Some(5 << 30)),
            ("1T", Some(1 << 40)),
            ("", None),
            ("G", None),
            ("5X", None),
            ("-1", None),
            ("+1", None),
            ("1.5G", None),
            ("5GB", None),
            ("99999999999999999999", None),
            ("99999999T", None),
        ];
        for (text, wanted) in cases {
            assert_eq!(bytes_of(text), wanted, "{text}");
        }
    }

    const VARIABLES: [(&str, &str); 21] = [
        ("ZIGRUNK_NVCC", "/c/nvcc"),
        ("ZIGRUNK_CACHE", "./c"),
        ("ZIGRUNK_CACHE_SIZE", "2K"),
        ("ZIGRUNK_LAUNCHER", " ccache  -v "),
        ("ZIGRUNK_LAUNCHED", "cicc"),
        ("ZIGRUNK_RUNNER", "step.sh"),
        ("ZIGRUNK_JOBS", "5"),
        ("ZIGRUNK_SLOTS", "3"),
        ("ZIGRUNK_TMP", "/shared"),
        ("TMPDIR", "/t"),
        ("ZIGRUNK_LOG", "log"),
        ("ZIGRUNK_EXPLAIN", "1"),
        ("ZIGRUNK_EARLY", "0"),
        ("ZIGRUNK_LATE", "off"),
        ("ZIGRUNK_CALLS", "no"),
        ("ZIGRUNK_REMOTE", "grpc://a:1"),
        ("ZIGRUNK_REMOTE_FALLBACK", "no"),
        ("ZIGRUNK_RECORDS", "records"),
        ("ZIGRUNK_ROOT", "/w/p/=/src"),
        ("ZIGRUNK_PROVENANCE", "/w/s/"),
        ("ZIGRUNK_INSIDE", "/a:/b"),
    ];

    #[test]
    fn a_mistyped_name_is_said() {
        let said = |name: &str, meant: &str| Some(format!("unknown variable {name}; did you mean {meant}?"));
        for (name, wanted) in [
            ("ZIGRUNK_CAHCE", said("ZIGRUNK_CAHCE", "ZIGRUNK_CACHE")),
            ("ZIGRUNK_JOB", said("ZIGRUNK_JOB", "ZIGRUNK_JOBS")),
            ("ZIGRUNK_FIELD", None),
            ("ZIGRUNK_CACHE", None),
            ("ZIGRUN_CACHE", None),
        ] {
            assert_eq!(mistyped(name), wanted, "{name}");
        }
    }

    /// Those that aren't read here: what our programs tell each other, and the words for `zigrunk-remote`.
    const OTHERS: [&str; 12] = [
        "ZIGRUNK_BATCH",
        "ZIGRUNK_IN_PLACE",
        "ZIGRUNK_LIBRARY",
        "ZIGRUNK_NODE",
        "ZIGRUNK_OBSERVED",
        "ZIGRUNK_REMOTE_CA",
        "ZIGRUNK_REMOTE_CERTIFICATE",
        "ZIGRUNK_REMOTE_INSTANCE",
        "ZIGRUNK_REMOTE_KEY",
        "ZIGRUNK_REMOTE_PLATFORM",
        "ZIGRUNK_REMOTE_TOKEN",
        "ZIGRUNK_REMOTE_USE",
    ];

    #[test]
    fn our_variables_are_known_and_those_with_a_letter_more_are_mistakes() {
        let of_ours = VARIABLES.iter().map(|&(name, _)| name).filter(|name| name.starts_with("ZIGRUNK_"));
        let ours: Vec<&str> = of_ours.chain(OTHERS).collect();
        assert_eq!(ours.len(), super::VARIABLES.len());
        for name in ours {
            let said = format!("unknown variable {name}X; did you mean {name}?");
            assert_eq!((mistyped(name), mistyped(&format!("{name}X"))), (None, Some(said)));
        }
    }

    #[test]
    fn each_variable_has_its_setting() {
        let wanted = Settings {
            nvcc: "/c/nvcc".into(),
            cache: AskedCache::Folder("./c".into()),
            cache_size: Some(2048),
            launcher: vec!["ccache".into(), "-v".into()],
            launched: vec!["cicc".into()],
            runner: vec!["step.sh".into()],
            has_remote: true,
            needs_remote: true,
            jobs: Some(5),
            slots: Some(3),
            shared: Some("/shared".into()),
            temporary: "/t".into(),
            log: Some("log".into()),
            explains: true,
            waits: Waits { for_needs: true, for_fatbin: true },
            records: Some("records".into()),
            root: Some(AskedRoot { folder: "/w/p".into(), name: "/src".into() }),
            provenance: Some("/w/s".into()),
            inside: "/a:/b".into(),
        };
        let none = Settings { nvcc: "nvcc".into(), temporary: "/tmp".into(), ..Settings::default() };
        in_own_process(|| {
            for (name, value) in VARIABLES {
                set_variable(name, value);
            }
            assert_eq!((Settings::each(&variable), keeps_calls()), (Ok(wanted), false));
            let both =
                "ZIGRUNK_ROOT and ZIGRUNK_LAUNCHER cannot both be set: a launcher gets the plan's own words";
            assert_eq!(Settings::of_environment(), Err(both.into()));
            for (name, _) in VARIABLES {
                set_variable(name, "");
            }
            assert_eq!(
                (Settings::of_environment(), keeps_calls()),
                (Ok(none), true),
                "one that is empty is none"
            );
        });
    }

    #[test]
    fn statements_are_of_what_runs_here_and_waits() {
        let of = |other: &str, value: &str| {
            Settings::of(&|asked| match asked {
                "ZIGRUNK_PROVENANCE" => Some("/s".into()),
                asked => (asked == other).then(|| value.into()),
            })
        };
        for (other, value) in
            [("CACHE", "yes"), ("LAUNCHER", "ccache"), ("RUNNER", "run"), ("REMOTE", "grpc://a:1")]
        {
            let both = format!("ZIGRUNK_PROVENANCE and ZIGRUNK_{other} cannot both be set");
            let said = format!("{both}: a statement says what commands read here");
            assert_eq!(of(&format!("ZIGRUNK_{other}"), value), Err(said));
        }
        let waits = of("ZIGRUNK_EARLY", "1").map(|settings| settings.waits);
        assert_eq!(waits, Ok(Waits { for_needs: true, for_fatbin: true }));
        assert_eq!(of("ZIGRUNK_CACHE", "no").map(|settings| settings.provenance), Ok(Some("/s".into())));
    }

    #[test]
    fn a_machine_has_the_name_that_it_is_given() {
        in_own_process(|| {
            let own = std::process::Command::new("uname").arg("-n").output().unwrap().stdout;
            let mut names = Vec::new();
            for (of_slurm, given) in [("", ""), ("n1", ""), ("n1", "n2"), ("", "n3")] {
                set_variable("SLURMD_NODENAME", of_slurm);
                set_variable("ZIGRUNK_NODE", given);
                names.push(machine_name());
            }
            assert_eq!(names, [String::from_utf8(own).unwrap().trim(), "n1", "n2", "n3"]);
        });
    }

    /// The settings if one variable has a value, and all others have none.
    fn with(name: &str, value: &OsStr) -> Result<Settings, String> {
        Settings::of(&|asked| (asked == name).then(|| value.to_owned()))
    }

    #[test]
    fn a_value_that_a_variable_cannot_have_is_an_error() {
        let cases = [
            (
                "ZIGRUNK_CACHE",
                "yes, no, or a folder's path with a slash, such as ./cache",
                "cache ja y 2 01 yes. -",
            ),
            (
                "ZIGRUNK_CACHE_SIZE",
                "a number of bytes, or one with K, M, G or T, such as 5G",
                "5x -1 G 1.5G 5GB 99999999T yes",
            ),
            ("ZIGRUNK_JOBS", "a number of commands, such as 8", "abc -1 +1 1.5 0x10 3k yes"),
            ("ZIGRUNK_SLOTS", "a number of commands, such as 8, or 0 for no limit", "some -1 +1 1.5 3k no"),
            ("ZIGRUNK_EXPLAIN", "yes or no (or 1, 0, true, false, on, off)", "please 2 -1 y n enable"),
            ("ZIGRUNK_EARLY", "yes or no (or 1, 0, true, false, on, off)", "never 00"),
            ("ZIGRUNK_LATE", "yes or no (or 1, 0, true, false, on, off)", "never 00"),
            ("ZIGRUNK_CALLS", "yes or no (or 1, 0, true, false, on, off)", "never 00"),
            ("ZIGRUNK_LAUNCHED", "some of -E cudafe++ cicc ptxas fatbinary -c", "ccic gcc CICC cicc,ptxas"),
            ("ZIGRUNK_REMOTE", "grpc://HOST:PORT or grpcs://HOST:PORT", "here a:1 http://a:1 grpc:a"),
            (
                "ZIGRUNK_PROVENANCE",
                "a folder's absolute path, such as /home/me/statements",
                "yes 1 s ./s s/ ~/s",
            ),
        ];
        for (name, allowed, values) in cases {
            for value in values.split(' ') {
                assert_eq!(with(name, value.as_ref()), Err(format!("{name}={value}: expected {allowed}")));
            }
            let odd = OsStr::from_bytes(b"1\xff");
            assert_eq!(with(name, odd), Err(format!("{name}=1\u{fffd}: expected {allowed}")), "no UTF-8");
        }
    }

    #[test]
    fn yes_and_no_have_several_words() {
        for (words, wanted) in [("1 true on yes YES True oN", true), ("0 false off no NO False oFF", false)] {
            for word in words.split(' ') {
                let of = |name: &str| with(name, word.as_ref()).unwrap();
                let found = [
                    of("ZIGRUNK_EXPLAIN").explains,
                    !of("ZIGRUNK_EARLY").waits.for_needs,
                    !of("ZIGRUNK_LATE").waits.for_fatbin,
                ];
                assert_eq!(found, [wanted; 3], "{word}");
                assert_eq!(
                    of("ZIGRUNK_CACHE").cache,
                    if wanted { AskedCache::Users } else { AskedCache::None },
                    "{word}"
                );
            }
        }
    }

    #[test]
    fn a_path_of_a_cache_has_a_slash() {
        for path in ["/c", "./c", "c/", "a/b", "yes/", "./1"] {
            assert_eq!(
                with("ZIGRUNK_CACHE", path.as_ref()).map(|it| it.cache),
                Ok(AskedCache::Folder(path.into())),
                "{path}"
            );
        }
        let odd = OsStr::from_bytes(b"/\xff");
        assert_eq!(with("ZIGRUNK_CACHE", odd).map(|it| it.cache), Ok(AskedCache::Folder(odd.into())));
    }

    #[test]
    fn no_jobs_are_no_number_and_no_slots_no_limit() {
        for (text, jobs, slots) in [("0", None, Some(0)), ("00", None, Some(0)), ("07", Some(7), Some(7))] {
            assert_eq!(with("ZIGRUNK_JOBS", text.as_ref()).map(|it| it.jobs), Ok(jobs), "{text}");
            assert_eq!(with("ZIGRUNK_SLOTS", text.as_ref()).map(|it| it.slots), Ok(slots), "{text}");
        }
    }

    #[test]
    fn scratch_is_the_callers_for_a_cache_server_and_other_machines() {
        let mut settings = Settings { temporary: "/t".into(), ..Settings::default() };
        assert_eq!(settings.scratch(), None);
        settings.launcher = vec!["/b/sccache".into()];
        assert_eq!(settings.scratch(), Some(&PathBuf::from("/t")));
        settings.launcher = vec!["cache".into()];
        assert_eq!(settings.scratch(), None);
        settings.shared = Some("/shared".into());
        assert_eq!(
            (settings.scratch(), settings.plans()),
            (None, &PathBuf::from("/shared")),
            "commands run here"
        );
        settings.runner = vec!["step.sh".into()];
        assert_eq!(settings.scratch(), Some(&PathBuf::from("/t")));
    }
}
