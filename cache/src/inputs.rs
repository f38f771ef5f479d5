//! What processes depended on, made of what was observed: each file that they read, each place where they
//! looked in vain, and where links led.
use crate::calls::{is_free, is_harmless, names_free_variable};
use crate::digest::Digest;
use crate::host_text::compares_times;
use crate::manifest::{Form, Listed, Manifest, Seen, Vain, Variable, Variables, real_place};
use crate::observed::{Gap, Observed, Sight};
use crate::stamps::{MARGIN, Stamp, is_older};
use crate::tool::Tools;
use crate::ways::Ways;
use dry_run_pairs::is_temporary;
use machine::settings::own_variable;
use machine::streams::content_of;
use std::collections::{BTreeMap, BTreeSet, HashMap, HashSet};
use std::ffi::{OsStr, OsString};
use std::fmt::{self, Display, Formatter};
use std::fs::{self, File, Metadata};
use std::io::Read;
use std::os::unix::ffi::OsStrExt;
use std::path::{Path, PathBuf};
use std::time::SystemTime;
use unix::Watch;

/// Where programs bring their headers: these don't change by an edit, so each of their bytes may count.
const INSTALLED: &str = "/usr";
/// What a script begins with.
const SCRIPT: &[u8] = b"#!";
/// No script or list of settings is longer.
const LONGEST_SCRIPT: u64 = 1 << 20;

/// Why it isn't known what processes depended on.
#[derive(Clone, PartialEq, Eq, Debug)]
pub enum Refusal {
    /// They weren't observed as a whole.
    Gap(Gap),
    /// A file or folder may not be what a process saw.
    Changed(PathBuf),
    /// A file names a variable that isn't to count.
    Names(PathBuf),
    /// A task isn't one that may be kept, or its result can't be.
    Task(String),
}

impl Display for Refusal {
    fn fmt(&self, out: &mut Formatter<'_>) -> fmt::Result {
        match self {
            Refusal::Gap(gap) => gap.fmt(out),
            Refusal::Changed(path) => write!(out, "{} may have changed", path.display()),
            Refusal::Names(path) => write!(out, "{} may use a variable that does not count", path.display()),
            Refusal::Task(why) => out.write_str(why),
        }
    }
}

impl From<Gap> for Refusal {
    fn from(gap: Gap) -> Refusal {
        Refusal::Gap(gap)
    }
}

/// What is kept in mind for a whole call.
#[derive(Debug, Default)]
pub struct Memory {
    /// The folders in which names come and go while a call runs, as those for its products: the kernel tells
    /// which came.
    watches: Vec<Watch>,
    /// The texts that are known, with what their processes saw.
    known: BTreeMap<PathBuf, (Stamp, Seen)>,
    /// The same of other files, and their digests.
    digests: BTreeMap<PathBuf, (Stamp, Digest)>,
    /// Whether folders were there when something was sought in them.
    folders: HashMap<PathBuf, bool>,
}

impl Memory {
    /// Watches the working directory, and each folder of a path that a line names.
    pub fn new(cwd: &Path, words: &[String]) -> Memory {
        let named = words.iter().filter_map(|word| Path::new(word).parent());
        let folders: BTreeSet<PathBuf> =
            named.map(|folder| cwd.join(folder)).chain([cwd.to_owned()]).collect();
        Memory {
            watches: folders.iter().filter_map(|folder| Watch::new(folder).ok()).collect(),
            ..Memory::default()
        }
    }

    /// The names that have come into a folder, if it is watched and the kernel could tell.
    pub fn come(&mut self, folder: &Path) -> Option<&BTreeSet<OsString>> {
        self.watches.iter_mut().find(|watch| watch.folder() == folder)?.come()
    }
}

/// Reads what was observed of a call's processes.
pub struct Reading<'a> {
    cwd: &'a Path,
    /// When the call began: what has changed since then may have been something else when it was read.
    begun: SystemTime,
    ways: Ways<'a>,
    tools: &'a Tools,
    memory: &'a mut Memory,
}

/// The folder in which tools make files for a while.
fn temporary_folder(cwd: &Path) -> PathBuf {
    let named = own_variable("TMPDIR").filter(|folder| !folder.is_empty());
    cwd.join(named.unwrap_or_else(|| "/tmp".into()))
}

/// Whether a path is that of a file of nvcc's own, which has the number of its process.
fn is_nvccs(path: &Path, temporary: &Path) -> bool {
    let name = path.file_name().unwrap_or_default().as_bytes();
    path.parent() == Some(temporary) && is_temporary(name)
}

/// The variables that name the language of messages, and how their quotes look.
const LOCALES: [&str; 5] = ["LANGUAGE", "LC_ALL", "LC_CTYPE", "LC_MESSAGES", "LANG"];
/// Where the C library has locales, beside the folders of a variable, and where it has messages in other
/// languages.
const OF_LOCALES: &str = "/usr/lib/locale";
const OF_MESSAGES: &str = "/usr/share/locale";
/// Those that gcc and the assembler ask for.
const DOMAINS: [&str; 6] = ["gcc", "cpplib", "libc", "gas", "bfd", "opcodes"];

/// The names by which the C library seeks a locale.
fn names_of_locale(name: &str) -> Vec<String> {
    let (name, modifier) =
        name.split_once('@').map_or((name, String::new()), |(name, modifier)| (name, format!("@{modifier}")));
    let (territory, codeset) = name.split_once('.').unwrap_or((name, ""));
    let language = territory.split('_').next().unwrap_or_default();
    let usual: String = codeset
        .chars()
        .filter(char::is_ascii_alphanumeric)
        .map(|letter| letter.to_ascii_lowercase())
        .collect();
    let codesets = if codeset.is_empty() {
        vec![String::new()]
    } else {
        vec![format!(".{codeset}"), format!(".{usual}"), String::new()]
    };
    let places = [territory, language]
        .into_iter()
        .flat_map(|place| codesets.iter().map(move |codeset| format!("{place}{codeset}")));
    places.flat_map(|place| [format!("{place}{modifier}"), place]).collect()
}

/// The files by which messages differ, if these aren't to be as they are in C: the C library looks for them,
/// which nobody can observe.
fn locale_files() -> Vec<PathBuf> {
    let value =
        |name: &str| own_variable(name).and_then(|value| value.into_string().ok()).unwrap_or_default();
    let asked: BTreeSet<String> = LOCALES
        .iter()
        .flat_map(|name| value(name).split(':').map(String::from).collect::<Vec<_>>())
        .collect();
    let others = asked.iter().filter(|name| !["", "C", "POSIX"].contains(&name.as_str()));
    let names: Vec<String> = others.flat_map(|name| names_of_locale(name)).collect();
    let path = value("LOCPATH");
    let folders = path.split(':').filter(|folder| !folder.is_empty()).chain([OF_LOCALES]);
    let locales = folders.flat_map(|folder| names.iter().map(move |name| Path::new(folder).join(name)));
    let locales =
        locales.flat_map(|locale| ["LC_CTYPE", "LC_MESSAGES/SYS_LC_MESSAGES"].map(|file| locale.join(file)));
    let texts = names.iter().map(|name| Path::new(OF_MESSAGES).join(name).join("LC_MESSAGES"));
    let texts = texts.flat_map(|folder| DOMAINS.map(|domain| folder.join(format!("{domain}.mo"))));
    let archive = Path::new(OF_LOCALES).join("locale-archive");
    if names.is_empty() { Vec::new() } else { locales.chain(texts).chain([archive]).collect() }
}

/// What has been found of processes, while it is put together.
#[derive(Default)]
struct Found {
    files: Vec<Seen>,
    /// The names that folders lacked. (As `PathBuf` a folder would be compared part by part.)
    lacking: BTreeMap<OsString, BTreeSet<Vec<u8>>>,
    places: BTreeMap<PathBuf, PathBuf>,
}

fn is_short(path: &Path) -> bool {
    fs::metadata(path).is_ok_and(|status| status.len() <= LONGEST_SCRIPT)
}

/// What may be at a path, for a file that no process has opened.
enum Place {
    Nothing,
    Folder,
    File(Metadata),
}

fn place_of(path: &Path) -> Option<Place> {
    match fs::metadata(path) {
        Ok(status) if status.is_dir() => Some(Place::Folder),
        Ok(status) if status.is_file() => Some(Place::File(status)),
        Ok(_) => None,
        Err(_) => Some(Place::Nothing),
    }
}

impl<'a> Reading<'a> {
    /// Begins to read what was observed in a call in this working directory, since it began.
    pub fn new(cwd: &'a Path, begun: SystemTime, tools: &'a Tools, memory: &'a mut Memory) -> Reading<'a> {
        Reading { cwd, begun, ways: Ways::new(cwd, begun), tools, memory }
    }

    /// What processes with such variables depended on. A preprocessor has entered some of the files: `texts`,
    /// by their whole paths.
    /// Errors: why that isn't known.
    pub fn manifest(
        &mut self,
        observed: &Observed,
        texts: &BTreeSet<PathBuf>,
        given: &Variables,
    ) -> Result<Manifest, Refusal> {
        let mut found = Found { files: self.read(observed, texts)?, ..Found::default() };
        let locales = if observed.programs.is_empty() { Vec::new() } else { locale_files() };
        let others = observed.sought.iter().filter(|path| !observed.libraries.contains_key(*path));
        others.chain(&locales).try_for_each(|path| self.sought(path, &mut found))?;
        observed.seen.iter().try_for_each(|(path, sight)| self.looked_at(path, sight, &mut found))?;
        observed.followed.iter().try_for_each(|path| self.leads(path, &mut found))?;
        let temporary = temporary_folder(self.cwd);
        let lacking = observed.lacking.iter().filter(|path| !is_nvccs(path, &temporary));
        lacking.into_iter().try_for_each(|path| self.lacks(path, &mut found))?;
        // (nvcc looks for files of its own there, to remove them)
        let listed = observed
            .listed
            .iter()
            .filter(|(folder, _)| self.cwd.join(folder) != temporary)
            .collect::<Vec<_>>();
        let listed =
            listed.into_iter().map(|(folder, stamp)| self.listed(folder, stamp)).collect::<Result<_, _>>()?;
        let asked = observed.variables.iter().filter(|name| !is_harmless(name));
        let variables = asked.map(|name| Variable::now(name.as_bytes(), given)).collect();
        let Found { files, lacking, places } = found;
        let vain = lacking
            .into_iter()
            .map(|(folder, names)| self.vain(folder.into(), names))
            .collect::<Result<_, _>>()?;
        Ok(Manifest { files, vain, listed, places: places.into_iter().collect(), variables, defines: None })
    }

    /// The files that were read, the programs and their libraries.
    fn read(&mut self, observed: &Observed, texts: &BTreeSet<PathBuf>) -> Result<Vec<Seen>, Refusal> {
        let (read, others): (Vec<_>, Vec<_>) =
            observed.read.iter().partition(|(path, _)| texts.contains(&self.cwd.join(path)));
        let mut files = self.plain_files(&others)?;
        for (path, stamp) in read {
            files.push(self.text(path, stamp)?);
        }
        for (path, stamp) in observed.programs.iter().chain(&observed.libraries) {
            files.push(self.file(path, Some(stamp))?);
        }
        Ok(files)
    }

    /// Notes a place where somebody looked whom nobody could observe.
    fn sought(&mut self, path: &Path, found: &mut Found) -> Result<(), Refusal> {
        match place_of(&self.cwd.join(path)).ok_or_else(|| Refusal::Changed(path.to_owned()))? {
            Place::Nothing => self.lacks(path, found),
            Place::Folder => self.leads(path, found),
            Place::File(_) => self.file(path, None).map(|seen| found.files.push(seen)),
        }
    }

    /// Notes what a process looked at without reading it: of a file times count, of a folder where it is.
    fn looked_at(&mut self, path: &Path, sight: &Sight, found: &mut Found) -> Result<(), Refusal> {
        match place_of(&self.cwd.join(path)) {
            // (a compiler looks for it, and works in any)
            Some(Place::Folder) if self.cwd.join(path) == temporary_folder(self.cwd) => Ok(()),
            Some(Place::Folder) if sight.is_folder || sight.stamp.is_none() => self.leads(path, found),
            Some(Place::File(status)) if !sight.is_folder => {
                let seen = self.file(path, sight.stamp.as_ref())?;
                found.files.push(Seen { form: Form::dated(&status), ..seen });
                Ok(())
            }
            _ => Err(Refusal::Changed(path.to_owned())),
        }
    }

    /// Whether a file or folder is what it was when the call began, and what a process saw, if it told.
    fn check(&mut self, path: &Path, stamp: Option<&Stamp>) -> Result<Metadata, Refusal> {
        let changed = || Refusal::Changed(path.to_owned());
        let status = fs::metadata(self.cwd.join(path)).map_err(|_| changed())?;
        let is_same = stamp.is_none_or(|stamp| *stamp == Stamp::of(&status));
        let is_way_old = path.parent().is_none_or(|folder| self.ways.are_old(folder));
        if is_same && is_way_old && is_older(&status, self.begun, MARGIN) {
            Ok(status)
        } else {
            Err(changed())
        }
    }

    /// A file of which each byte counts.
    fn file(&mut self, path: &Path, stamp: Option<&Stamp>) -> Result<Seen, Refusal> {
        let status = self.check(path, stamp)?;
        let (place, now) = (self.cwd.join(path), Stamp::of(&status));
        let known =
            self.memory.digests.get(path).filter(|(other, _)| *other == now).map(|(_, digest)| *digest);
        let digest = known
            .or_else(|| self.tools.digest_of(&place))
            .ok_or_else(|| Refusal::Changed(path.to_owned()))?;
        self.memory.digests.insert(path.to_owned(), (now, digest));
        Ok(Seen { path: path.to_owned(), digest, stamp: Stamp::settled(&place, &status), form: Form::Other })
    }

    /// A file that is a script, if one is among those that processes have read: it may use any variable
    /// without asking.
    pub fn script(&self, observed: &Observed) -> Option<PathBuf> {
        let begins = |path: &&PathBuf| {
            let mut begin = [0; SCRIPT.len()];
            File::open(self.cwd.join(path))
                .is_ok_and(|mut file| file.read_exact(&mut begin).is_ok() && begin == SCRIPT)
        };
        observed.read.keys().find(begins).cloned()
    }

    /// The same of each of some files that processes have read. If a script is among them, it may use any
    /// variable without asking, and so may what it reads.
    fn plain_files(&mut self, read: &[(&PathBuf, &Stamp)]) -> Result<Vec<Seen>, Refusal> {
        let files =
            read.iter().map(|(path, stamp)| self.file(path, Some(stamp))).collect::<Result<Vec<_>, _>>()?;
        let content = |seen: &Seen| {
            Some(self.cwd.join(&seen.path))
                .filter(|path| is_short(path))
                .and_then(|path| content_of(&path).ok())
        };
        let texts: Vec<Vec<u8>> = files.iter().map(|seen| content(seen).unwrap_or_default()).collect();
        let has_script = texts.iter().any(|text| text.starts_with(SCRIPT));
        let named = texts.iter().position(|text| has_script && names_free_variable(text));
        named.map_or(Ok(files.clone()), |place| Err(Refusal::Names(files[place].path.clone())))
    }

    /// A file that a preprocessor has entered.
    fn text(&mut self, path: &Path, stamp: &Stamp) -> Result<Seen, Refusal> {
        let status = self.check(path, Some(stamp))?;
        // (it is what it was)
        if let Some((_, known)) = self.memory.known.get(path).filter(|(other, _)| other == stamp) {
            return Ok(known.clone());
        }
        let place = self.cwd.join(path);
        let text = content_of(&place).map_err(|_| Refusal::Changed(path.to_owned()))?;
        if compares_times(&text) {
            return Err(Refusal::Task(format!("{} may compare the times of files", path.display())));
        }
        let form = if path.starts_with(INSTALLED) { Form::Text } else { Form::of_source(&text) };
        let seen = Seen {
            path: path.to_owned(),
            digest: Digest::of(&text),
            stamp: Stamp::settled(&place, &status),
            form,
        };
        self.memory.known.insert(path.to_owned(), (*stamp, seen.clone()));
        Ok(seen)
    }

    /// Looks at the texts among the files that a preprocessor has read, which takes a while.
    pub fn look_ahead(&mut self, observed: &Observed) {
        for (path, stamp) in &observed.read {
            let _ = self.text(path, stamp);
        }
    }

    fn listed(&mut self, folder: &Path, stamp: &Stamp) -> Result<Listed, Refusal> {
        self.check(folder, Some(stamp))?;
        Listed::now(folder, self.cwd).ok_or_else(|| Refusal::Changed(folder.to_owned()))
    }

    /// Notes where a path leads.
    fn leads(&mut self, path: &Path, found: &mut Found) -> Result<(), Refusal> {
        let real = real_place(path, self.cwd).filter(|_| self.ways.are_old(path));
        found.places.insert(path.to_owned(), real.ok_or_else(|| Refusal::Changed(path.to_owned()))?);
        Ok(())
    }

    /// Whether a folder was there when that was first asked: what was noted then is looked at once more (`vain`).
    fn is_there(&mut self, folder: &Path) -> bool {
        let known = self.memory.folders.get(folder).copied();
        known.unwrap_or_else(|| {
            let is_there = fs::metadata(self.cwd.join(folder)).is_ok();
            self.memory.folders.insert(folder.to_owned(), is_there);
            is_there
        })
    }

    /// Notes that nothing is at a path, by the deepest folder on the way there.
    fn lacks(&mut self, path: &Path, found: &mut Found) -> Result<(), Refusal> {
        let changed = || Refusal::Changed(path.to_owned());
        let mut way = path;
        loop {
            let above = way.parent().ok_or_else(changed)?;
            if self.is_there(above) {
                if !self.ways.are_old(above) {
                    return Err(changed());
                }
                let name = way.file_name().unwrap_or(OsStr::new("..")).as_bytes().to_vec();
                found.lacking.entry(above.as_os_str().to_owned()).or_default().insert(name);
                return Ok(());
            }
            way = above;
        }
    }

    /// A folder that has lacked some names since the call began: nothing in it has changed since, or none of
    /// them came.
    fn vain(&mut self, folder: PathBuf, lacks: BTreeSet<Vec<u8>>) -> Result<Vain, Refusal> {
        let place = self.cwd.join(&folder);
        let is_old = fs::metadata(&place).is_ok_and(|status| is_older(&status, self.begun, MARGIN));
        let came =
            |names: &BTreeSet<OsString>| lacks.iter().any(|name| names.contains(OsStr::from_bytes(name)));
        if !is_old && self.memory.come(&place).is_none_or(came) {
            return Err(Refusal::Changed(place));
        }
        Vain::now(&folder, lacks.into_iter().collect(), self.cwd).ok_or(Refusal::Changed(folder))
    }

    /// All that some manifests say, if they agree, and nothing of it has changed since the call began.
    /// Errors: why that isn't sure.
    pub fn whole(&mut self, parts: &[Manifest]) -> Result<Manifest, Refusal> {
        let (mut files, mut listed, mut found) = (BTreeMap::new(), BTreeMap::new(), Found::default());
        for part in parts {
            for seen in &part.files {
                agree(
                    &mut files,
                    (seen.path.clone(), order_of(&seen.form)),
                    seen,
                    &seen.path,
                    Seen::counts_as,
                )?;
            }
            // (a command that was served may have sought in a folder that is gone)
            let sought = part
                .vain
                .iter()
                .flat_map(|vain| vain.lacks.iter().map(|name| vain.folder.join(OsStr::from_bytes(name))));
            sought.into_iter().try_for_each(|path| self.lacks(&path, &mut found))?;
            for folder in &part.listed {
                agree(&mut listed, folder.folder.clone(), folder, &folder.folder, PartialEq::eq)?;
            }
            for (path, real) in &part.places {
                agree(&mut found.places, path.clone(), real, path, PartialEq::eq)?;
            }
        }
        for seen in files.values_mut() {
            let status = self.check(&seen.path, seen.stamp.as_ref())?;
            seen.stamp = Stamp::settled(&self.cwd.join(&seen.path), &status);
        }
        if let Some(path) = found.places.keys().find(|path| !self.ways.are_old(path)) {
            return Err(Refusal::Changed(path.clone()));
        }
        let files = self.with_times_of_copies(files.into_values().collect())?;
        let vain = found
            .lacking
            .into_iter()
            .map(|(folder, names)| self.vain(folder.into(), names))
            .collect::<Result<_, _>>()?;
        // (the call's key has all others)
        let asked = parts.iter().flat_map(|part| &part.variables).filter(|variable| is_free(variable.name()));
        let variables: BTreeSet<Variable> =
            asked.map(|variable| Variable::now(variable.name().as_bytes(), &[])).collect();
        let (listed, places) = (listed.into_values().collect(), found.places.into_iter().collect());
        Ok(Manifest {
            files,
            vain,
            listed,
            places,
            variables: variables.into_iter().collect(),
            defines: None,
        })
    }

    /// gcc may leave out a copy of a file that is to be read once, if both were last changed in the same
    /// second. So of copies times count.
    fn with_times_of_copies(&self, mut files: Vec<Seen>) -> Result<Vec<Seen>, Refusal> {
        let texts: HashSet<[u8; 32]> =
            files.iter().filter(|seen| is_text(&seen.form)).map(|seen| seen.digest.0).collect();
        let mut paths: HashMap<[u8; 32], BTreeSet<PathBuf>> = HashMap::new();
        for seen in files.iter().filter(|seen| texts.contains(&seen.digest.0)) {
            paths.entry(seen.digest.0).or_default().insert(seen.path.clone());
        }
        for seen in
            files.iter_mut().filter(|seen| paths.get(&seen.digest.0).is_some_and(|paths| paths.len() > 1))
        {
            let status =
                fs::metadata(self.cwd.join(&seen.path)).map_err(|_| Refusal::Changed(seen.path.clone()))?;
            seen.form = Form::dated(&status);
        }
        Ok(files)
    }
}

fn is_text(form: &Form) -> bool {
    matches!(form, Form::Text | Form::Source(_))
}

/// Puts a value under a key, unless another is there that isn't the same.
fn agree<K: Ord, V: Clone>(
    map: &mut BTreeMap<K, V>,
    key: K,
    value: &V,
    path: &Path,
    is_same: fn(&V, &V) -> bool,
) -> Result<(), Refusal> {
    let known = map.entry(key).or_insert_with(|| value.clone());
    if is_same(known, value) { Ok(()) } else { Err(Refusal::Changed(path.to_owned())) }
}

/// What a file may be to a call, as a number.
fn order_of(form: &Form) -> u8 {
    match form {
        Form::Other => 0,
        Form::Text => 1,
        Form::Source(_) => 2,
        Form::Dated(..) => 3,
    }
}

#[cfg(test)]
mod tests {
    use super::*;
    use crate::store::Store;
    use crate::test_folder::TestFolder;
    use std::os::unix::fs::symlink;
    use std::thread;

    /// A folder with a file and a link, in which a call begins once these are old enough.
    fn room() -> TestFolder {
        let room = TestFolder::new();
        fs::create_dir(room.join("inc")).unwrap();
        fs::write(room.join("inc/a.h"), "#pragma once\n").unwrap();
        symlink("inc", room.join("link")).unwrap();
        thread::sleep(2 * MARGIN);
        room
    }

    fn paths(names: &[&str]) -> BTreeSet<PathBuf> {
        names.iter().map(PathBuf::from).collect()
    }

    fn stamp(path: &Path) -> Stamp {
        Stamp::of(&fs::metadata(path).unwrap())
    }

    /// What is known of a call that began at a moment, by what was observed and by the whole paths of texts.
    fn read<T>(room: &Path, begun: SystemTime, read: impl FnOnce(&mut Reading<'_>) -> T) -> T {
        let tools = Tools::new(&Store::new(room.join("none"), 1 << 20));
        read(&mut Reading::new(room, begun, &tools, &mut Memory::new(room, &["-o".into(), "out/k.o".into()])))
    }

    #[test]
    fn what_was_observed_is_what_counts() {
        let (room, begun) = (room(), SystemTime::now());
        let own = |name: &str| room.join(name);
        let observed = Observed {
            read: BTreeMap::from([
                ("inc/a.h".into(), stamp(&own("inc/a.h"))),
                (own("inc/a.h"), stamp(&own("inc/a.h"))),
            ]),
            seen: BTreeMap::from([("inc".into(), Sight { stamp: None, is_folder: true })]),
            lacking: paths(&["inc/b.h", "early/sub/b.h", "inc/a.h/x"]),
            sought: paths(&["link/a.h", "inc/none.so"]),
            listed: BTreeMap::from([("inc".into(), stamp(&own("inc")))]),
            followed: paths(&["link"]),
            variables: BTreeSet::from(["HOME".into(), "TERM".into(), "PATH".into()]),
            ..Observed::default()
        };
        let manifest =
            read(&room, begun, |reading| reading.manifest(&observed, &BTreeSet::from([own("inc/a.h")]), &[]))
                .unwrap();
        let files: Vec<_> = manifest
            .files
            .iter()
            .map(|seen| (seen.path.as_path(), matches!(seen.form, Form::Source(_))))
            .collect();
        assert_eq!(
            files,
            [(own("inc/a.h").as_path(), true), (Path::new("inc/a.h"), true), (Path::new("link/a.h"), false)]
        );
        let vain: Vec<_> =
            manifest.vain.iter().map(|vain| (vain.folder.to_str().unwrap(), vain.lacks.concat())).collect();
        assert_eq!(
            vain,
            [("", b"early".to_vec()), ("inc", b"b.hnone.so".to_vec()), ("inc/a.h", b"x".to_vec())]
        );
        assert_eq!(manifest.places, [("inc".into(), "inc".into()), ("link".into(), "inc".into())]);
        assert_eq!(
            (manifest.listed.len(), manifest.variables),
            (1, vec![Variable::now(b"HOME", &[]), Variable::now(b"PATH", &[])])
        );
    }

    #[test]
    fn what_has_changed_since_a_process_saw_it_is_refused() {
        let (room, begun) = (room(), SystemTime::now());
        let of = |name: &str, stamp: Stamp| Observed {
            read: BTreeMap::from([(name.into(), stamp)]),
            ..Observed::default()
        };
        let is_known = |observed: &Observed| {
            read(&room, begun, |reading| reading.manifest(observed, &BTreeSet::new(), &[]).is_ok())
        };
        let first = of("inc/a.h", stamp(&room.join("inc/a.h")));
        assert!(is_known(&first) && !is_known(&of("inc/a.h", stamp(&room))));
        fs::write(room.join("inc/b.h"), "").unwrap();
        assert!(
            is_known(&first) && !is_known(&of("inc/b.h", stamp(&room.join("inc/b.h")))),
            "it may have been another"
        );
        let vain = |names: &[&str]| is_known(&Observed { lacking: paths(names), ..Observed::default() });
        assert!(vain(&["c.h", "none/c.h"]) && !vain(&["inc/c.h"]), "a name may have come and gone");
        assert!(!vain(&["inc/b.h"]), "it is there");
        let leads = |name: &str| is_known(&Observed { followed: paths(&[name]), ..Observed::default() });
        assert!(leads("link/a.h") && !leads("missing"));
        fs::remove_file(room.join("link")).unwrap();
        symlink("inc", room.join("link")).unwrap();
        assert!(!leads("link/a.h"), "it may have led elsewhere");
    }

    #[test]
    fn names_that_come_into_a_watched_folder_are_noticed() {
        let room = room();
        fs::create_dir(room.join("out")).unwrap();
        let tools = Tools::new(&Store::new(room.join("none"), 1 << 20));
        let mut memory = Memory::new(&room, &["-o".into(), "out/k.o".into()]);
        let begun = SystemTime::now();
        for name in ["early", "out/early"] {
            fs::create_dir(room.join(name)).unwrap();
            fs::remove_dir(room.join(name)).unwrap();
        }
        let mut lacks = |name: &str| {
            let observed = Observed { lacking: paths(&[name]), ..Observed::default() };
            Reading::new(&room, begun, &tools, &mut memory).manifest(&observed, &BTreeSet::new(), &[]).is_ok()
        };
        assert_eq!(
            ["early/h.h", "late/h.h", "out/early", "out/late"].map(&mut lacks),
            [false, true, false, true]
        );
    }

    #[test]
    fn a_script_may_use_any_variable() {
        let room = room();
        for (name, text) in
            [("script", "#!/bin/sh\n. ./settings\n"), ("settings", "A=$HOME\n"), ("other", "A=$PATH\n")]
        {
            fs::write(room.join(name), text).unwrap();
        }
        thread::sleep(2 * MARGIN);
        let begun = SystemTime::now();
        let is_known = |names: &[&str]| {
            let files = names.iter().map(|name| ((*name).into(), stamp(&room.join(name)))).collect();
            read(&room, begun, |reading| {
                reading
                    .manifest(&Observed { read: files, ..Observed::default() }, &BTreeSet::new(), &[])
                    .is_ok()
            })
        };
        assert_eq!(
            [is_known(&["settings"]), is_known(&["script", "other"]), is_known(&["script", "settings"])],
            [true, true, false]
        );
    }

    #[test]
    fn parts_of_a_call_have_to_agree() {
        let (room, begun) = (room(), SystemTime::now());
        let seen = |text: &str, form: Form| Seen {
            path: "inc/a.h".into(),
            digest: Digest::of(text.as_bytes()),
            stamp: None,
            form,
        };
        let of = |files: Vec<Seen>, real: &str| Manifest {
            files,
            places: vec![("link".into(), real.into())],
            ..Manifest::default()
        };
        let whole = |parts: &[Manifest]| read(&room, begun, |reading| reading.whole(parts));
        let one = of(vec![seen("one", Form::Text)], "inc");
        assert_eq!(whole(&[one.clone(), one.clone()]).unwrap().files.len(), 1);
        assert_eq!(
            whole(&[one.clone(), of(vec![seen("one", Form::Other)], "inc")]).unwrap().files.len(),
            2,
            "it is two things"
        );
        assert!(whole(&[one.clone(), of(vec![seen("two", Form::Text)], "inc")]).is_err());
        assert!(whole(&[one.clone(), of(vec![], "other")]).is_err());
        fs::write(room.join("inc/a.h"), "").unwrap();
        assert!(whole(&[one]).is_err(), "it has changed");
    }

    #[test]
    fn times_of_copies_count() {
        let room = room();
        fs::copy(room.join("inc/a.h"), room.join("copy.h")).unwrap();
        fs::write(room.join("b.h"), "int b;\n").unwrap();
        thread::sleep(2 * MARGIN);
        let begun = SystemTime::now();
        let forms = |names: &[&str]| {
            let read_files = names.iter().map(|name| ((*name).into(), stamp(&room.join(name)))).collect();
            // (what was left out wasn't entered)
            let texts = names.iter().filter(|name| **name != "copy.h").map(|name| room.join(name)).collect();
            let observed = Observed { read: read_files, ..Observed::default() };
            let whole = |reading: &mut Reading<'_>| {
                reading.manifest(&observed, &texts, &[]).and_then(|part| reading.whole(&[part]))
            };
            read(&room, begun, whole)
                .unwrap()
                .files
                .iter()
                .map(|seen| matches!(seen.form, Form::Dated(..)))
                .collect::<Vec<_>>()
        };
        assert_eq!(
            (forms(&["b.h", "inc/a.h"]), forms(&["b.h", "copy.h", "inc/a.h"])),
            (vec![false, false], vec![false, true, true])
        );
    }

    #[test]
    fn a_locale_has_several_names() {
        let names = names_of_locale("en_GB.UTF-8@euro");
        let wanted = ["en_GB.UTF-8@euro", "en_GB.utf8", "en_GB", "en.utf8@euro", "en"];
        assert!(wanted.iter().all(|name| names.iter().any(|other| other == name)), "{names:?}");
    }
}
