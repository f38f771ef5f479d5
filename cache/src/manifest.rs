//! What a call or a command depends on: the files that were read for it, and the places where some were
//! sought in vain.
//!
//! A file counts by its contents. It isn't read again if its stamp is the one it had, and if it had been as
//! it is for a while when it was read. A folder's stamp says in the same way that nothing has appeared in it.
//!
//! A source whose layout is as it was may stand for what it was, if the call can't see the difference.
use crate::checkout::Checkout;
use crate::digest::{Digest, Hasher};
use crate::lines::{Macros, definitions_in, without_definitions};
use crate::miss::{Change, Difference};
use crate::source::{layout_of, words_of};
use crate::stamps::Stamp;
use crate::store::{Store, digest_of};
use crate::stored;
use machine::settings::own_variable;
use machine::streams::content_of;
use serde::de::DeserializeOwned;
use serde::{Deserialize, Serialize};
use std::ffi::OsStr;
use std::fs::{self, File, Metadata};
use std::io::{self, ErrorKind, Read};
use std::os::unix::ffi::{OsStrExt, OsStringExt};
use std::os::unix::fs::MetadataExt;
use std::path::{Path, PathBuf};

/// The layouts of a source.
#[derive(Clone, PartialEq, Eq, Debug, Serialize, Deserialize)]
pub struct Layouts {
    /// That with its lines.
    lined: Digest,
    /// That without, if it has one.
    free: Option<Digest>,
    /// Whether its lines are known not to count.
    is_free: bool,
}

/// What a file is to a call.
#[derive(Clone, PartialEq, Eq, Debug, Serialize, Deserialize)]
pub enum Form {
    /// No text that a preprocessor reads.
    Other,
    /// A text of which each byte counts.
    Text,
    Source(Layouts),
    /// A file that counts by the time of its last change, too: its seconds and nanoseconds.
    Dated(i64, i64),
}

impl Form {
    /// That of a source.
    pub fn of_source(text: &[u8]) -> Form {
        let digest = |is_lined: bool| layout_of(text, is_lined).map(|layout| Digest::of(layout.as_slice()));
        digest(true)
            .map_or(Form::Text, |lined| Form::Source(Layouts { lined, free: digest(false), is_free: false }))
    }

    /// That of a file whose time counts.
    pub fn dated(status: &Metadata) -> Form {
        Form::Dated(status.mtime(), status.mtime_nsec())
    }
}

/// A file that was read.
#[derive(Clone, PartialEq, Eq, Debug, Serialize, Deserialize)]
pub struct Seen {
    /// Its path, seen from the call's working directory.
    #[serde(with = "stored::path")]
    pub path: PathBuf,
    pub digest: Digest,
    /// Unless it had only just been changed.
    pub stamp: Option<Stamp>,
    pub form: Form,
}

impl Seen {
    /// A file as it is now. `None` if it isn't a plain file that can be read.
    pub fn now(path: &Path, cwd: &Path) -> Option<Seen> {
        let mut file = File::open(cwd.join(path)).ok()?;
        let status = file.metadata().ok().filter(Metadata::is_file)?;
        let digest = digest_of(&mut file).ok()?;
        Some(Seen {
            path: path.to_owned(),
            digest,
            stamp: Stamp::settled(&cwd.join(path), &status),
            form: Form::Other,
        })
    }

    /// The same file as it is now.
    fn again(&self, cwd: &Path) -> Option<Seen> {
        let path = cwd.join(&self.path);
        let status = fs::metadata(&path).ok()?;
        if self.stamp.is_some_and(|stamp| stamp == Stamp::of(&status)) {
            let is_for_all = status.mode() & 0o444 == 0o444;
            return (is_for_all || File::open(path).is_ok()).then(|| self.clone());
        }
        let now = Seen::now(&self.path, cwd)?;
        let form = match self.form {
            Form::Dated(..) => Form::dated(&status),
            Form::Source(_) if now.digest != self.digest => Form::of_source(&content_of(&path).ok()?),
            Form::Other | Form::Text | Form::Source(_) => self.form.clone(),
        };
        Some(Seen { form, ..now })
    }

    /// Whether this is the same to a call as what it was. The layouts of a source are those of its text.
    pub fn counts_as(&self, now: &Seen) -> bool {
        let same_time = !matches!(self.form, Form::Dated(..)) || self.form == now.form;
        self.digest == now.digest && same_time
    }

    /// What has changed of it.
    fn change(&self, now: &Seen) -> Option<Change> {
        let change = if self.digest == now.digest { Change::Time } else { Change::Content };
        (!self.counts_as(now)).then_some(change)
    }

    /// The layouts of a source.
    fn layouts(&self) -> Option<&Layouts> {
        if let Form::Source(layouts) = &self.form { Some(layouts) } else { None }
    }
}

/// What programs and libraries begin with: no compiler takes it for a text.
const PROGRAM: &[u8] = b"\x7fELF";

/// Whether a file is a program or a library.
pub fn is_program(path: &Path) -> bool {
    let mut begin = [0; PROGRAM.len()];
    File::open(path).is_ok_and(|mut file| file.read_exact(&mut begin).is_ok() && begin == PROGRAM)
}

/// Where a path leads, seen from a working directory as the path is.
pub fn real_place(path: &Path, cwd: &Path) -> Option<PathBuf> {
    let real = fs::canonicalize(cwd.join(path)).ok()?;
    let own = if path.is_absolute() { None } else { Some(fs::canonicalize(cwd).ok()?) };
    Some(own.and_then(|own| real.strip_prefix(own).ok().map(Path::to_owned)).unwrap_or(real))
}

/// Whether nothing is at a path, by what was said of it.
fn is_missing(error: &io::Error) -> bool {
    matches!(error.kind(), ErrorKind::NotFound | ErrorKind::NotADirectory)
}

/// A folder in which names were sought in vain.
#[derive(Clone, PartialEq, Eq, Debug, Serialize, Deserialize)]
pub struct Vain {
    /// Its path, seen from the call's working directory.
    #[serde(with = "stored::path")]
    pub folder: PathBuf,
    #[serde(with = "stored::texts")]
    pub lacks: Vec<Vec<u8>>,
    /// Unless it had only just been changed.
    pub stamp: Option<Stamp>,
}

impl Vain {
    /// A folder that lacks some names, as it is now. It has no stamp if one of the names is a link's: what
    /// that leads to may come elsewhere.
    pub fn now(folder: &Path, lacks: Vec<Vec<u8>>, cwd: &Path) -> Option<Vain> {
        let status = fs::metadata(cwd.join(folder)).ok()?;
        let place = cwd.join(folder);
        let there = lacks.iter().map(|name| place.join(OsStr::from_bytes(name)));
        let mut there =
            there.filter(|path| !fs::symlink_metadata(path).as_ref().is_err_and(is_missing)).peekable();
        let stamp = Stamp::settled(&place, &status).filter(|_| there.peek().is_none());
        let is_free = there.all(|path| fs::metadata(path).as_ref().is_err_and(is_missing));
        is_free.then(|| Vain { folder: folder.to_owned(), lacks, stamp })
    }

    /// The first of the names that it has by now, or the folder, if nobody may look into it.
    fn found(&self, cwd: &Path) -> PathBuf {
        let path = |name: &Vec<u8>| self.folder.join(OsStr::from_bytes(name));
        let is_there = |path: &PathBuf| !fs::metadata(cwd.join(path)).as_ref().is_err_and(is_missing);
        self.lacks.iter().map(path).find(is_there).unwrap_or_else(|| self.folder.clone())
    }

    /// The same folder as it is now. `None` if it has one of the names. A folder that is gone has none.
    fn again(&self, cwd: &Path) -> Option<Vain> {
        let status = match fs::metadata(cwd.join(&self.folder)) {
            Err(error) if is_missing(&error) => return Some(Vain { stamp: None, ..self.clone() }),
            status => status.ok()?,
        };
        // (all may look into most folders)
        let may_look = status.mode() & 0o111 == 0o111;
        let is_same = may_look && self.stamp.is_some_and(|stamp| stamp == Stamp::of(&status));
        if is_same { Some(self.clone()) } else { Vain::now(&self.folder, self.lacks.clone(), cwd) }
    }
}

/// A folder whose names were read.
#[derive(Clone, PartialEq, Eq, Debug, Serialize, Deserialize)]
pub struct Listed {
    /// Its path, seen from the call's working directory.
    #[serde(with = "stored::path")]
    pub folder: PathBuf,
    names: Digest,
}

impl Listed {
    /// A folder as it is now.
    pub fn now(folder: &Path, cwd: &Path) -> Option<Listed> {
        let entries = fs::read_dir(cwd.join(folder)).ok()?;
        let mut names: Vec<_> =
            entries.map(|entry| entry.map(|entry| entry.file_name())).collect::<Result<_, _>>().ok()?;
        names.sort();
        let mut hasher = Hasher::default();
        for name in names {
            hasher.add(name.as_bytes());
        }
        Some(Listed { folder: folder.to_owned(), names: hasher.finish() })
    }
}

/// Variables that a command has in place of this process's, or that it lacks.
pub type Variables = [(String, Option<String>)];

/// A variable for which a process asked, with its value.
#[derive(Clone, PartialEq, Eq, Debug, PartialOrd, Ord, Serialize, Deserialize)]
pub struct Variable {
    #[serde(with = "serde_bytes")]
    name: Vec<u8>,
    #[serde(with = "serde_bytes")]
    value: Option<Vec<u8>>,
}

impl Variable {
    /// A variable as a command has it.
    pub fn now(name: &[u8], given: &Variables) -> Variable {
        let other = given.iter().rev().find(|(other, _)| other.as_bytes() == name);
        let own = || own_variable(OsStr::from_bytes(name)).map(OsStringExt::into_vec);
        let value = other.map_or_else(own, |(_, value)| value.clone().map(String::into_bytes));
        Variable { name: name.to_vec(), value }
    }

    /// Its name.
    pub fn name(&self) -> &OsStr {
        OsStr::from_bytes(&self.name)
    }
}

/// What a call or a command depends on.
#[derive(Clone, PartialEq, Eq, Debug, Default, Serialize, Deserialize)]
pub struct Manifest {
    /// A path may be here twice, if the file is several things to a call.
    pub files: Vec<Seen>,
    pub vain: Vec<Vain>,
    pub listed: Vec<Listed>,
    /// Paths, and where they lead: folders may be one, and gcc may name what a link leads to.
    #[serde(with = "stored::pairs")]
    pub places: Vec<(PathBuf, PathBuf)>,
    pub variables: Vec<Variable>,
    /// What the command lines of preprocessors define, if a source may stand for another one of its layout.
    pub defines: Option<Vec<Vec<u8>>>,
}

impl Manifest {
    /// How many files and folders had only just been changed.
    fn fresh(&self) -> usize {
        let stamps = self.files.iter().map(|seen| seen.stamp).chain(self.vain.iter().map(|vain| vain.stamp));
        stamps.filter(Option::is_none).count()
    }

    /// What it says, as lines of a word, a digest or a time if there is one, and a path or a name.
    pub fn lines(&self) -> Vec<u8> {
        let mut lines = Vec::new();
        let mut add = |parts: &[&[u8]]| lines.extend([&parts.join(&b' '), &b"\n"[..]].concat());
        for Seen { path, digest, form, .. } in &self.files {
            let time = time_of(form).map(|(seconds, part)| format!("{seconds}.{part:09}"));
            let digest = digest.to_string();
            let words = [
                Some(&b"file"[..]),
                Some(digest.as_bytes()),
                time.as_ref().map(String::as_bytes),
                Some(path.as_os_str().as_bytes()),
            ];
            add(&words.into_iter().flatten().collect::<Vec<_>>());
        }
        for Listed { folder, names } in &self.listed {
            add(&[b"listed", names.to_string().as_bytes(), folder.as_os_str().as_bytes()]);
        }
        for Vain { folder, lacks, .. } in &self.vain {
            for name in lacks {
                add(&[b"lacking", folder.join(OsStr::from_bytes(name)).as_os_str().as_bytes()]);
            }
        }
        for (path, real) in &self.places {
            add(&[b"place", path.as_os_str().as_bytes(), b"->", real.as_os_str().as_bytes()]);
        }
        for Variable { name, value } in &self.variables {
            add(&[
                b"variable",
                &[&name[..], value.as_ref().map_or(&b""[..], |_| b"="), value.as_deref().unwrap_or_default()]
                    .concat(),
            ]);
        }
        lines
    }

    /// Whether a variable has such a value.
    pub fn has_value(&self, is_such: impl Fn(&[u8]) -> bool) -> bool {
        self.variables.iter().filter_map(|variable| variable.value.as_deref()).any(is_such)
    }

    /// All paths that it has.
    pub fn paths(&self) -> impl Iterator<Item = &Path> {
        let files = self.files.iter().map(|seen| &seen.path);
        let folders =
            self.vain.iter().map(|vain| &vain.folder).chain(self.listed.iter().map(|listed| &listed.folder));
        let places = self.places.iter().flat_map(|(path, real)| [path, real]);
        files.chain(folders).chain(places).map(PathBuf::as_path)
    }

    /// The same as it is in the store: as in any checkout, if the call is made in one.
    pub fn kept_in(&self, checkout: Option<&Checkout>) -> Option<Manifest> {
        let Some(checkout) = checkout else { return Some(self.clone()) };
        self.with_paths(|path| checkout.path(path), |path| checkout.path(path))
    }

    /// What one in the store is in a checkout.
    pub fn own_in(&self, checkout: Option<&Checkout>) -> Option<Manifest> {
        let Some(checkout) = checkout else { return Some(self.clone()) };
        self.with_paths(|path| checkout.own(path), |path| checkout.own_real(path))
    }

    /// The same with other paths, and others for where these lead. `None` if one of them has none.
    fn with_paths(
        &self,
        path: impl Fn(&Path) -> Option<PathBuf>,
        real: impl Fn(&Path) -> Option<PathBuf>,
    ) -> Option<Manifest> {
        let files = self.files.iter().map(|seen| Some(Seen { path: path(&seen.path)?, ..seen.clone() }));
        let vain = self.vain.iter().map(|vain| Some(Vain { folder: path(&vain.folder)?, ..vain.clone() }));
        let listed =
            self.listed.iter().map(|listed| Some(Listed { folder: path(&listed.folder)?, ..listed.clone() }));
        let places = self.places.iter().map(|(from, to)| Some((path(from)?, real(to)?)));
        Some(Manifest {
            files: files.collect::<Option<_>>()?,
            vain: vain.collect::<Option<_>>()?,
            listed: listed.collect::<Option<_>>()?,
            places: places.collect::<Option<_>>()?,
            ..self.clone()
        })
    }

    /// Whether it says more of the same than an earlier one, so that less has to be read.
    fn is_better_than(&self, earlier: &Manifest) -> bool {
        self != earlier && self.fresh() <= earlier.fresh()
    }

    /// What a store has under a key.
    pub fn read(store: &Store, key: &Digest) -> Option<Manifest> {
        stored::of_bytes(&store.read(key)?)
    }

    /// What was kept beside it under a key, for files with these contents.
    pub fn answer<T: DeserializeOwned>(&self, store: &Store, key: &Digest) -> Option<T> {
        stored::of_bytes(&store.read(&self.digest(key))?)
    }

    /// Keeps an answer that holds while all is as it is here. The key leads to the manifest, and what that
    /// says to the answer.
    /// Errors: those of writing.
    pub fn keep(&self, store: &Store, key: &Digest, answer: &impl Serialize) -> io::Result<()> {
        store
            .write(&self.digest(key), &stored::to_bytes(answer))
            .and_then(|()| store.write(key, &stored::to_bytes(self)))
    }

    /// The answer under a key, if all is there on which it depends, and what this is now, to a command with
    /// such variables. In the store it may be as in any checkout.
    pub fn find<T: DeserializeOwned>(
        store: &Store,
        key: &Digest,
        (cwd, checkout): (&Path, Option<&Checkout>),
        given: &Variables,
    ) -> Option<(T, Manifest)> {
        let stored = Manifest::read(store, key)?;
        let now = stored.own_in(checkout)?.now(cwd, given).ok()?;
        let kept = now.kept_in(checkout)?;
        let answer = kept.answer(store, key)?;
        kept.improve(store, key, &stored);
        Some((answer, now))
    }

    /// Takes the place of an earlier one under a key, if less has to be read then.
    pub fn improve(&self, store: &Store, key: &Digest, earlier: &Manifest) {
        if self.is_better_than(earlier) {
            let _ = store.write(key, &stored::to_bytes(self));
        }
    }

    /// The same as it is now, seen from a working directory, for a command with such variables.
    /// Errors: that it would find another file, or not find one.
    pub fn now(&self, cwd: &Path, given: &Variables) -> Result<Manifest, Difference> {
        let gone = |path: &Path| Difference { name: path.to_owned(), change: Change::Gone };
        let file = |seen: &Seen| seen.again(cwd).ok_or_else(|| gone(&seen.path));
        let vain = |vain: &Vain| {
            vain.again(cwd).ok_or_else(|| Difference { name: vain.found(cwd), change: Change::New })
        };
        let listed = |listed: &Listed| Listed::now(&listed.folder, cwd).ok_or_else(|| gone(&listed.folder));
        let place = |(path, _): &(PathBuf, PathBuf)| {
            let real = real_place(path, cwd).ok_or_else(|| gone(path))?;
            Ok((path.clone(), real))
        };
        Ok(Manifest {
            files: self.files.iter().map(file).collect::<Result<_, _>>()?,
            vain: self.vain.iter().map(vain).collect::<Result<_, _>>()?,
            listed: self.listed.iter().map(listed).collect::<Result<_, _>>()?,
            places: self.places.iter().map(place).collect::<Result<_, _>>()?,
            variables: self.variables.iter().map(|variable| Variable::now(&variable.name, given)).collect(),
            defines: self.defines.clone(),
        })
    }

    /// The first of all this that is otherwise now.
    pub fn difference(&self, now: &Manifest) -> Option<Difference> {
        let files = self.files.iter().zip(&now.files);
        let files = files.filter_map(|(seen, now)| Some((seen.path.clone(), seen.change(now)?)));
        let listed = self.listed.iter().zip(&now.listed).filter(|(listed, now)| listed != now);
        let listed = listed.map(|(listed, _)| (listed.folder.clone(), Change::Names));
        let places = self.places.iter().zip(&now.places).filter(|(place, now)| place != now);
        let places = places.map(|((path, _), _)| (path.clone(), Change::Place));
        let variables = self.variables.iter().zip(&now.variables).filter(|(variable, now)| variable != now);
        let variables = variables.map(|(variable, _)| (variable.name().into(), Change::Variable));
        let (name, change) = files.chain(listed).chain(places).chain(variables).next()?;
        Some(Difference { name, change })
    }

    fn has_surroundings_of(&self, now: &Manifest) -> bool {
        self.places == now.places && self.listed == now.listed && self.variables == now.variables
    }

    /// The same as it is now, if what has changed of it doesn't count: sources of which the layouts are as
    /// they were.
    pub fn alike(&self, now: &Manifest, cwd: &Path) -> Option<Manifest> {
        let defines = self.defines.as_ref().filter(|_| self.has_surroundings_of(now))?;
        let mut alike = now.clone();
        let mut unsure = Vec::new();
        for (place, (earlier, seen)) in self.files.iter().zip(&mut alike.files).enumerate() {
            if earlier.counts_as(seen) {
                continue;
            }
            let (before, after) = (earlier.layouts()?, seen.layouts()?);
            let is_lined = before.lined == after.lined;
            if !is_lined && (before.free.is_none() || before.free != after.free)
                || self.has_copy_of(place, seen)
            {
                return None;
            }
            unsure.extend((!is_lined && !before.is_free).then_some(place));
            seen.form = Form::Source(Layouts { is_free: before.is_free || !is_lined, ..after.clone() });
        }
        let is_free = unsure.is_empty() || !alike.may_see_lines(&unsure, defines, cwd)?;
        is_free.then_some(alike)
    }

    /// Whether another file has the content that a file has had, or has now: gcc leaves out a copy of a file
    /// that is to be read only once.
    fn has_copy_of(&self, place: usize, now: &Seen) -> bool {
        let is_copy = |seen: &Seen| seen.digest == now.digest || seen.digest == self.files[place].digest;
        self.files.iter().enumerate().any(|(other, seen)| other != place && is_copy(seen))
    }

    /// Whether the lines of some sources may count. `None` if that isn't known.
    fn may_see_lines(&self, places: &[usize], defines: &[Vec<u8>], cwd: &Path) -> Option<bool> {
        // (a tool that was looked at is large)
        let is_text = |seen: &&Seen| match seen.form {
            Form::Other => false,
            Form::Dated(..) => !is_program(&cwd.join(&seen.path)),
            Form::Text | Form::Source(_) => true,
        };
        let files = self.files.iter().filter(is_text);
        let texts: Vec<Vec<u8>> =
            files.map(|seen| content_of(&cwd.join(&seen.path)).ok()).collect::<Option<_>>()?;
        let definitions = texts.iter().map(|text| definitions_in(text)).collect::<Option<Vec<_>>>()?;
        let mut macros = Macros::default();
        definitions.iter().try_for_each(|text| macros.read(text))?;
        for definition in defines {
            macros.define(definition);
        }
        let sees = |place: &usize| {
            let layout = layout_of(&content_of(&cwd.join(&self.files[*place].path)).ok()?, false)?;
            let uses = without_definitions(layout.as_slice());
            Some(macros.see_lines(words_of(&uses)))
        };
        places.iter().map(sees).collect::<Option<Vec<bool>>>().map(|sees| sees.contains(&true))
    }

    /// The digest of what counts, beside a key.
    pub fn digest(&self, key: &Digest) -> Digest {
        let mut hasher = Hasher::default();
        hasher.add(b"zigrunk result 3");
        hasher.update(&key.0);
        // (what is different now and then is left out)
        let files = self
            .files
            .iter()
            .map(|seen| (seen.path.as_os_str().as_bytes(), seen.digest, time_of(&seen.form)));
        let vain = self.vain.iter().map(|vain| (vain.folder.as_os_str().as_bytes(), &vain.lacks));
        let rest = (&self.listed, &self.variables);
        let places =
            self.places.iter().map(|(path, real)| (path.as_os_str().as_bytes(), real.as_os_str().as_bytes()));
        hasher.update(&stored::to_bytes(&(
            files.collect::<Vec<_>>(),
            vain.collect::<Vec<_>>(),
            places.collect::<Vec<_>>(),
            rest,
        )));
        hasher.finish()
    }
}

/// The time of a file's last change, if that counts.
fn time_of(form: &Form) -> Option<(i64, i64)> {
    if let Form::Dated(seconds, part) = form { Some((*seconds, *part)) } else { None }
}

#[cfg(test)]
mod tests {
    use super::*;
    use crate::stamps::is_older;
    use crate::stored::{of_bytes, to_bytes};
    use crate::test_folder::TestFolder;
    use machine::settings::AskedRoot;
    use std::time::{Duration, SystemTime};

    impl Manifest {
        /// The same as it is now.
        fn again(&self, cwd: &Path) -> Option<Manifest> {
            self.now(cwd, &[]).ok()
        }
    }

    /// A folder for a test, which goes with it.
    struct Scratch(TestFolder);

    impl Scratch {
        fn new() -> Scratch {
            let path = TestFolder::new();
            fs::create_dir_all(path.join("inc")).unwrap();
            fs::write(path.join("k.cu"), "one").unwrap();
            std::os::unix::fs::symlink("inc", path.join("way")).unwrap();
            Scratch(path)
        }

        fn manifest(&self) -> Manifest {
            let vain = Vain::now(Path::new("inc"), vec![b"a.h".to_vec(), b"sub".to_vec()], &self.0).unwrap();
            let places =
                [("inc", "inc"), ("way", "inc")].map(|(path, real)| (path.into(), real.into())).to_vec();
            let files = vec![Seen::now(Path::new("k.cu"), &self.0).unwrap()];
            Manifest { files, vain: vec![vain], places, ..Manifest::default() }
        }

        fn again(&self, manifest: &Manifest) -> Option<Digest> {
            manifest.again(&self.0).map(|now| now.digest(&Digest::of(b"call")))
        }
    }

    #[test]
    fn manifests_are_read_back() {
        let scratch = Scratch::new();
        let mut manifest = scratch.manifest();
        manifest.files[0].stamp = Some(Stamp([[1; 8], [2; 8], [3; 8], [4; 8], [5; 8], [6; 8], [255; 8]]));
        manifest.defines = Some(vec![b"A=1".to_vec(), Vec::new()]);
        manifest.files.push(Seen { form: Form::Dated(1, 2), ..manifest.files[0].clone() });
        manifest.listed.push(Listed::now(Path::new("inc"), &scratch.0).unwrap());
        manifest.variables = vec![
            Variable { name: b"A".to_vec(), value: None },
            Variable { name: b"B".to_vec(), value: Some(b"b".to_vec()) },
        ];
        for text in ["int a;\n", "f(\n", "??"] {
            manifest.files.push(Seen { form: Form::of_source(text.as_bytes()), ..manifest.files[0].clone() });
        }
        let bytes = to_bytes(&manifest);
        assert_eq!(of_bytes(&bytes), Some(manifest));
        for size in 0..bytes.len() {
            assert_eq!(of_bytes::<Manifest>(&bytes[..size]), None, "{size}");
        }
        assert_eq!(of_bytes::<Manifest>(&[&bytes[..], &[0]].concat()), None);
    }

    #[test]
    fn the_contents_of_files_count() {
        let scratch = Scratch::new();
        let manifest = scratch.manifest();
        let first = manifest.digest(&Digest::of(b"call"));
        assert_eq!(scratch.again(&manifest), Some(first));
        assert_ne!(manifest.digest(&Digest::of(b"another")), first);
        fs::write(scratch.0.join("k.cu"), "two").unwrap();
        assert!(scratch.again(&manifest).is_some_and(|now| now != first), "the same size, and no stamp yet");
        fs::write(scratch.0.join("k.cu"), "one").unwrap();
        assert_eq!(scratch.again(&manifest), Some(first));
        fs::remove_file(scratch.0.join("k.cu")).unwrap();
        assert_eq!(scratch.again(&manifest), None);
        fs::create_dir(scratch.0.join("k.cu")).unwrap();
        assert_eq!(scratch.again(&manifest), None);
    }

    #[test]
    fn where_paths_lead_counts() {
        let scratch = Scratch::new();
        let manifest = Manifest { vain: Vec::new(), defines: Some(Vec::new()), ..scratch.manifest() };
        let first = scratch.again(&manifest);
        assert!(first.is_some());
        let lead = |to: &str| {
            fs::remove_file(scratch.0.join("way")).unwrap();
            std::os::unix::fs::symlink(to, scratch.0.join("way")).unwrap();
        };
        fs::create_dir(scratch.0.join("other")).unwrap();
        lead("other");
        let now = manifest.again(&scratch.0).unwrap();
        assert_ne!(scratch.again(&manifest), first);
        assert_eq!((manifest.alike(&now, &scratch.0), scratch.again(&now)), (None, scratch.again(&manifest)));
        lead("missing");
        assert_eq!(scratch.again(&manifest), None);
        lead("inc");
        assert_eq!((scratch.again(&manifest), scratch.again(&now)), (first, first));
    }

    #[test]
    fn the_names_in_a_folder_count() {
        let scratch = Scratch::new();
        let manifest = Manifest {
            listed: vec![Listed::now(Path::new("inc"), &scratch.0).unwrap()],
            ..Manifest::default()
        };
        let holds = || manifest.again(&scratch.0).map(|now| manifest == now);
        assert_eq!(holds(), Some(true));
        fs::write(scratch.0.join("inc/b.h"), "").unwrap();
        assert_eq!(holds(), Some(false));
        fs::rename(scratch.0.join("inc/b.h"), scratch.0.join("b.h")).unwrap();
        assert_eq!(holds(), Some(true));
        fs::remove_dir(scratch.0.join("inc")).unwrap();
        assert_eq!(holds(), None);
    }

    #[test]
    fn a_variable_for_which_a_process_asked_counts() {
        let of = |name: &str, value: Option<Vec<u8>>| Manifest {
            variables: vec![Variable { name: name.into(), value }],
            ..Manifest::default()
        };
        let holds = |manifest: &Manifest| manifest.again(Path::new("/")).is_some_and(|now| *manifest == now);
        let path = own_variable("PATH").map(OsStringExt::into_vec);
        assert_eq!(
            [of("PATH", path), of("PATH", None), of("NO_SUCH", None), of("NO_SUCH", Some(Vec::new()))]
                .each_ref()
                .map(holds),
            [true, false, true, false]
        );
    }

    #[test]
    fn times_count_if_that_is_asked_for() {
        let scratch = Scratch::new();
        let dated = Form::dated(&fs::metadata(scratch.0.join("k.cu")).unwrap());
        let seen = Seen { form: dated, ..Seen::now(Path::new("k.cu"), &scratch.0).unwrap() };
        let manifest = Manifest { files: vec![seen], ..Manifest::default() };
        let first = manifest.digest(&Digest::of(b"call"));
        assert_eq!(scratch.again(&manifest), Some(first));
        let file = File::options().write(true).open(scratch.0.join("k.cu")).unwrap();
        let own = file.metadata().unwrap().modified().unwrap();
        for part in [Duration::from_secs(1), Duration::from_nanos(1)] {
            file.set_modified(own - part).unwrap();
            assert!(scratch.again(&manifest).is_some_and(|now| now != first), "{part:?}");
        }
        file.set_modified(own).unwrap();
        assert_eq!(scratch.again(&manifest), Some(first));
        fs::write(scratch.0.join("k.cu"), "two").unwrap();
        file.set_modified(own).unwrap();
        assert!(scratch.again(&manifest).is_some_and(|now| now != first), "its contents count too");
    }

    #[test]
    fn a_stamp_stands_for_contents() {
        let scratch = Scratch::new();
        let mut manifest = scratch.manifest();
        assert_eq!((manifest.files[0].stamp, manifest.vain[0].stamp), (None, None), "they are fresh");
        let first = manifest.digest(&Digest::of(b"call"));
        manifest.files[0].stamp = Some(Stamp::of(&fs::metadata(scratch.0.join("k.cu")).unwrap()));
        manifest.files[0].digest = Digest::of(b"as it was");
        assert!(scratch.again(&manifest).is_some_and(|now| now != first), "it isn't read");
        let time = fs::metadata(scratch.0.join("k.cu")).unwrap().modified().unwrap();
        fs::write(scratch.0.join("k.cu"), "two").unwrap();
        fs::write(scratch.0.join("k.cu"), "one").unwrap();
        File::options().write(true).open(scratch.0.join("k.cu")).unwrap().set_modified(time).unwrap();
        let now = manifest.again(&scratch.0).unwrap();
        assert_eq!(
            now.files[0].digest,
            Digest::of(b"one"),
            "its size and time are the same, but not its stamp"
        );
    }

    /// What stands for a call once a source of it, which includes a header, has become another.
    fn alike(scratch: &Scratch, header: &str, texts: [&str; 2], defines: &str) -> Option<Manifest> {
        let put = |text: &str| fs::write(scratch.0.join("k.cu"), text).unwrap();
        fs::write(scratch.0.join("inc/a.h"), header).unwrap();
        put(texts[0]);
        let seen = |name: &str, form: Form| Seen { form, ..Seen::now(Path::new(name), &scratch.0).unwrap() };
        let files = vec![seen("k.cu", Form::of_source(texts[0].as_bytes())), seen("inc/a.h", Form::Text)];
        let manifest = Manifest { files, defines: Some(vec![defines.into()]), ..Manifest::default() };
        put(texts[1]);
        let now = manifest.again(&scratch.0).unwrap();
        let again = manifest.alike(&now, &scratch.0);
        assert!(
            again
                .as_ref()
                .is_none_or(|again| again.digest(&Digest::of(b"call")) == now.digest(&Digest::of(b"call")))
        );
        assert!(Manifest { defines: None, ..manifest.clone() }.alike(&now, &scratch.0).is_none());
        again
    }

    #[test]
    fn a_source_of_the_same_layout_stands_for_another() {
        let scratch = Scratch::new();
        let is_alike =
            |header: &str, texts: [&str; 2], defines: &str| alike(&scratch, header, texts, defines).is_some();
        let header = "#define check(x) fail(x, __LINE__)\n#define SIZE 64\n";
        let cases = [
            (["int a; // one\n", "int a;   // other\n"], true),
            (["int a;\n", "// a line\nint a;\n"], true),
            (["int a = SIZE;\n", "\n int a = SIZE;\n"], true),
            (["check(a); // one\n", "check(a); /* other */\n"], true),
            (["check(a);\n", "\ncheck(a);\n"], false),
            (["#define here check(1)\n", "\n#define here check(1)\n"], true),
            (["#define here check(1)\nhere\n", "\n#define here check(1)\nhere\n"], false),
            (["__LINE__", "/* x\n*/ __LINE__"], false),
            (["int a;\n", "int b;\n"], false),
            (["f(\n#if 1\n#endif\n)\n", "\nf(\n#if 1\n#endif\n)\n"], false),
            (["int a;\n", "int a; // \\\n"], false),
        ];
        for (texts, wanted) in cases {
            assert_eq!(is_alike(header, texts, "A=1"), wanted, "{texts:?}");
        }
        let lines = ["A(1)\n", "\nA(1)\n"];
        assert_eq!(["A=check", "A=SIZE"].map(|defines| is_alike(header, lines, defines)), [false, true]);
        assert!(!is_alike("??=define A __LINE__\n", lines, ""), "a header in which definitions may hide");
        assert!(
            is_alike("int a; // one", ["int a;", "int a; // two"], "")
                && !is_alike("int a;", ["int a;", "int a; // two"], ""),
            "a copy"
        );
        assert!(!is_alike("int a; // two", ["int a;", "int a; // two"], ""), "a copy now");
    }

    #[test]
    fn a_program_defines_nothing() {
        let scratch = Scratch::new();
        fs::write(scratch.0.join("k.cu"), "int a = A;\n").unwrap();
        let is_alike = |tool: &str| {
            fs::write(scratch.0.join("tool"), tool).unwrap();
            let dated = Form::dated(&fs::metadata(scratch.0.join("tool")).unwrap());
            let seen =
                |name: &str, form: Form| Seen { form, ..Seen::now(Path::new(name), &scratch.0).unwrap() };
            let files = vec![seen("k.cu", Form::of_source(b"int a = A;\n")), seen("tool", dated)];
            let manifest = Manifest { files, defines: Some(Vec::new()), ..Manifest::default() };
            fs::write(scratch.0.join("k.cu"), "\nint a = A;\n").unwrap();
            let is_alike = manifest.alike(&manifest.again(&scratch.0).unwrap(), &scratch.0).is_some();
            fs::write(scratch.0.join("k.cu"), "int a = A;\n").unwrap();
            is_alike
        };
        assert_eq!(["#define A __LINE__\n", "\x7fELF\n#define A __LINE__\n"].map(is_alike), [false, true]);
    }

    #[test]
    fn lines_that_do_not_count_are_known_the_next_time() {
        let scratch = Scratch::new();
        let manifest = alike(&scratch, "#define A 1\n", ["A\n", "\nA\n"], "").unwrap();
        assert!(manifest.files[0].layouts().unwrap().is_free);
        fs::write(scratch.0.join("inc/a.h"), "").unwrap();
        let now = manifest.again(&scratch.0).unwrap();
        assert_eq!(manifest.alike(&now, &scratch.0), None, "a header has changed of which each byte counts");
        fs::write(scratch.0.join("inc/a.h"), "#define A 1\n").unwrap();
        fs::write(scratch.0.join("k.cu"), "\n\n\nA\n").unwrap();
        let now = manifest.again(&scratch.0).unwrap();
        assert!(
            manifest.alike(&now, &scratch.0).is_some_and(|again| again.files[0].layouts().unwrap().is_free)
        );
        assert_eq!(
            alike(&scratch, "", ["A // x\n", "A\n"], "")
                .map(|again| again.files[0].layouts().unwrap().is_free),
            Some(false)
        );
    }

    #[test]
    fn what_is_settled_has_a_stamp() {
        let own = Seen::now(Path::new("/bin/sh"), Path::new("/")).unwrap();
        assert!(
            own.stamp.is_some()
                && Vain::now(Path::new("/bin"), Vec::new(), Path::new("/")).unwrap().stamp.is_some()
        );
        let status = fs::metadata("/bin/sh").unwrap();
        let future = SystemTime::now() + Duration::from_secs(1000);
        assert!(
            is_older(&status, future, Duration::from_secs(900))
                && !is_older(&status, SystemTime::UNIX_EPOCH, Duration::ZERO)
        );
        let better = Manifest { files: vec![own.clone()], ..Manifest::default() };
        let worse = Manifest { files: vec![Seen { stamp: None, ..own }], ..Manifest::default() };
        assert!(
            better.is_better_than(&worse)
                && !worse.is_better_than(&better)
                && !better.is_better_than(&better)
        );
    }

    #[test]
    fn a_name_that_appears_is_noticed() {
        let scratch = Scratch::new();
        let manifest = scratch.manifest();
        let after = |name: &str, is_folder: bool| {
            let path = scratch.0.join("inc").join(name);
            if is_folder {
                fs::create_dir(&path).unwrap();
            } else {
                fs::write(&path, "").unwrap();
            }
            let is_free = manifest.again(&scratch.0).is_some();
            if is_folder {
                fs::remove_dir(&path).unwrap();
            } else {
                fs::remove_file(&path).unwrap();
            }
            is_free
        };
        let cases = [
            ("b.h", false, true),
            ("a.h", false, false),
            ("a.h", true, false),
            ("sub", true, false),
            ("sub", false, false),
        ];
        for (name, is_folder, wanted) in cases {
            assert_eq!(after(name, is_folder), wanted, "{name} {is_folder}");
        }
        // A link that leads nowhere yet: nothing appears in its own folder when what it leads to does.
        std::os::unix::fs::symlink("../far.h", scratch.0.join("inc/a.h")).unwrap();
        let vain = manifest.again(&scratch.0).unwrap().vain.remove(0);
        assert_eq!((&vain.lacks, vain.stamp), (&manifest.vain[0].lacks, None));
        fs::create_dir(scratch.0.join("far.h")).unwrap();
        assert_eq!(manifest.again(&scratch.0), None, "a folder counts too");
        fs::remove_dir(scratch.0.join("far.h")).unwrap();
        fs::write(scratch.0.join("far.h"), "").unwrap();
        assert_eq!(manifest.again(&scratch.0), None);
        fs::remove_dir_all(scratch.0.join("inc")).unwrap();
        assert_eq!(manifest.again(&scratch.0), None, "the folder is gone");
    }
    #[test]
    fn what_has_changed_is_said() {
        let scratch = Scratch::new();
        let seen = |name: &str| Seen::now(Path::new(name), &scratch.0).unwrap();
        let dated = Form::dated(&fs::metadata(scratch.0.join("k.cu")).unwrap());
        let variables = vec![Variable::now(b"ZIGRUNK_ANY", &[])];
        let listed = vec![Listed::now(Path::new("inc"), &scratch.0).unwrap()];
        let files = vec![Seen { form: dated, ..seen("k.cu") }];
        let manifest = Manifest { files, listed, variables, ..scratch.manifest() };
        let said = |given: &Variables| {
            let now = manifest.now(&scratch.0, given).map(|now| manifest.difference(&now));
            let difference = now.unwrap_or_else(Some)?;
            Some((difference.name.to_str().unwrap().to_owned(), difference.change))
        };
        let wanted = |name: &str, change: Change| Some((name.to_owned(), change));
        assert_eq!(said(&[]), None);
        let given = ("ZIGRUNK_ANY".to_owned(), Some("1".to_owned()));
        assert_eq!(said(&[given]), wanted("ZIGRUNK_ANY", Change::Variable));
        fs::remove_file(scratch.0.join("way")).unwrap();
        assert_eq!(said(&[]), wanted("way", Change::Gone));
        std::os::unix::fs::symlink(".", scratch.0.join("way")).unwrap();
        assert_eq!(said(&[]), wanted("way", Change::Place));
        fs::write(scratch.0.join("inc/b.h"), "").unwrap();
        assert_eq!(said(&[]), wanted("inc", Change::Names));
        let file = File::options().write(true).open(scratch.0.join("k.cu")).unwrap();
        file.set_modified(SystemTime::UNIX_EPOCH).unwrap();
        assert_eq!(said(&[]), wanted("k.cu", Change::Time));
        fs::write(scratch.0.join("k.cu"), "two").unwrap();
        assert_eq!(said(&[]), wanted("k.cu", Change::Content));
        fs::create_dir(scratch.0.join("inc/sub")).unwrap();
        assert_eq!(said(&[]), wanted("inc/sub", Change::New));
        fs::remove_file(scratch.0.join("k.cu")).unwrap();
        assert_eq!(said(&[]), wanted("k.cu", Change::Gone));
    }

    #[test]
    fn a_manifest_leads_to_the_checkout_that_asks() {
        let room = TestFolder::new();
        for top in ["one", "two"] {
            fs::create_dir_all(room.join(top).join("inc")).unwrap();
            fs::write(room.join(top).join("inc/a.h"), "a").unwrap();
            std::os::unix::fs::symlink("inc", room.join(top).join("way")).unwrap();
        }
        std::os::unix::fs::symlink("two", room.join("link")).unwrap();
        let of = |name: &str| {
            let top = room.join(name).display().to_string();
            let asked = AskedRoot { folder: top.clone(), name: "/src".into() };
            Checkout::of(&asked, &top).unwrap()
        };
        let (one, two) = (of("one"), of("link"));
        let cwd = |name: &str| room.join(name);
        let path = |name: &str| cwd("one").join(name);
        let own = Manifest {
            files: vec![Seen::now(&path("inc/a.h"), &cwd("one")).unwrap()],
            vain: vec![Vain::now(&path("inc"), vec![b"b.h".to_vec()], &cwd("one")).unwrap()],
            places: vec![(path("way"), path("inc"))],
            ..Manifest::default()
        };
        let kept = own.kept_in(Some(&one)).unwrap();
        let key = Digest::of(b"call");
        let holds = || {
            let now = kept.own_in(Some(&two))?.again(&cwd("link"))?;
            Some(now.kept_in(Some(&two))?.digest(&key) == kept.digest(&key))
        };
        assert_eq!(holds(), Some(true));
        fs::write(room.join("two/inc/a.h"), "b").unwrap();
        assert_eq!(holds(), Some(false), "a header that differs there");
        fs::write(room.join("two/inc/a.h"), "a").unwrap();
        fs::write(room.join("two/inc/b.h"), "").unwrap();
        assert_eq!(holds(), None, "a header that is only there");
        fs::remove_file(room.join("two/inc/b.h")).unwrap();
        fs::remove_file(room.join("two/way")).unwrap();
        std::os::unix::fs::symlink("../one/inc", room.join("two/way")).unwrap();
        assert_eq!(holds(), Some(false), "a link that leads out");
    }
}
