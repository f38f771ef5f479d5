//! The user's folder for temporary files, and the directory of a call in it.
//!
//! The user's folder is made once, checked once opened, and never removed: nobody else can come between the
//! check and the use.
use crate::clock::nanoseconds;
use crate::settings::own_variable;
use crate::streams::{called, complain, write_all};
use crate::system::words::{PERMISSIONS, PRIVATE};
use crate::system::{self, Access};
use std::fs::{self, File, Metadata};
use std::io;
use std::os::fd::{AsFd, BorrowedFd, OwnedFd};
use std::os::unix::fs::MetadataExt;
use std::path::{Path, PathBuf};
use std::time::{Duration, SystemTime};

/// The folder in a call's directory for files that aren't the plan's.
pub const OWN: &str = "zigrunk.tmp";
/// What a user can do whose calls have directories of random names.
pub const NAME_HINT: &str = "make zigrunk-UID below TMPDIR yours alone, with mode 700: the same call then always has the same directory";

/// How many equal calls may have directories with their names at once. A further one gets a random name,
/// since it would have to try each lock before.
const MOST_EQUAL_CALLS: usize = 64;
/// How long what a killed call left stays, if no equal call takes it.
const LEFT_ALONE: Duration = Duration::new(600, 0);
/// The same if it's an empty directory, because the call was killed before it had a guard.
const EMPTY_LEFT_ALONE: Duration = Duration::new(10, 0);

/// Removes a folder with all that it holds, unless each try to open it is interrupted: std would try for
/// ever.
fn remove_all(folder: &Path) -> io::Result<()> {
    match system::open(folder, Access::FOLDER) {
        Err(error) if error.kind() == io::ErrorKind::Interrupted => Err(error),
        _ => fs::remove_dir_all(folder),
    }
}

/// Whether an open file is the one of a path.
fn is_at(path: &Path, file: &File) -> bool {
    let place = |status: Metadata| (status.dev(), status.ino());
    let (named, opened) = (fs::symlink_metadata(path).map(place), file.metadata().map(place));
    matches!((named, opened), (Ok(named), Ok(opened)) if named == opened)
}

/// Whether a folder is the user's, and nobody else may use it.
fn is_private(status: &Metadata) -> bool {
    status.uid() == system::user() && status.mode() & PERMISSIONS == PRIVATE
}

/// What has the name of a private folder, if it is no such folder.
fn taken_by(path: &Path) -> Option<String> {
    let status = fs::symlink_metadata(path).ok()?;
    if status.uid() != system::user() {
        Some(format!("it belongs to user {}", status.uid()))
    } else if !status.is_dir() {
        Some("it is no folder".into())
    } else {
        (!is_private(&status))
            .then(|| format!("its mode is {:o}, not {PRIVATE:o}", status.mode() & PERMISSIONS))
    }
}

/// The name of the user's folder.
fn user_folder() -> String {
    format!("zigrunk-{}", system::user())
}

/// How long a user isn't told the same thing again, since each of a build's thousand calls would say it.
const A_DAY: Duration = Duration::from_secs(24 * 60 * 60);

/// Whether something of this name is due to be said: it wasn't within a day. A file in the user's folder, in
/// the first of these places that can have it, says when it was. Of calls that run at once one says it.
fn is_due(name: &str, places: &[PathBuf]) -> bool {
    let open = |place: &PathBuf| {
        let folder = Folder::private(place, &user_folder()).ok()?;
        system::open_below(folder.as_fd(), &format!("said-{name}"), Access::KEPT).ok()
    };
    let Some(stamp) = places.iter().find_map(open) else { return true };
    if !system::try_lock(stamp.as_fd()).unwrap_or(true) {
        return false;
    }
    let age = |status: Metadata| status.modified().ok()?.elapsed().ok();
    let is_fresh = |status: Metadata| status.len() > 0 && age(status).is_none_or(|age| age < A_DAY);
    let is_due = !stamp.metadata().is_ok_and(is_fresh);
    if is_due {
        let _ = stamp.set_len(0).and_then(|()| write_all(&stamp, b"+"));
    }
    is_due
}

/// The folders in which a user may have folders, besides that for temporary files.
fn places() -> Vec<PathBuf> {
    let run = own_variable("XDG_RUNTIME_DIR").filter(|it| !it.is_empty()).map(PathBuf::from);
    run.into_iter().chain(["/tmp".into(), "/dev/shm".into()]).collect()
}

/// Says once a day what it costs that the name of a private folder is taken, if it is.
pub fn tell_taken(path: &Path, name: &str, costs: &str, stamps: &[PathBuf]) {
    if let Some(reason) = taken_by(path).filter(|_| is_due(name, stamps)) {
        complain(&format!("{}: cannot use {}, so {costs}: {reason}", called(), path.display()));
    }
}

/// An open folder.
#[derive(Debug)]
pub struct Folder {
    file: File,
    /// Its path.
    pub path: PathBuf,
}

impl Folder {
    /// Opens a folder of this name, and makes it if it isn't there. It has to be the user's alone.
    /// An error if it can't be made, or is another's, or others may use it.
    pub fn private(above: &Path, name: &str) -> io::Result<Folder> {
        let parent = system::open(above, Access::READ)?;
        match system::make_folder(parent.as_fd(), name) {
            Err(error) if error.kind() != io::ErrorKind::AlreadyExists => return Err(error),
            _ => {}
        }
        let folder = Folder {
            file: system::open_below(parent.as_fd(), name, Access::FOLDER)?,
            path: above.join(name),
        };
        if is_private(&folder.file.metadata()?) {
            Ok(folder)
        } else {
            Err(io::ErrorKind::PermissionDenied.into())
        }
    }

    /// The folder as an open file.
    pub fn as_fd(&self) -> BorrowedFd<'_> {
        self.file.as_fd()
    }

    /// Whether the folder is still where it was opened.
    pub fn is_there(&self) -> bool {
        is_at(&self.path, &self.file)
    }

    /// When a file was last made or removed in it, if the disk says so.
    pub fn changed(&self) -> Option<SystemTime> {
        self.file.metadata().and_then(|folder| folder.modified()).ok()
    }

    /// Whether an open file is still the one of this name. It opens no file, of which there may be too many.
    pub fn names(&self, name: &str, file: &File) -> bool {
        is_at(&self.path.join(name), file)
    }

    /// Makes a folder in this one. What was there under its name goes.
    fn make_anew(&self, name: &str) -> io::Result<Folder> {
        self.clear(name);
        system::make_folder(self.as_fd(), name)?;
        opened(self.as_fd(), &self.path, name)
    }

    /// Removes a folder in this one, with all that it holds.
    fn clear(&self, name: &str) {
        if self.is_there() {
            let _ = remove_all(&self.path.join(name));
        }
    }

    /// Removes a call's folder in this one, and its lock.
    fn remove_call(&self, name: &str) {
        self.clear(name);
        self.remove_lock(name);
    }

    /// Removes the lock of a call whose folder is gone. If something stays, so does the lock, by which a
    /// later call finds it.
    fn remove_lock(&self, name: &str) {
        if fs::symlink_metadata(self.path.join(name)).is_err() {
            let _ = system::remove_below(self.as_fd(), &lock_name(name));
        }
    }
}

/// The directory of a call. Its lock is a file beside it, and lasts as long as the call or its guard lives.
#[derive(Debug)]
pub struct CallFolder {
    folder: Folder,
    place: Option<Place>,
}

/// Where a call's directory is: in the user's folder, under a name that is locked.
#[derive(Debug)]
struct Place {
    user: Folder,
    name: String,
    /// Held as long as this is.
    _lock: OwnedFd,
}

impl CallFolder {
    /// The directory of this name, or with a number behind it if a living call has that, in the user's folder
    /// below `above`. If that folder isn't the user's alone, or the disk has no locks, it is one of a random
    /// name.
    /// An error if no directory can be made.
    pub fn take(above: &Path, name: &str) -> io::Result<CallFolder> {
        if let Ok(user) = Folder::private(above, &user_folder()) {
            for number in 1..=MOST_EQUAL_CALLS {
                let name = if number == 1 { name.to_owned() } else { format!("{name}-{number}") };
                match lock(&user, &name) {
                    Ok(Some(lock)) => {
                        let made = user.make_anew(&name).inspect_err(|_| user.remove_call(&name));
                        return Ok(CallFolder {
                            folder: made?,
                            place: Some(Place { user, name, _lock: lock }),
                        });
                    }
                    Ok(None) => {}
                    Err(_) => break,
                }
            }
        }
        random(above)
    }

    /// Says once a day why its name is random, if the user's folder below `above` is taken.
    pub fn tell_if_taken(&self, above: &Path) {
        if !self.is_named() {
            tell_taken(
                &above.join(user_folder()),
                "folder",
                "temporary directories have random names",
                &places(),
            );
        }
    }

    /// The directory's path.
    pub fn path(&self) -> &Path {
        &self.folder.path
    }

    /// Whether its name is the one that the same call always has, so far as no equal call lives.
    pub fn is_named(&self) -> bool {
        self.place.is_some()
    }

    /// Whether it is still there, with the user's folder.
    pub fn is_there(&self) -> bool {
        self.folder.is_there()
    }

    /// Removes it, and what calls that were killed left long ago.
    pub fn remove(&self) {
        match &self.place {
            None => drop(remove_all(self.path())),
            Some(place) => {
                place.user.remove_call(&place.name);
                remove_left(&place.user);
            }
        }
    }
}

fn lock_name(name: &str) -> String {
    format!("{name}.lock")
}

/// The lock of a name, unless a living call has it.
fn lock(user: &Folder, name: &str) -> io::Result<Option<OwnedFd>> {
    let name = lock_name(name);
    for _ in 0..3 {
        let file = system::open_below(user.as_fd(), &name, Access::KEPT)?;
        if !system::try_lock(file.as_fd())? {
            return Ok(None);
        }
        // Its last holder may have removed it just now.
        if user.names(&name, &file) {
            return Ok(Some(file.into()));
        }
    }
    Ok(None)
}

/// Opens a folder that was just made below another. It goes if that fails, as it does if no more files may be
/// open.
fn opened(parent: BorrowedFd<'_>, above: &Path, name: &str) -> io::Result<Folder> {
    let path = above.join(name);
    let file =
        system::open_below(parent, name, Access::FOLDER).inspect_err(|_| drop(fs::remove_dir(&path)))?;
    Ok(Folder { file, path })
}

/// Opens a folder that was just made below another, unless another user has put something in its place
/// meanwhile: then it's as if the name had been there before.
fn opened_own(parent: BorrowedFd<'_>, above: &Path, name: &str) -> io::Result<Folder> {
    let folder = opened(parent, above, name)?;
    if is_private(&folder.file.metadata()?) { Ok(folder) } else { Err(io::ErrorKind::AlreadyExists.into()) }
}

/// A directory of a name that nobody else has.
fn random(above: &Path) -> io::Result<CallFolder> {
    let parent = system::open(above, Access::READ)?;
    let mut seed = nanoseconds() ^ u64::from(std::process::id()) << 40;
    for _ in 0..100 {
        seed = seed.wrapping_mul(6_364_136_223_846_793_005).wrapping_add(1_442_695_040_888_963_407);
        let name = format!("zigrunk.{:06x}", seed >> 40);
        match system::make_folder(parent.as_fd(), &name)
            .and_then(|()| opened_own(parent.as_fd(), above, &name))
        {
            Ok(folder) => return Ok(CallFolder { folder, place: None }),
            Err(error) if error.kind() == io::ErrorKind::AlreadyExists => {}
            Err(error) => return Err(error),
        }
    }
    Err(io::ErrorKind::AlreadyExists.into())
}

/// Removes what calls that were killed have left: their directories after some time, and empty ones soon.
fn remove_left(user: &Folder) {
    let Ok(entries) = fs::read_dir(&user.path) else { return };
    let age_of = |status: Metadata| status.modified().ok()?.elapsed().ok();
    for entry in entries.flatten() {
        let file = entry.file_name();
        let Some(name) = file.to_str().and_then(|name| name.strip_suffix(".lock")) else { continue };
        let age = entry.metadata().ok().and_then(age_of).unwrap_or_default();
        if age <= EMPTY_LEFT_ALONE {
            continue;
        }
        if let Ok(Some(_lock)) = lock(user, name) {
            if age > LEFT_ALONE {
                user.clear(name);
            } else if user.is_there() {
                let _ = fs::remove_dir(user.path.join(name));
            }
            user.remove_lock(name);
        }
    }
}

#[cfg(test)]
mod tests {
    use super::*;
    use crate::test_folder::TestFolder;
    use std::os::unix::fs::{PermissionsExt, symlink};

    fn user_name() -> String {
        format!("zigrunk-{}", system::user())
    }

    #[test]
    fn an_equal_call_gets_another_name_and_a_dead_one_leaves_its_own() {
        let scratch = TestFolder::new();
        let first = CallFolder::take(&scratch, "k").unwrap();
        let second = CallFolder::take(&scratch, "k").unwrap();
        assert_eq!(
            (first.path().file_name(), second.path().file_name()),
            (Some("k".as_ref()), Some("k-2".as_ref()))
        );
        fs::write(first.path().join("left"), "").unwrap();
        drop(first);
        let third = CallFolder::take(&scratch, "k").unwrap();
        assert_eq!(
            (third.path().file_name(), fs::read_dir(third.path()).unwrap().count()),
            (Some("k".as_ref()), 0)
        );
        second.remove();
        third.remove();
        assert_eq!(fs::read_dir(scratch.join(user_name())).unwrap().count(), 0);
    }

    #[test]
    fn a_folder_that_is_not_the_users_alone_is_not_used() {
        type Spoils = fn(&Path);
        let cases: [(&str, Spoils); 4] = [
            ("755", |path| fs::set_permissions(path, PermissionsExt::from_mode(0o755)).unwrap()),
            ("1700", |path| fs::set_permissions(path, PermissionsExt::from_mode(0o1700)).unwrap()),
            ("a link", |path| {
                fs::rename(path, path.with_extension("x")).unwrap();
                symlink(path.with_extension("x"), path).unwrap();
            }),
            ("a file", |path| {
                fs::remove_dir(path).unwrap();
                fs::write(path, "").unwrap();
            }),
        ];
        for (name, spoil) in cases {
            let scratch = TestFolder::new();
            CallFolder::take(&scratch, "k").unwrap().remove();
            spoil(&scratch.join(user_name()));
            let taken = CallFolder::take(&scratch, "k").unwrap();
            assert!(!taken.is_named() && taken.path().starts_with(&scratch), "{name}");
            assert_eq!(fs::metadata(taken.path()).unwrap().mode() & 0o7777, 0o700);
            taken.remove();
        }
    }

    #[test]
    fn what_killed_calls_left_goes() {
        let scratch = TestFolder::new();
        let of = |name: &str| CallFolder::take(&scratch, name).unwrap();
        let (own, alive) = (of("own"), of("alive"));
        let user = scratch.join(user_name());
        let entry = |name: &str, seconds: u64, holds: &[&str]| {
            let file = File::create(user.join(format!("{name}.lock"))).unwrap();
            file.set_modified(std::time::SystemTime::now() - Duration::from_secs(seconds)).unwrap();
            for part in holds {
                fs::create_dir_all(user.join(name).join(part)).unwrap();
            }
        };
        entry("alive", 700, &[]);
        entry("old", 700, &["x/y"]);
        entry("young", 500, &["x/y"]);
        entry("empty", 20, &[""]);
        entry("missing", 20, &[]);
        entry("new", 0, &[""]);
        entry("future", 0, &[""]);
        File::open(user.join("future.lock"))
            .unwrap()
            .set_modified(std::time::SystemTime::now() + Duration::from_secs(700))
            .unwrap();
        fs::create_dir(user.join("other")).unwrap();
        own.remove();
        let mut left: Vec<_> = fs::read_dir(&user)
            .unwrap()
            .map(|entry| entry.unwrap().file_name().into_string().unwrap())
            .collect();
        left.sort_unstable();
        assert_eq!(left.join(" "), "alive alive.lock future future.lock new new.lock other young young.lock");
        drop(alive);
    }

    #[test]
    fn so_many_equal_calls_have_names() {
        let scratch = TestFolder::new();
        let taken: Vec<CallFolder> =
            (0..=MOST_EQUAL_CALLS).map(|_| CallFolder::take(&scratch, "k").unwrap()).collect();
        assert_eq!(taken.iter().map(|folder| usize::from(folder.is_named())).sum::<usize>(), 64);
        let [last, random] =
            [&taken[63], &taken[64]].map(|folder| folder.path().file_name().unwrap().to_str().unwrap());
        assert!(
            last == "k-64" && random.starts_with("zigrunk.") && random.len() == "zigrunk.".len() + 6,
            "{random}"
        );
        taken[64].remove();
        assert!(!taken[64].is_there());
    }

    #[test]
    fn nothing_is_removed_from_another_users_folder() {
        let scratch = TestFolder::new();
        let taken = CallFolder::take(&scratch, "k").unwrap();
        let user = scratch.join(user_name());
        fs::rename(&user, user.with_extension("moved")).unwrap();
        fs::create_dir_all(user.join("k")).unwrap();
        fs::create_dir_all(user.join("left")).unwrap();
        File::create(user.join("left.lock"))
            .unwrap()
            .set_modified(std::time::SystemTime::now() - Duration::from_secs(20))
            .unwrap();
        taken.remove();
        assert!(user.join("k").is_dir() && user.join("left").is_dir());
    }

    #[test]
    fn what_has_the_name_of_a_private_folder_is_said() {
        let scratch = TestFolder::new();
        let path = scratch.join("it");
        assert_eq!(taken_by(&path), None, "nothing has it");
        fs::create_dir(&path).unwrap();
        for (mode, wanted) in [
            (0o700, None),
            (0o755, Some("its mode is 755, not 700")),
            (0o1700, Some("its mode is 1700, not 700")),
        ] {
            fs::set_permissions(&path, PermissionsExt::from_mode(mode)).unwrap();
            assert_eq!(taken_by(&path).as_deref(), wanted);
        }
        fs::remove_dir(&path).unwrap();
        symlink(&*scratch, &path).unwrap();
        assert_eq!(taken_by(&path).as_deref(), Some("it is no folder"));
        if system::user() == 0 {
            std::os::unix::fs::lchown(&path, Some(1234), None).unwrap();
            assert_eq!(taken_by(&path).as_deref(), Some("it belongs to user 1234"));
        }
    }

    #[test]
    fn something_is_said_once_a_day() {
        let [first, second] = [TestFolder::new(), TestFolder::new()];
        let places = [PathBuf::from("/missing"), first.to_owned(), second.to_owned()];
        assert_eq!([is_due("a", &places), is_due("a", &places), is_due("b", &places)], [true, false, true]);
        let stamp = File::options().write(true).open(first.join(user_name()).join("said-a")).unwrap();
        for (hours, wanted) in [(23, false), (25, true)] {
            stamp.set_modified(SystemTime::now() - Duration::from_secs(hours * 3600)).unwrap();
            assert_eq!(is_due("a", &places), wanted, "after {hours} hours");
        }
        assert!(!is_due("a", &places), "it was said just now");
        stamp.set_modified(SystemTime::now() - A_DAY).unwrap();
        assert!(system::try_lock(stamp.as_fd()).unwrap());
        assert!(!is_due("a", &places), "another call is saying it");
        assert!(is_due("a", &places[..1]) && is_due("a", &places[..1]), "nothing can say when it was said");
    }

    #[test]
    fn a_folder_that_another_user_put_there_is_not_opened() {
        let scratch = TestFolder::new();
        let parent = File::open(&*scratch).unwrap();
        let open = |name: &str| opened_own(parent.as_fd(), &scratch, name).map_err(|error| error.kind());
        system::make_folder(parent.as_fd(), "own").unwrap();
        assert!(open("own").is_ok());
        fs::set_permissions(scratch.join("own"), PermissionsExt::from_mode(0o777)).unwrap();
        assert_eq!(open("own").err(), Some(io::ErrorKind::AlreadyExists));
        if system::user() == 0 {
            system::make_folder(parent.as_fd(), "other").unwrap();
            std::os::unix::fs::chown(scratch.join("other"), Some(1234), None).unwrap();
            assert_eq!(open("other").err(), Some(io::ErrorKind::AlreadyExists));
        }
    }

    #[test]
    fn a_folder_that_vanishes_is_noticed() {
        let scratch = TestFolder::new();
        let taken = CallFolder::take(&scratch, "k").unwrap();
        assert!(taken.is_there());
        fs::remove_dir_all(scratch.join(user_name())).unwrap();
        assert!(!taken.is_there());
        fs::create_dir_all(taken.path()).unwrap();
        assert!(!taken.is_there(), "another of its name");
    }
}
