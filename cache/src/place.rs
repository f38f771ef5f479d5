//! Where the cache is, and how large it may be.
use crate::store::Store;
use machine::settings::{AskedCache, Settings, own_variable};
use machine::streams::{called, complain};
use std::ffi::OsString;
use std::path::{Path, PathBuf};

/// The limit unless `ZIGRUNK_CACHE_SIZE` says another: 5 GiB.
const USUAL_LIMIT: u64 = 5 << 30;

/// A number of bytes, as people read it.
pub fn shown(bytes: u64) -> String {
    let units = ["bytes", "KiB", "MiB", "GiB", "TiB"];
    let mut unit = 0;
    let mut whole = bytes;
    while whole >= 10_000 && unit + 1 < units.len() {
        whole /= 1024;
        unit += 1;
    }
    format!("{whole} {}", units[unit])
}

/// The user's folder for caches: `XDG_CACHE_HOME`, or `.cache` in the home directory.
fn users(xdg: Option<OsString>, home: Option<OsString>) -> Option<PathBuf> {
    let absolute = |path: OsString| Some(PathBuf::from(path)).filter(|path| path.is_absolute());
    let folder = xdg.and_then(absolute).or_else(|| home.and_then(absolute).map(|home| home.join(".cache")));
    folder.map(|folder| folder.join("zigrunk"))
}

/// The folder of the cache that is asked for, seen from a directory.
fn folder(cache: &AskedCache, cwd: &Path) -> Option<PathBuf> {
    match cache {
        AskedCache::None => None,
        AskedCache::Users => users(own_variable("XDG_CACHE_HOME"), own_variable("HOME")),
        AskedCache::Folder(path) => Some(cwd.join(path)),
    }
}

/// What is known of programs may take so many bytes.
const LIMIT_OF_PROGRAMS: u64 = 64 << 20;

/// Where a user's calls keep the digests of programs, whatever cache they use. They say nothing to other
/// machines.
pub fn programs() -> Option<Store> {
    let folder = users(own_variable("XDG_CACHE_HOME"), own_variable("HOME"))?;
    Some(Store::new(folder.join("programs"), LIMIT_OF_PROGRAMS))
}

/// How many bytes the cache may have.
pub fn limit(settings: &Settings) -> u64 {
    settings.cache_size.unwrap_or(USUAL_LIMIT)
}

/// The store that is asked for, seen from a directory.
pub fn asked(settings: &Settings, cwd: &Path) -> Option<Store> {
    folder(&settings.cache, cwd).map(|folder| Store::new(folder, limit(settings)))
}

/// The same, or else the user's.
pub fn asked_or_users(settings: &Settings, cwd: &Path) -> Option<Store> {
    asked(settings, cwd)
        .or_else(|| folder(&AskedCache::Users, cwd).map(|folder| Store::new(folder, limit(settings))))
}

/// The store that a call uses, if it uses one. A launcher or a runner takes commands elsewhere.
pub fn store_of(settings: &Settings, cwd: &str) -> Option<Store> {
    let store = asked(settings, Path::new(cwd))?;
    let is_own = settings.launcher.is_empty() && settings.runner.is_empty() && !settings.has_remote;
    if !is_own && settings.explains {
        complain(&format!(
            "{}: ZIGRUNK_CACHE doesn't count beside ZIGRUNK_LAUNCHER, ZIGRUNK_RUNNER or ZIGRUNK_REMOTE",
            called()
        ));
    }
    is_own.then_some(store)
}

#[cfg(test)]
mod tests {
    use super::*;

    #[test]
    fn sizes_have_units() {
        for (bytes, wanted) in [
            (0, "0 bytes"),
            (9999, "9999 bytes"),
            (10_240, "10 KiB"),
            (5 << 30, "5120 MiB"),
            (u64::MAX, "16777215 TiB"),
        ] {
            assert_eq!(shown(bytes), wanted);
        }
    }

    #[test]
    fn a_folder_is_seen_from_the_working_directory() {
        let cwd = Path::new("/w");
        assert_eq!(folder(&AskedCache::Folder("/c".into()), cwd), Some("/c".into()));
        assert_eq!(folder(&AskedCache::Folder("./c".into()), cwd), Some("/w/c".into()));
        assert_eq!(folder(&AskedCache::None, cwd), None);
    }

    #[test]
    fn the_users_folder_is_that_for_caches() {
        let cases = [
            (Some("/x"), Some("/h"), Some("/x/zigrunk")),
            (None, Some("/h"), Some("/h/.cache/zigrunk")),
            (Some("relative"), Some("/h"), Some("/h/.cache/zigrunk")),
            (Some(""), None, None),
            (None, Some("h"), None),
        ];
        for (xdg, home, wanted) in cases {
            assert_eq!(
                users(xdg.map(Into::into), home.map(Into::into)),
                wanted.map(PathBuf::from),
                "{xdg:?} {home:?}"
            );
        }
    }
}
