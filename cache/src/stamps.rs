//! What tells a file from what it was, without reading it.
//!
//! The time of a file's last change of any kind can't be set, so a file of the same size and times with other
//! contents is another: that holds on file systems that keep this time. On any other, as FAT's, where it is
//! the time that anybody may set, only contents count.
use crate::system;
use serde::{Deserialize, Serialize};
use std::collections::BTreeMap;
use std::fs::Metadata;
use std::os::unix::fs::MetadataExt;
use std::path::Path;
use std::sync::Mutex;
use std::time::{Duration, Instant, SystemTime};

/// A file that changed within this time may change again without another time.
const FRESH: Duration = Duration::from_secs(2);

/// By so much the time of a change may be earlier than the clock was.
pub const GRAIN: Duration = Duration::from_millis(20);

/// A file that changed later than this before a call began may have been another when it was read.
pub const MARGIN: Duration = Duration::from_millis(100);

/// A moment by the clock by which files have their times, and by one that nobody sets.
#[derive(Clone, Copy, Debug)]
pub struct Moment {
    pub time: SystemTime,
    /// Before the clock was read, and after: on a busy machine much may lie between.
    instants: [Instant; 2],
}

impl Moment {
    pub fn now() -> Moment {
        let before = Instant::now();
        Moment { time: SystemTime::now(), instants: [before, Instant::now()] }
    }

    /// Whether the clock has gone on since then, at about its pace: if it was set back, a change may seem
    /// older than it is.
    pub fn is_before(&self, now: &Moment) -> bool {
        let passed = now.instants[0].saturating_duration_since(self.instants[1]);
        now.time.duration_since(self.time).is_ok_and(|by_clock| by_clock + GRAIN + passed / 1000 >= passed)
    }
}

/// The kinds of file systems that are known to keep the time of a file's last change of any kind.
const KEEPING: [u64; 12] = [
    0xef53,      // ext2, ext3 and ext4
    0x5846_5342, // XFS
    0x9123_683e, // Btrfs
    0xf2f5_2010, // F2FS
    0x2fc1_2fc1, // ZFS
    0xca45_1a4e, // bcachefs
    0x0102_1994, // tmpfs
    0x8584_58f6, // ramfs
    0x794c_7630, // overlayfs
    0x6969,      // NFS
    0x0bd0_0bd0, // Lustre
    0x00c3_6400, // CephFS
];

/// Whether the file systems of devices keep that time.
static KNOWN: Mutex<BTreeMap<u64, bool>> = Mutex::new(BTreeMap::new());

/// Whether the file system keeps the time of a file's last change of any kind.
pub fn keeps_changes(path: &Path, status: &Metadata) -> bool {
    let keeps = || system::kind_of_file_system(path).is_some_and(|kind| KEEPING.contains(&kind));
    let Ok(mut known) = KNOWN.lock() else { return keeps() };
    *known.entry(status.dev()).or_insert_with(keeps)
}

/// What tells a file from what it was, or what had its name.
#[derive(Clone, Copy, PartialEq, Eq, Debug, Serialize, Deserialize)]
pub struct Stamp(pub [[u8; 8]; 7]);

impl Stamp {
    /// That of a file with this status.
    pub fn of(status: &Metadata) -> Stamp {
        let times =
            [status.mtime(), status.mtime_nsec(), status.ctime(), status.ctime_nsec()].map(i64::to_le_bytes);
        let [device, number, size] = [status.dev(), status.ino(), status.size()].map(u64::to_le_bytes);
        Stamp([device, number, size, times[0], times[1], times[2], times[3]])
    }

    /// That of a file which has been as it is for a while, where it tells.
    pub fn settled(path: &Path, status: &Metadata) -> Option<Stamp> {
        (is_older(status, SystemTime::now(), FRESH) && keeps_changes(path, status)).then(|| Stamp::of(status))
    }
}

/// Whether the last change of any kind is some time before a moment.
pub fn is_unchanged(status: &Metadata, moment: SystemTime, by: Duration) -> bool {
    let changed = u64::try_from(status.ctime()).ok().zip(u32::try_from(status.ctime_nsec()).ok());
    let changed = changed.map(|(seconds, part)| SystemTime::UNIX_EPOCH + Duration::new(seconds, part));
    changed.is_some_and(|changed| moment.duration_since(changed).is_ok_and(|age| age > by))
}

/// Whether a file was last changed, in any way, some time before a moment.
pub fn is_older(status: &Metadata, moment: SystemTime, by: Duration) -> bool {
    let changed = |seconds: i64, part: i64| {
        Some(SystemTime::UNIX_EPOCH + Duration::new(seconds.try_into().ok()?, part.try_into().ok()?))
    };
    let times = [changed(status.mtime(), status.mtime_nsec()), changed(status.ctime(), status.ctime_nsec())];
    times.iter().all(|time| time.is_some_and(|time| moment.duration_since(time).is_ok_and(|age| age > by)))
}

#[cfg(test)]
mod tests {
    use super::*;
    use crate::test_folder::TestFolder;
    use std::fs;

    #[test]
    fn a_clock_that_was_set_back_is_noticed() {
        let moment = Moment::now();
        let after = |clock: i64, passed: u64| {
            let ago = Duration::from_millis(clock.unsigned_abs());
            let time = if clock < 0 { moment.time - ago } else { moment.time + ago };
            moment.is_before(&Moment {
                time,
                instants: moment.instants.map(|instant| instant + Duration::from_millis(passed)),
            })
        };
        assert!(
            moment.is_before(&Moment::now())
                && after(10_000, 10_000)
                && after(99_990, 100_000)
                && after(99_000, 10)
        );
        assert!(!after(-10, 5) && !after(-10_000, 10_000) && !after(9000, 10_000));
    }

    #[test]
    fn where_changes_are_not_kept_no_stamp_tells() {
        let room = TestFolder::new();
        let status = fs::metadata(&room).unwrap();
        assert_eq!(
            keeps_changes(&room, &status),
            KEEPING.contains(&system::kind_of_file_system(&room).unwrap())
        );
        let proc = Path::new("/proc/version");
        assert!(!keeps_changes(proc, &fs::metadata(proc).unwrap()));
        assert_eq!(Stamp::settled(proc, &fs::metadata(proc).unwrap()), None);
        let gone = room.join("gone");
        assert!(keeps_changes(&gone, &status), "a device is looked at once");
        let shell = Path::new("/bin/sh");
        let status = fs::metadata(shell).unwrap();
        assert_eq!(Stamp::settled(shell, &status).is_some(), keeps_changes(shell, &status));
    }
}
