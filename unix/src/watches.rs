//! What the kernel says of a folder while somebody works in it.
use rustix::fs::inotify::{CreateFlags, ReadFlags, Reader, WatchFlags, add_watch, init};
use rustix::io::Errno;
use std::collections::BTreeSet;
use std::ffi::OsString;
use std::io;
use std::mem::MaybeUninit;
use std::os::fd::OwnedFd;
use std::os::unix::ffi::OsStringExt;
use std::path::{Path, PathBuf};

/// The largest message has a name of 255 bytes, so a dozen fit. One that doesn't fit would be an error of
/// reading.
const ROOM: usize = 4096;

/// The names that come into a folder, as the kernel tells them.
#[derive(Debug)]
pub struct Watch {
    file: OwnedFd,
    folder: PathBuf,
    come: BTreeSet<OsString>,
    /// Whether it isn't known any more what has come.
    is_lost: bool,
}

impl Watch {
    /// Watches a folder from now on.
    /// An error if the kernel has no room for another watch, or the folder isn't there.
    pub fn new(folder: &Path) -> io::Result<Watch> {
        let file = init(CreateFlags::CLOEXEC | CreateFlags::NONBLOCK)?;
        let of_folder = WatchFlags::DELETE_SELF | WatchFlags::MOVE_SELF | WatchFlags::ONLYDIR;
        add_watch(&file, folder, WatchFlags::CREATE | WatchFlags::MOVED_TO | of_folder)?;
        Ok(Watch { file, folder: folder.to_owned(), come: BTreeSet::new(), is_lost: false })
    }

    /// The folder.
    pub fn folder(&self) -> &Path {
        &self.folder
    }

    /// The names that have come into it, whether they are still there or not. `None` if the kernel couldn't
    /// note all or tell them, or if the folder itself has gone or has another name.
    pub fn come(&mut self) -> Option<&BTreeSet<OsString>> {
        self.is_lost = self.is_lost || self.take_names().is_err();
        (!self.is_lost).then_some(&self.come)
    }

    fn take_names(&mut self) -> Result<(), Errno> {
        let mut room = [MaybeUninit::uninit(); ROOM];
        let mut reader = Reader::new(&self.file, &mut room);
        loop {
            let event = match reader.next() {
                Ok(event) => event,
                Err(Errno::AGAIN) => return Ok(()),
                Err(error) => return Err(error),
            };
            if !event.events().intersects(ReadFlags::CREATE | ReadFlags::MOVED_TO) {
                return Err(Errno::NOENT);
            }
            self.come.extend(event.file_name().map(|name| OsString::from_vec(name.to_bytes().to_vec())));
        }
    }
}
