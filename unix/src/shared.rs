//! Memory that processes share.
use std::io;
use std::ptr;
use std::sync::atomic::{AtomicI32, AtomicU8};

/// A page of memory that this process shares with those that it forks, all zeros at first. Its parts are
/// atomic, since another process may look while this one writes, or after it was killed.
#[derive(Debug)]
#[repr(C)]
pub struct SharedPage {
    /// Half of it: numbers.
    pub numbers: [AtomicI32; 512],
    /// The other half: bytes.
    pub bytes: [AtomicU8; 2048],
}

impl SharedPage {
    /// A new page. It stays as long as this process.
    /// An error if there is no memory.
    pub fn new() -> io::Result<&'static SharedPage> {
        let (size, access) = (size_of::<SharedPage>(), libc::PROT_READ | libc::PROT_WRITE);
        // SAFETY: the kernel chooses a place where nothing is yet.
        let page = unsafe {
            libc::mmap(ptr::null_mut(), size, access, libc::MAP_SHARED | libc::MAP_ANONYMOUS, -1, 0)
        };
        if page == libc::MAP_FAILED {
            return Err(io::Error::last_os_error());
        }
        // SAFETY: the page is as long, begins at a page's border, is never unmapped, and its zeros are atomic
        // numbers.
        Ok(unsafe { &*page.cast() })
    }
}

#[cfg(test)]
mod tests {
    use super::*;
    use crate::forked::in_own_process;
    use std::sync::atomic::Ordering;

    #[test]
    fn a_shared_page_is_empty_and_seen_by_forked_processes() {
        let page = SharedPage::new().unwrap();
        assert!(page.numbers.iter().all(|number| number.load(Ordering::SeqCst) == 0));
        assert!(page.bytes.iter().all(|byte| byte.load(Ordering::SeqCst) == 0));
        in_own_process(|| {
            page.numbers[511].store(-7, Ordering::SeqCst);
            page.bytes[2047].store(9, Ordering::SeqCst);
        });
        assert_eq!(
            (page.numbers[511].load(Ordering::SeqCst), page.bytes[2047].load(Ordering::SeqCst)),
            (-7, 9)
        );
    }
}
