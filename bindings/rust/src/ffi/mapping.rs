//! A file in memory where the system keeps it anyway, held as it is by a read lease: fcntl(2), `F_SETLEASE`.

use std::ffi::{c_int, c_void};
use std::fs::File;
use std::os::fd::AsRawFd;
use std::ptr;
use std::slice;

/// A whole file in memory. While this lives, whoever would open the file for writing, or cut it, waits or is refused, for as long as
/// the system lets a lease stand in the way.
#[derive(Debug)]
pub struct Mapping {
    start: *const u8,
    length: usize,
    /// Has the lease while it is open.
    _file: File,
}

extern "C" {
    fn fcntl(file: c_int, command: c_int, ...) -> c_int;
    fn mmap(
        start: *mut c_void,
        length: usize,
        rights: c_int,
        flags: c_int,
        file: c_int,
        at: i64,
    ) -> *mut c_void;
    fn madvise(start: *mut c_void, length: usize, advice: c_int) -> c_int;
    fn munmap(start: *mut c_void, length: usize) -> c_int;
}

const F_SETSIG: c_int = 10;
const F_SETLEASE: c_int = 1024;
const F_RDLCK: c_int = 0;
/// Ignored unless a program asks for it; by default a process is ended when another one waits for its lease.
const SIGURG: c_int = 23;
const PROT_READ: c_int = 1;
const MAP_PRIVATE: c_int = 2;
const MADV_POPULATE_READ: c_int = 22;

impl Mapping {
    /// Not if the system gives no lease on the file (it is another user's, or open for writing), or cannot read all of it, or if it
    /// has no byte.
    pub fn new(file: File) -> Option<Mapping> {
        if !cfg!(all(target_os = "linux", target_arch = "x86_64")) {
            return None;
        }
        let number = file.as_raw_fd();
        // SAFETY: the calls name no memory.
        let leased = unsafe {
            fcntl(number, F_SETSIG, SIGURG) == 0 && fcntl(number, F_SETLEASE, F_RDLCK) == 0
        };
        let length = usize::try_from(file.metadata().ok()?.len()).ok()?;
        if !leased || length == 0 {
            return None;
        }
        // SAFETY: a new mapping takes no memory that is in use.
        let start = unsafe { mmap(ptr::null_mut(), length, PROT_READ, MAP_PRIVATE, number, 0) };
        // What it returns where there is none.
        if start as isize == -1 {
            return None;
        }
        let mapping = Mapping {
            start: start.cast(),
            length,
            _file: file,
        };
        // SAFETY: the memory is the mapping's. What cannot be read is told here; later it would be told by a signal.
        let is_read = unsafe { madvise(start, length, MADV_POPULATE_READ) } == 0;
        is_read.then_some(mapping)
    }

    pub fn bytes(&self) -> &[u8] {
        // SAFETY: the mapping lives as long as this, was read whole, and no one writes to the file while the lease stands.
        unsafe { slice::from_raw_parts(self.start, self.length) }
    }
}

// SAFETY: its memory is only read, and is no thread's own.
unsafe impl Send for Mapping {}
// SAFETY: likewise.
unsafe impl Sync for Mapping {}

impl Drop for Mapping {
    fn drop(&mut self) {
        // SAFETY: no one has the bytes any more.
        unsafe { munmap(self.start.cast_mut().cast(), self.length) };
    }
}

#[cfg(test)]
mod tests {
    use super::*;
    use std::{env, fs, process};

    #[test]
    fn a_file_in_the_temporary_folder_is_held() {
        let path = env::temp_dir().join(format!("trail-{}-mapping", process::id()));
        fs::write(&path, b"bytes").unwrap();
        let open = || File::open(&path).unwrap();
        assert_eq!(Mapping::new(open()).unwrap().bytes(), b"bytes");
        let writer = File::options().write(true).open(&path).unwrap();
        assert!(Mapping::new(open()).is_none());
        drop(writer);
        fs::write(&path, b"").unwrap();
        assert!(Mapping::new(open()).is_none());
        fs::remove_file(&path).unwrap();
    }
}
