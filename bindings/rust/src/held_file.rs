//! A file's bytes as they are when it is opened.

use crate::ffi::Mapping;
use std::fs::File;
use std::io::{self, Read, Seek};
use std::ops::Deref;

/// The bytes of a file, which stay as they are. They are not copied where Linux gives a read lease on the file: to its owner, while no
/// one has it open for writing. A program that would then open it for writing, or cut it, is made to wait or refused until this is
/// dropped, but for no longer than `/proc/sys/fs/lease-break-time`, 45 seconds unless it is changed: hold a file for moments, and let a
/// trail that lives longer have rows of its own ([`Trail::detach`](crate::Trail::detach)). To put another file in its place, as `rename`
/// does, is always possible. Where there is no lease they are a copy.
#[derive(Debug)]
pub struct HeldFile(Bytes);

#[derive(Debug)]
enum Bytes {
    Held(Mapping),
    Copied(Vec<u8>),
}

impl HeldFile {
    /// All of a file that is open for reading alone.
    pub fn new(mut file: File) -> io::Result<HeldFile> {
        if let Some(mapping) = Mapping::new(file.try_clone()?) {
            return Ok(HeldFile(Bytes::Held(mapping)));
        }
        let mut bytes = Vec::new();
        file.rewind()?;
        file.read_to_end(&mut bytes)?;
        Ok(HeldFile(Bytes::Copied(bytes)))
    }
}

/// Bytes that stand in no file.
impl From<Vec<u8>> for HeldFile {
    fn from(bytes: Vec<u8>) -> HeldFile {
        HeldFile(Bytes::Copied(bytes))
    }
}

impl Deref for HeldFile {
    type Target = [u8];

    fn deref(&self) -> &[u8] {
        match &self.0 {
            Bytes::Held(mapping) => mapping.bytes(),
            Bytes::Copied(bytes) => bytes,
        }
    }
}
