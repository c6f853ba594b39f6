//! The newest edge from each version to each entity it has given to.

use std::collections::HashMap;
use std::hash::{BuildHasherDefault, Hasher};

/// The ways of the edges, from the version an edge leaves to the entity it
/// enters, with the newest edge of each.
#[derive(Clone, Debug, Default)]
pub struct Ways {
    edges: HashMap<u32, u32, BuildHasherDefault<KeyHasher>>,
}

impl Ways {
    pub fn reserve(&mut self, more: usize) {
        self.edges.reserve(more);
    }

    /// The newest edge of the way, which is this one if there is none.
    pub fn newest_or(&mut self, from: u32, target: u32, edge: u32) -> u32 {
        *self.edges.entry(key(from, target)).or_insert(edge)
    }

    pub fn set_newest(&mut self, from: u32, target: u32, edge: u32) {
        self.edges.insert(key(from, target), edge);
    }

    pub fn remove(&mut self, from: u32, target: u32) {
        self.edges.remove(&key(from, target));
    }

    pub fn clear(&mut self) {
        self.edges.clear();
    }
}

/// Both numbers fit 16 bits: there are at most 65,536 versions.
fn key(from: u32, target: u32) -> u32 {
    from << 16 | target
}

/// Keys come from the trail itself, so one multiplication is hash enough. The
/// map takes its place from the low bits and its tag from the high ones.
#[derive(Clone, Copy, Debug, Default)]
struct KeyHasher {
    hash: u64,
}

impl Hasher for KeyHasher {
    fn finish(&self) -> u64 {
        self.hash
    }

    fn write(&mut self, bytes: &[u8]) {
        for byte in bytes {
            self.write_u32(u32::from(*byte));
        }
    }

    fn write_u32(&mut self, number: u32) {
        let mixed = (self.hash ^ u64::from(number)).wrapping_mul(0x9E37_79B9_7F4A_7C15);
        self.hash = mixed ^ (mixed >> 32);
    }
}
