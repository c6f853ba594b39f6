//! Backward and forward traces of given counts.

use crate::answers::Counts;
use crate::call::Call;
use crate::capacity::MOST_VERSIONS;
use crate::generate::members::{any_entity, any_members};
use crate::random::Random;

/// A backward or forward trace.
pub fn any_trace(random: &mut Random, counts: Counts) -> Call {
    if random.one_in(2) {
        any_backward(random, counts)
    } else {
        any_forward(random, counts)
    }
}

/// A backward trace: mostly of a declared entity, with buffers that are mostly
/// long enough.
pub fn any_backward(random: &mut Random, counts: Counts) -> Call {
    Call::Backward {
        entity: any_entity(random, counts.entities),
        time: any_time(random, counts.last),
        work: buffer(random, counts.versions as usize),
        marks: buffer(random, counts.entities as usize),
    }
}

/// A forward trace: mostly of a list of declared entities, with buffers that
/// are mostly long enough.
pub fn any_forward(random: &mut Random, counts: Counts) -> Call {
    Call::Forward {
        members: any_members(random, counts.entities),
        time: any_time(random, counts.last),
        work: buffer(random, counts.versions as usize),
        marks: buffer(random, counts.entities as usize),
    }
}

/// A time up to the last, at times that one, a later one, 0 or the last of
/// all.
pub fn any_time(random: &mut Random, last: u32) -> u32 {
    match random.below(12) {
        0 => 0,
        1 => last,
        2 => last.saturating_add(1),
        3 => u32::MAX,
        _ => random.between(0, last),
    }
}

/// A buffer for this many bytes or a few more; at times a byte or more short.
/// A count above every cap gets a small buffer.
fn buffer(random: &mut Random, count: usize) -> Vec<u8> {
    let count = if count > MOST_VERSIONS { 40 } else { count };
    let length = match random.below(12) {
        0 => count.saturating_sub(1),
        1 => random.below(count + 1),
        _ => count + random.below(4),
    };
    random.bytes(length)
}
