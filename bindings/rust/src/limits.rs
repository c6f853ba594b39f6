//! The numbers of the header: capacities, widths, lengths and the stack.

/// The most entities of a trail.
pub const MOST_ENTITIES: u32 = 4096;
/// The most versions of a trail.
pub const MOST_VERSIONS: u32 = 65536;
/// The most edges of a trail.
pub const MOST_EDGES: u32 = 262144;
/// The most events that a trail accepts.
pub const MOST_ACCEPTED: u32 = 1000000;

/// The numbers of an entity row: sort, latest version.
pub const ENTITY_WIDTH: usize = 2;
/// The numbers of a version row: entity, start, end, previous version ([`NONE`] for none).
pub const VERSION_WIDTH: usize = 4;
/// The numbers of an edge row: from version, to version, kind, time, count, last.
pub const EDGE_WIDTH: usize = 6;

/// In a version row, the previous version of a first version.
pub const NONE: u32 = 0xFFFFFFFF;

/// The bytes of an event file's header.
pub const HEADER_LENGTH: usize = 8;
/// The bytes of a record.
pub const RECORD_LENGTH: usize = 12;

/// The bytes of stack that the library needs to take a batch in. The callers of this crate need none of it: every call runs on a
/// thread of the crate's own that has it.
pub const BATCH_STACK: usize = 1610000;
