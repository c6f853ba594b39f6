//! The refusal numbers.

/// Not refused.
pub const NONE: u32 = 0;
/// Under 8 bytes, or the mark or the three zero bytes differ.
pub const HEADER: u32 = 1;
/// The file's version is neither 1 nor 2.
pub const FILE_VERSION: u32 = 2;
/// One to 11 bytes remain.
pub const CUT_RECORD: u32 = 3;
/// Kind above 5, or above 6 in a version 2 file; sort above 1; a zero field
/// not 0.
pub const FIELD: u32 = 4;
/// Entity not declared.
pub const UNDECLARED: u32 = 5;
/// The declared number is not the next.
pub const NOT_NEXT: u32 = 6;
/// Source equals target.
pub const SAME_ENTITY: u32 = 7;
/// Source or target of the wrong sort, or a signature on a subject.
pub const WRONG_SORT: u32 = 8;
/// Time 0, or a time before the last accepted one.
pub const TIME: u32 = 9;
/// No entity row left.
pub const NO_ENTITY_ROW: u32 = 10;
/// No version row left where one is to be made.
pub const NO_VERSION_ROW: u32 = 11;
/// No edge row left where one is to be kept.
pub const NO_EDGE_ROW: u32 = 12;
/// Accepted is 1,000,000.
pub const ACCEPTED_FULL: u32 = 13;
/// Mark or work buffer shorter than its count.
pub const BUFFER: u32 = 14;
/// Output shorter than the kept log.
pub const OUTPUT: u32 = 15;
/// Tables not sound.
pub const UNSOUND: u32 = 16;
/// An event into a signed object, or a second signature.
pub const SIGNED: u32 = 17;
