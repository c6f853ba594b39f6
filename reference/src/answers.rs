//! The counts record and the answers of the calls, laid out as in C.

#[derive(Clone, Copy, Debug, Default, PartialEq, Eq)]
#[repr(C)]
pub struct Counts {
    pub entities: u32,
    pub versions: u32,
    pub edges: u32,
    pub accepted: u32,
    pub last: u32,
}

impl Counts {
    /// The counts of a fresh trail.
    pub const FRESH: Counts = Counts {
        entities: 0,
        versions: 0,
        edges: 0,
        accepted: 0,
        last: 0,
    };
}

#[derive(Clone, Copy, Debug, PartialEq, Eq)]
#[repr(C)]
pub struct BatchAnswer {
    pub refusal: u32,
    pub taken: u32,
    /// The edges tried for the events taken in.
    pub tried: u64,
}

impl BatchAnswer {
    /// The answer of a batch that took nothing in.
    pub fn nothing_taken(refusal: u32) -> BatchAnswer {
        BatchAnswer {
            refusal,
            taken: 0,
            tried: 0,
        }
    }
}

#[derive(Clone, Copy, Debug, PartialEq, Eq)]
#[repr(C)]
pub struct BackwardAnswer {
    pub refusal: u32,
    pub count: u32,
}

#[derive(Clone, Copy, Debug, PartialEq, Eq)]
#[repr(C)]
pub struct ForwardAnswer {
    pub refusal: u32,
    pub count: u32,
    pub intake: u32,
}

#[derive(Clone, Copy, Debug, PartialEq, Eq)]
#[repr(C)]
pub struct LogAnswer {
    pub refusal: u32,
    pub length: u32,
}
