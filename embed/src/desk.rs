//! One member's desk, as it crosses the boundary.

use crate::ffi::desk_kind;
use crate::Request;

/// A member's desk: empty, or holding one request.
#[derive(Clone, Copy, Debug, PartialEq, Eq)]
#[repr(C)]
pub struct Desk {
    kind: u64,
    key: u64,
    value: u64,
}

impl Desk {
    /// An empty desk, as a turn leaves the one it has served.
    pub const FRESH: Desk = Desk {
        kind: desk_kind::EMPTY,
        key: 0,
        value: 0,
    };

    /// The request that waits here, if any.
    pub const fn holding(self) -> Option<Request> {
        match self.kind {
            desk_kind::PUT => Some(Request::Put(self.key, self.value)),
            desk_kind::FETCH => Some(Request::Fetch(self.key)),
            desk_kind::DELETE => Some(Request::Delete(self.key)),
            _ => None,
        }
    }
}

impl Default for Desk {
    fn default() -> Desk {
        Desk::FRESH
    }
}
