//! The requests that are measured.

use crate::tables::{Fill, CLIENT, EXPIRES, NOW, PAGES};
use linked::Kind;

/// One request with its arguments; a function leaves out those that it does not have.
#[derive(Clone, Copy)]
pub struct Request {
    pub name: &'static str,
    pub kind: Kind,
    pub time: u32,
    pub client: u16,
    pub id: u32,
    pub number: u8,
    pub expires: u32,
}

/// An answer: its number and what it has besides; Look answers number 0 and the page slot.
#[derive(Clone, Copy, Debug, PartialEq, Eq)]
pub struct Reply {
    pub number: u8,
    pub more: [u32; 4],
}

impl Reply {
    /// A reply with what its answer has besides.
    pub fn new(number: u8, more: [u32; 4]) -> Reply {
        Reply { number, more }
    }
}

impl Request {
    /// The name of the request that is refused right after soundness.
    pub const SOUNDNESS: &'static str = "soundness alone";

    /// Whether it goes on after the checks that all requests begin with.
    pub fn has_inner(&self) -> bool {
        self.kind != Kind::Format && self.name != Request::SOUNDNESS
    }
}

/// The requests measured on tables of this fill; soundness alone comes first.
pub fn requests(fill: Fill) -> Vec<Request> {
    let request = |name, kind, time, expires| Request {
        name,
        kind,
        time,
        client: CLIENT,
        id: fill.last_id().max(1),
        number: PAGES - 1,
        expires,
    };
    vec![
        // A time below the clock is refused after lengths, outcomes and soundness.
        request(Request::SOUNDNESS, Kind::Info, NOW - 1, 0),
        request("Create", Kind::Create, NOW, EXPIRES),
        request("Write", Kind::Write, NOW, 0),
        request("Read", Kind::Read, NOW, 0),
        request("Info", Kind::Info, NOW, 0),
        request("Destroy", Kind::Destroy, NOW, 0),
        request("SetExpiry, longer", Kind::SetExpiry, NOW, EXPIRES + 1),
        request("SetExpiry, shorter", Kind::SetExpiry, NOW, EXPIRES - 1),
        request("Scavenge, none expired", Kind::Scavenge, NOW, 0),
        request("Scavenge, all expired", Kind::Scavenge, EXPIRES, 0),
        request("Look", Kind::Look, NOW, 0),
        request("Format", Kind::Format, NOW, 0),
    ]
}
