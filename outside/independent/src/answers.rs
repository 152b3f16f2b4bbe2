//! What the requests answer.

/// The answers other than Success, with the document's numbers.
#[derive(Clone, Copy, Debug, PartialEq, Eq)]
#[repr(u8)]
pub(crate) enum Refusal {
    BadCall = 1,
    Damaged = 2,
    ClockBack = 3,
    NoSuchFile = 4,
    NotOwner = 5,
    NoSuchPage = 6,
    NoSpace = 7,
    NoIds = 8,
    ServiceError = 9,
    Cut = 10,
}

/// The answer to Create, Write, Read, Destroy and SetExpiry.
#[derive(Clone, Copy, Debug, Default, PartialEq, Eq)]
pub struct Answer {
    /// The answer's number, 0 to 10.
    pub number: u8,
    /// The id issued, or 0.
    pub id: u32,
}

/// The answer to Info.
#[derive(Clone, Copy, Debug, Default, PartialEq, Eq)]
pub struct Facts {
    /// The answer's number, 0 to 10.
    pub number: u8,
    /// The file's owner.
    pub owner: u16,
    /// When the file was created.
    pub created: u32,
    /// When the file was last updated.
    pub updated: u32,
    /// When the file expires.
    pub expires: u32,
}

/// The answer to Scavenge.
#[derive(Clone, Copy, Debug, Default, PartialEq, Eq)]
pub struct Swept {
    /// The answer's number, 0 to 10.
    pub number: u8,
    /// How many header slots were zeroed.
    pub headers: u32,
    /// How many page slots were zeroed.
    pub pages: u32,
}

impl From<Refusal> for Answer {
    fn from(refusal: Refusal) -> Answer {
        Answer {
            number: refusal as u8,
            ..Answer::default()
        }
    }
}

impl From<Refusal> for Facts {
    fn from(refusal: Refusal) -> Facts {
        Facts {
            number: refusal as u8,
            ..Facts::default()
        }
    }
}

impl From<Refusal> for Swept {
    fn from(refusal: Refusal) -> Swept {
        Swept {
            number: refusal as u8,
            ..Swept::default()
        }
    }
}

impl From<Result<u32, Refusal>> for Answer {
    fn from(result: Result<u32, Refusal>) -> Answer {
        result.map_or_else(Answer::from, |id| Answer { number: 0, id })
    }
}
