//! What a request answers.

use std::fmt;

/// Why a request was not carried out, with the scope document's names and numbers.
///
/// ```
/// use pagefile::Error;
///
/// assert_eq!(Error::NoSuchFile.number(), 4);
/// assert_eq!(Error::NoSuchFile.to_string(), "no live file has the id");
/// ```
#[derive(Clone, Copy, Debug, PartialEq, Eq, Hash)]
#[repr(u8)]
pub enum Error {
    /// A wrong length, an outcome byte above 2 or a page number above 15. Nothing is changed.
    BadCall = 1,
    /// The tables are not sound. Nothing is changed.
    Damaged = 2,
    /// The time is below the tables' clock. Nothing is changed.
    ClockBack = 3,
    /// No live file has the id.
    NoSuchFile = 4,
    /// The client is not the file's owner.
    NotOwner = 5,
    /// The file has no page at that number.
    NoSuchPage = 6,
    /// No slot is free for the page or the header to be created.
    NoSpace = 7,
    /// All file ids have been issued.
    NoIds = 8,
    /// A store refused a step that is not passed over.
    ServiceError = 9,
    /// Power was lost before a step. Whether the header step had gone through, the answer does not say.
    Cut = 10,
}

impl Error {
    /// Every error, by rising number from 1.
    pub const ALL: [Error; 10] = [
        Error::BadCall,
        Error::Damaged,
        Error::ClockBack,
        Error::NoSuchFile,
        Error::NotOwner,
        Error::NoSuchPage,
        Error::NoSpace,
        Error::NoIds,
        Error::ServiceError,
        Error::Cut,
    ];

    /// The scope document's number, 1 to 10.
    pub const fn number(self) -> u8 {
        self as u8
    }
}

impl fmt::Display for Error {
    fn fmt(&self, f: &mut fmt::Formatter<'_>) -> fmt::Result {
        f.write_str(match self {
            Error::BadCall => "wrong length, outcome byte above 2 or page number above 15",
            Error::Damaged => "the tables are not sound",
            Error::ClockBack => "the time is below the tables' clock",
            Error::NoSuchFile => "no live file has the id",
            Error::NotOwner => "the client is not the file's owner",
            Error::NoSuchPage => "the file has no page at that number",
            Error::NoSpace => "no free slot for the page or the header",
            Error::NoIds => "all file ids have been issued",
            Error::ServiceError => "a store refused a step",
            Error::Cut => "power was lost before a step",
        })
    }
}

impl std::error::Error for Error {}

/// The library's number as a result: 0 is Success, and 10 is the highest that is proved to be given.
pub(crate) fn answered(number: u8) -> Result<(), Error> {
    match number.checked_sub(1) {
        None => Ok(()),
        Some(place) => Err(Error::ALL[usize::from(place)]),
    }
}

/// What [`Tables::info`](crate::Tables::info) says of a file.
#[derive(Clone, Copy, Debug, PartialEq, Eq, Hash)]
pub struct Facts {
    /// The client that created the file.
    pub owner: u16,
    /// When it was created.
    pub created: u32,
    /// When its header was last replaced, or created.
    pub updated: u32,
    /// From when on it is gone.
    pub expires: u32,
}

/// How many slots [`Tables::scavenge`](crate::Tables::scavenge) zeroed.
#[derive(Clone, Copy, Debug, PartialEq, Eq, Hash)]
pub struct Swept {
    /// Slots of the header table.
    pub headers: u32,
    /// Slots of the page table.
    pub pages: u32,
}
