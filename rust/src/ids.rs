//! File ids, page numbers and page ids: three things that do not mix.

use crate::{Error, PAGE_LEN};
use std::fmt;
use std::num::{NonZeroU16, NonZeroU32};
use std::ops::Range;

/// The id of a file, 1 to 2,147,483,647. NullId, 0, is none.
///
/// ```
/// use pagefile::{Error, FileId};
///
/// let id = FileId::new(2)?;
/// assert_eq!(id.get(), 2);
/// assert_eq!(FileId::new(0), Err(Error::NoSuchFile));
/// # Ok::<(), Error>(())
/// ```
#[derive(Clone, Copy, Debug, PartialEq, Eq, PartialOrd, Ord, Hash)]
pub struct FileId(NonZeroU32);

impl FileId {
    /// The highest id that is ever issued.
    pub const MAX: u32 = 2_147_483_647;

    /// The id with this number, as a caller has kept it.
    ///
    /// # Errors
    ///
    /// [`Error::NoSuchFile`] for 0 and above [`FileId::MAX`], which no file ever has.
    pub const fn new(number: u32) -> Result<FileId, Error> {
        match NonZeroU32::new(number) {
            Some(nonzero) if number <= FileId::MAX => Ok(FileId(nonzero)),
            _ => Err(Error::NoSuchFile),
        }
    }

    /// The id's number.
    pub const fn get(self) -> u32 {
        self.0.get()
    }
}

impl fmt::Display for FileId {
    fn fmt(&self, f: &mut fmt::Formatter<'_>) -> fmt::Result {
        self.0.fmt(f)
    }
}

/// The number of a page within its file, 0 to 15.
///
/// ```
/// use pagefile::{Error, PageNum};
///
/// assert_eq!(PageNum::new(15)?.get(), 15);
/// assert_eq!(PageNum::new(16), Err(Error::BadCall));
/// assert_eq!(PageNum::all().count(), 16);
/// # Ok::<(), Error>(())
/// ```
#[derive(Clone, Copy, Debug, PartialEq, Eq, PartialOrd, Ord, Hash)]
pub struct PageNum(u8);

impl PageNum {
    /// Page number 0.
    pub const FIRST: PageNum = PageNum(0);

    /// Page number 15.
    pub const LAST: PageNum = PageNum(15);

    /// The page number `number`.
    ///
    /// # Errors
    ///
    /// [`Error::BadCall`] above 15, as the service answers it.
    pub const fn new(number: u8) -> Result<PageNum, Error> {
        if number <= PageNum::LAST.0 {
            Ok(PageNum(number))
        } else {
            Err(Error::BadCall)
        }
    }

    /// All sixteen, rising.
    pub fn all() -> impl Iterator<Item = PageNum> {
        (PageNum::FIRST.0..=PageNum::LAST.0).map(PageNum)
    }

    /// The page number as a number.
    pub const fn get(self) -> u8 {
        self.0
    }
}

impl fmt::Display for PageNum {
    fn fmt(&self, f: &mut fmt::Formatter<'_>) -> fmt::Result {
        self.0.fmt(f)
    }
}

/// The id of a page: its slot's number in the page table, 1 to 256.
pub(crate) struct PageId(NonZeroU16);

impl PageId {
    const SLOT_LEN: usize = 128;
    const CONTENTS_AT: usize = 8;

    /// The page id with this number; `None` for NullPageId.
    pub(crate) fn new(number: u16) -> Option<PageId> {
        NonZeroU16::new(number).map(PageId)
    }

    /// Where in the page table the page's contents lie.
    pub(crate) fn contents(self) -> Range<usize> {
        let start = (usize::from(self.0.get()) - 1) * PageId::SLOT_LEN + PageId::CONTENTS_AT;
        start..start + PAGE_LEN
    }
}
