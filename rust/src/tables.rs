//! The two tables and the requests on them.

use crate::answers::answered;
use crate::boundary::{self, Call};
use crate::ids::PageId;
use crate::{Error, Facts, FileId, Outcomes, Page, PageNum, Swept};
use crate::{HEADERS_LEN, PAGES_LEN, PAGE_LEN};
use std::fmt;

/// The header table and the page table, in buffers of any kind that lend their bytes.
///
/// `Tables` alone owns them in two vectors; [`TablesMut`] borrows them where they lie, as in two banks of a gateway;
/// [`TablesRef`] can only be looked at. The requests are said once, for all buffers that can be written.
///
/// ```
/// use pagefile::{Outcomes, PageNum, Tables, TablesMut, HEADERS_LEN, PAGES_LEN};
///
/// let (mut headers, mut pages) = ([0xFF; HEADERS_LEN], [0xFF; PAGES_LEN]);
/// let mut banks: TablesMut = Tables::from_bytes(&mut headers[..], &mut pages[..])?;
/// banks.format()?;
/// banks.create(&Outcomes::all_through(), 10, 7, PageNum::FIRST, &[0x41; 120], 100)?;
/// assert_eq!(pages[8..128], [0x41; 120]);
/// # Ok::<(), pagefile::Error>(())
/// ```
#[derive(Clone, PartialEq, Eq)]
pub struct Tables<H = Vec<u8>, P = Vec<u8>> {
    headers: H,
    pages: P,
}

/// Tables borrowed for requests.
pub type TablesMut<'a> = Tables<&'a mut [u8], &'a mut [u8]>;

/// Tables borrowed to be looked at.
pub type TablesRef<'a> = Tables<&'a [u8], &'a [u8]>;

impl Tables {
    /// Fresh tables: no files, clock 0, next id 1.
    ///
    /// ```
    /// use pagefile::Tables;
    ///
    /// let tables = Tables::new();
    /// assert_eq!(tables.headers()[..8], [0, 0, 0, 1, 0, 0, 0, 0]);
    /// ```
    pub fn new() -> Tables {
        let mut tables = Tables {
            headers: vec![0; HEADERS_LEN],
            pages: vec![0; PAGES_LEN],
        };
        tables.format().expect("both lengths are right");
        tables
    }
}

impl Default for Tables {
    fn default() -> Tables {
        Tables::new()
    }
}

impl<H, P> fmt::Debug for Tables<H, P> {
    fn fmt(&self, f: &mut fmt::Formatter<'_>) -> fmt::Result {
        // 35,108 bytes would help no reader
        f.debug_struct("Tables").finish_non_exhaustive()
    }
}

impl<H: AsRef<[u8]>, P: AsRef<[u8]>> Tables<H, P> {
    /// The tables in bytes of any contents; requests answer [`Error::Damaged`] where they are not sound.
    ///
    /// ```
    /// use pagefile::{Error, FileId, Outcomes, Tables};
    ///
    /// let mut tables = Tables::from_bytes(vec![0xFF; 2340], vec![0xFF; 32768])?;
    /// let facts = tables.info(&Outcomes::all_through(), 10, FileId::new(1)?);
    /// assert_eq!(facts, Err(Error::Damaged));
    /// assert_eq!(Tables::from_bytes([0; 2339], [0; 32768]), Err(Error::BadCall));
    /// # Ok::<(), Error>(())
    /// ```
    ///
    /// # Errors
    ///
    /// [`Error::BadCall`] where a length is not [`HEADERS_LEN`] or [`PAGES_LEN`].
    pub fn from_bytes(headers: H, pages: P) -> Result<Tables<H, P>, Error> {
        let lengths = (headers.as_ref().len(), pages.as_ref().len());
        if lengths != (HEADERS_LEN, PAGES_LEN) {
            return Err(Error::BadCall);
        }
        Ok(Tables { headers, pages })
    }

    /// Both buffers, header table first.
    ///
    /// ```
    /// use pagefile::Tables;
    ///
    /// let (headers, pages) = Tables::new().into_bytes();
    /// assert_eq!(Tables::from_bytes(headers, pages)?, Tables::new());
    /// # Ok::<(), pagefile::Error>(())
    /// ```
    pub fn into_bytes(self) -> (H, P) {
        (self.headers, self.pages)
    }

    /// The header table's bytes.
    pub fn headers(&self) -> &[u8] {
        self.headers.as_ref()
    }

    /// The page table's bytes.
    pub fn pages(&self) -> &[u8] {
        self.pages.as_ref()
    }

    /// The page's 120 bytes in the page table itself, where [`Tables::read`] with every step through would be Success.
    ///
    /// It changes nothing and has no steps.
    ///
    /// ```
    /// use pagefile::{Outcomes, PageNum, Tables, TablesRef};
    ///
    /// let mut tables = Tables::new();
    /// let id = tables.create(&Outcomes::all_through(), 10, 7, PageNum::FIRST, &[0x41; 120], 100)?;
    /// assert_eq!(tables.look(99, id, PageNum::FIRST), Some(&[0x41; 120][..]));
    ///
    /// let shared: TablesRef = Tables::from_bytes(tables.headers(), tables.pages())?;
    /// assert_eq!(shared.look(100, id, PageNum::FIRST), None);
    /// # Ok::<(), pagefile::Error>(())
    /// ```
    ///
    /// While the page is looked at no request can change it:
    ///
    /// ```compile_fail,E0502
    /// # use pagefile::{Outcomes, PageNum, Tables};
    /// # let mut tables = Tables::new();
    /// # let through = Outcomes::all_through();
    /// # let id = tables.create(&through, 10, 7, PageNum::FIRST, &[0x41; 120], 100)?;
    /// let page = tables.look(11, id, PageNum::FIRST);
    /// tables.destroy(&through, 11, 7, id)?;
    /// println!("{page:?}");
    /// # Ok::<(), pagefile::Error>(())
    /// ```
    pub fn look(&self, time: u32, id: FileId, number: PageNum) -> Option<&[u8]> {
        let slot = boundary::look(self.headers(), self.pages(), time, id, number);
        self.pages().get(PageId::new(slot)?.contents())
    }
}

impl<H: AsMut<[u8]>, P: AsMut<[u8]>> Tables<H, P> {
    /// Makes tables of any contents fresh: no files, clock 0, next id 1.
    ///
    /// ```
    /// use pagefile::Tables;
    ///
    /// let mut tables = Tables::from_bytes(vec![0xFF; 2340], vec![0xFF; 32768])?;
    /// tables.format()?;
    /// assert_eq!(tables, Tables::new());
    /// # Ok::<(), pagefile::Error>(())
    /// ```
    ///
    /// # Errors
    ///
    /// None, for buffers that keep the length [`Tables::from_bytes`] saw.
    pub fn format(&mut self) -> Result<(), Error> {
        answered(boundary::format(self.headers.as_mut(), self.pages.as_mut()))
    }

    /// Makes a file of one page that lives until `expires`, and gives its id.
    ///
    /// An `expires` at or before `time` makes a file that is gone at once. Where the header step is refused, the page
    /// stays until its expiry and no file has it.
    ///
    /// ```
    /// use pagefile::{Outcomes, PageNum, Tables};
    ///
    /// let mut tables = Tables::new();
    /// let id = tables.create(&Outcomes::all_through(), 10, 7, PageNum::FIRST, &[0x41; 120], 100)?;
    /// assert_eq!(id.get(), 1);
    /// # Ok::<(), pagefile::Error>(())
    /// ```
    ///
    /// # Errors
    ///
    /// `Damaged`, `ClockBack`, `NoSpace`, `NoIds`, `ServiceError` or `Cut`.
    pub fn create(
        &mut self,
        outcomes: &Outcomes,
        time: u32,
        client: u16,
        number: PageNum,
        page: &Page,
        expires: u32,
    ) -> Result<FileId, Error> {
        issued(
            self.call(outcomes, time)
                .create(client, number, page, expires),
        )
    }

    /// Puts a page into the owner's file, and gives the file's new id.
    ///
    /// ```
    /// use pagefile::{Error, Outcomes, PageNum, Tables};
    ///
    /// let (mut tables, through) = (Tables::new(), Outcomes::all_through());
    /// let old = tables.create(&through, 10, 7, PageNum::FIRST, &[0x41; 120], 100)?;
    /// let new = tables.write(&through, 20, 7, old, PageNum::LAST, &[0x42; 120])?;
    /// assert_eq!(tables.read(&through, 20, new, PageNum::LAST)?, [0x42; 120]);
    /// assert_eq!(tables.info(&through, 20, old), Err(Error::NoSuchFile));
    /// # Ok::<(), Error>(())
    /// ```
    ///
    /// # Errors
    ///
    /// `Damaged`, `ClockBack`, `NoSuchFile`, `NotOwner`, `NoSpace`, `NoIds`, `ServiceError` or `Cut`. After all but
    /// `Cut` the file is as it was; after `Cut` it has either the old page and id, or the new page and the next id.
    pub fn write(
        &mut self,
        outcomes: &Outcomes,
        time: u32,
        client: u16,
        id: FileId,
        number: PageNum,
        page: &Page,
    ) -> Result<FileId, Error> {
        issued(self.call(outcomes, time).write(client, id, number, page))
    }

    /// A copy of a page of any client's file.
    ///
    /// ```
    /// use pagefile::{Error, Outcomes, PageNum, Tables};
    ///
    /// let (mut tables, through) = (Tables::new(), Outcomes::all_through());
    /// let id = tables.create(&through, 10, 7, PageNum::FIRST, &[0x41; 120], 100)?;
    /// assert_eq!(tables.read(&through, 99, id, PageNum::FIRST)?, [0x41; 120]);
    /// assert_eq!(tables.read(&through, 99, id, PageNum::LAST), Err(Error::NoSuchPage));
    /// assert_eq!(tables.read(&through, 100, id, PageNum::FIRST), Err(Error::NoSuchFile));
    /// # Ok::<(), Error>(())
    /// ```
    ///
    /// # Errors
    ///
    /// `Damaged`, `ClockBack`, `NoSuchFile`, `NoSuchPage`, `ServiceError` or `Cut`.
    pub fn read(
        &mut self,
        outcomes: &Outcomes,
        time: u32,
        id: FileId,
        number: PageNum,
    ) -> Result<Page, Error> {
        let mut page = [0; PAGE_LEN];
        answered(self.call(outcomes, time).read(id, number, &mut page).number)?;
        Ok(page)
    }

    /// A file's owner and times.
    ///
    /// ```
    /// use pagefile::{Facts, Outcomes, PageNum, Tables};
    ///
    /// let (mut tables, through) = (Tables::new(), Outcomes::all_through());
    /// let id = tables.create(&through, 10, 7, PageNum::FIRST, &[0x41; 120], 100)?;
    /// let id = tables.write(&through, 20, 7, id, PageNum::FIRST, &[0x42; 120])?;
    /// let facts = tables.info(&through, 30, id)?;
    /// assert_eq!(facts, Facts { owner: 7, created: 10, updated: 20, expires: 100 });
    /// # Ok::<(), pagefile::Error>(())
    /// ```
    ///
    /// # Errors
    ///
    /// `Damaged`, `ClockBack`, `NoSuchFile`, `ServiceError` or `Cut`.
    pub fn info(&mut self, outcomes: &Outcomes, time: u32, id: FileId) -> Result<Facts, Error> {
        let facts = self.call(outcomes, time).info(id);
        answered(facts.number)?;
        Ok(Facts {
            owner: facts.owner,
            created: facts.created,
            updated: facts.updated,
            expires: facts.expires,
        })
    }

    /// Destroys the owner's file. A page whose step is refused stays until its expiry, and no file has it.
    ///
    /// ```
    /// use pagefile::{Error, Outcomes, PageNum, Tables};
    ///
    /// let (mut tables, through) = (Tables::new(), Outcomes::all_through());
    /// let id = tables.create(&through, 10, 7, PageNum::FIRST, &[0x41; 120], 100)?;
    /// assert_eq!(tables.destroy(&through, 20, 8, id), Err(Error::NotOwner));
    /// tables.destroy(&through, 20, 7, id)?;
    /// assert_eq!(tables.info(&through, 20, id), Err(Error::NoSuchFile));
    /// # Ok::<(), Error>(())
    /// ```
    ///
    /// # Errors
    ///
    /// `Damaged`, `ClockBack`, `NoSuchFile`, `NotOwner`, `ServiceError` or `Cut`.
    pub fn destroy(
        &mut self,
        outcomes: &Outcomes,
        time: u32,
        client: u16,
        id: FileId,
    ) -> Result<(), Error> {
        answered(self.call(outcomes, time).destroy(client, id).number)
    }

    /// Sets when the owner's file is gone, and gives the file's new id.
    ///
    /// An `expires` at or before `time` ends the file at once.
    ///
    /// ```
    /// use pagefile::{Outcomes, PageNum, Tables};
    ///
    /// let (mut tables, through) = (Tables::new(), Outcomes::all_through());
    /// let old = tables.create(&through, 10, 7, PageNum::FIRST, &[0x41; 120], 100)?;
    /// let new = tables.set_expiry(&through, 20, 7, old, 200)?;
    /// assert_eq!(tables.info(&through, 199, new)?.expires, 200);
    /// # Ok::<(), pagefile::Error>(())
    /// ```
    ///
    /// # Errors
    ///
    /// `Damaged`, `ClockBack`, `NoSuchFile`, `NotOwner`, `NoIds`, `ServiceError` or `Cut`.
    pub fn set_expiry(
        &mut self,
        outcomes: &Outcomes,
        time: u32,
        client: u16,
        id: FileId,
        expires: u32,
    ) -> Result<FileId, Error> {
        issued(self.call(outcomes, time).set_expiry(client, id, expires))
    }

    /// Zeroes every slot whose expiry has come, and says how many.
    ///
    /// Nobody needs it to find room: an expired slot serves again as it is.
    ///
    /// ```
    /// use pagefile::{Outcomes, PageNum, Swept, Tables};
    ///
    /// let (mut tables, through) = (Tables::new(), Outcomes::all_through());
    /// tables.create(&through, 10, 7, PageNum::FIRST, &[0x41; 120], 100)?;
    /// assert_eq!(tables.scavenge(&through, 99)?, Swept { headers: 0, pages: 0 });
    /// assert_eq!(tables.scavenge(&through, 100)?, Swept { headers: 1, pages: 1 });
    /// # Ok::<(), pagefile::Error>(())
    /// ```
    ///
    /// # Errors
    ///
    /// `Damaged`, `ClockBack`, `ServiceError` or `Cut`.
    pub fn scavenge(&mut self, outcomes: &Outcomes, time: u32) -> Result<Swept, Error> {
        let swept = self.call(outcomes, time).scavenge();
        answered(swept.number)?;
        Ok(Swept {
            headers: swept.headers,
            pages: swept.pages,
        })
    }

    fn call<'a>(&'a mut self, outcomes: &'a Outcomes, time: u32) -> Call<'a> {
        Call {
            headers: self.headers.as_mut(),
            pages: self.pages.as_mut(),
            outcomes: outcomes.as_bytes(),
            time,
        }
    }
}

/// The id that a Success has issued, which is proved to be one.
fn issued(answer: boundary::Answer) -> Result<FileId, Error> {
    answered(answer.number)?;
    FileId::new(answer.id)
}
