//! The PageFile service of PRG-63, proved: small files of sixteen pages in two tables, from which no refused step and no
//! lost power takes an unexpired file.
//!
//! ```
//! use pagefile::{Error, Outcome, Outcomes, PageNum, Tables};
//!
//! # fn main() -> Result<(), Error> {
//! let mut tables = Tables::new();
//! let through = Outcomes::all_through();
//!
//! // Client 7 keeps a page from time 10 until time 100.
//! let id = tables.create(&through, 10, 7, PageNum::FIRST, &[0x41; 120], 100)?;
//!
//! // Step 3 of a Write replaces the header. Refused there, the file stays as it was.
//! let refused = Outcomes::all_through().with(3, Outcome::Refused)?;
//! let answer = tables.write(&refused, 20, 7, id, PageNum::FIRST, &[0x42; 120]);
//! assert_eq!(answer, Err(Error::ServiceError));
//! assert_eq!(tables.read(&through, 20, id, PageNum::FIRST)?, [0x41; 120]);
//!
//! // Gone through, the file has its new page and a new id.
//! let new = tables.write(&through, 30, 7, id, PageNum::FIRST, &[0x42; 120])?;
//! assert_eq!(tables.look(30, new, PageNum::FIRST), Some(&[0x42; 120][..]));
//! assert_eq!(tables.read(&through, 30, id, PageNum::FIRST), Err(Error::NoSuchFile));
//! # Ok(())
//! # }
//! ```
//!
//! # What to know
//!
//! - [`Tables`] holds the two tables, owned or borrowed, and has a method for each request.
//! - Clients are any `u16` and times any `u32` of seconds. A request is given its time, which never goes back.
//! - A request does numbered steps, and [`Outcomes`] says what befalls each: the bank controller's word on a gateway,
//!   anything on a bench.
//! - Replacing a header issues a new [`FileId`]: after [`Tables::write`] and [`Tables::set_expiry`] the old one names
//!   nothing.
//! - An [`Error`] has the number of the scope document. The first three change nothing; the others leave the clock at
//!   the request's time and the tables as the steps gone through left them.
//! - Tables may hold any bytes: what is not sound is answered [`Error::Damaged`] and left alone.
//!
//! # The proved library
//!
//! The requests are carried out by `libpagefile.a`, whose functions are proved to meet their contracts. The build script
//! takes it from the folder named in `PAGEFILE_LIB_DIR` (an absolute path), or from the repository's `target/staticlib/`,
//! or has the repository's `./library` build it there. This crate only hands the buffers over; its `unsafe` is in one module.

#![deny(missing_docs)]
#![deny(unsafe_code)]

mod answers;
#[allow(unsafe_code)]
mod boundary;
mod ids;
mod outcomes;
mod tables;

pub use answers::{Error, Facts, Swept};
pub use ids::{FileId, PageNum};
pub use outcomes::{Outcome, Outcomes};
pub use tables::{Tables, TablesMut, TablesRef};

/// Bytes of the header table.
pub const HEADERS_LEN: usize = 2340;

/// Bytes of the page table.
pub const PAGES_LEN: usize = 32768;

/// Bytes of one page's contents.
pub const PAGE_LEN: usize = 120;

/// Bytes of an outcome list, one for each step.
pub const OUTCOMES_LEN: usize = 18;

/// One page's contents.
pub type Page = [u8; PAGE_LEN];
