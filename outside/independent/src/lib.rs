//! The PageFile Service as document 01 has it, in plain Rust.
//!
//! Written from the document alone, to be compared with the proved library call by call and to be
//! its baseline in measurements. Page numbers are `u8`, page ids `u16` and file ids `u32`, so that
//! none can stand for another. The functions take the arguments of the C functions in their order,
//! a slice for a pointer with its length.

#![deny(missing_docs)]
#![forbid(unsafe_code)]
// The arguments are those of the C functions.
#![allow(clippy::too_many_arguments)]

mod answers;
mod requests;
mod soundness;
mod stores;
mod tables;

pub use answers::{Answer, Facts, Swept};
pub use requests::{
    create_sound, destroy_sound, info_sound, look_sound, read_sound, scavenge_sound,
    set_expiry_sound, write_sound,
};
pub use soundness::{sound, tables_sound};
pub use tables::{
    HeaderTable, Outcomes, Page, PageTable, FILE_PAGES, HEADERS_LEN, HEADER_SLOTS, LAST_ID,
    OUTCOMES_LEN, PAGES_LEN, PAGE_LEN, PAGE_SLOTS,
};

use answers::Refusal;
use tables::{clock, set_next_id};

/// The buffers of a request that has passed checks 1 to 3.
type Admitted<'a> = (&'a mut HeaderTable, &'a mut PageTable, &'a Outcomes);

/// Checks 1 to 3, but for the lent page; a request without a page number gives 0.
fn admit<'a>(
    headers: &'a mut [u8],
    pages: &'a mut [u8],
    outcomes: &'a [u8],
    time: u32,
    number: u8,
) -> Result<Admitted<'a>, Refusal> {
    let headers: &mut HeaderTable = headers.try_into().map_err(|_| Refusal::BadCall)?;
    let pages: &mut PageTable = pages.try_into().map_err(|_| Refusal::BadCall)?;
    let outcomes: &Outcomes = outcomes.try_into().map_err(|_| Refusal::BadCall)?;
    if outcomes.iter().any(|&outcome| outcome > 2) || usize::from(number) >= FILE_PAGES {
        return Err(Refusal::BadCall);
    }
    admit_tables(headers, pages, time)?;
    Ok((headers, pages, outcomes))
}

/// Checks 2 and 3.
fn admit_tables(headers: &HeaderTable, pages: &PageTable, time: u32) -> Result<(), Refusal> {
    if !tables_sound(headers, pages) {
        return Err(Refusal::Damaged);
    }
    if time < clock(headers) {
        return Err(Refusal::ClockBack);
    }
    Ok(())
}

/// Format: writes next id 1, clock 0 and zeros elsewhere, whatever the tables held.
pub fn format(headers: &mut [u8], pages: &mut [u8]) -> u8 {
    let (Ok(headers), Ok(pages)) = (
        <&mut HeaderTable>::try_from(headers),
        <&mut PageTable>::try_from(pages),
    ) else {
        return Refusal::BadCall as u8;
    };
    headers.fill(0);
    pages.fill(0);
    set_next_id(headers, 1);
    0
}

/// Create: a new file with one page.
pub fn create(
    headers: &mut [u8],
    pages: &mut [u8],
    outcomes: &[u8],
    time: u32,
    client: u16,
    number: u8,
    page: &[u8],
    expires: u32,
) -> Answer {
    let Ok(page) = page.try_into() else {
        return Refusal::BadCall.into();
    };
    match admit(headers, pages, outcomes, time, number) {
        Ok((headers, pages, outcomes)) => create_sound(
            headers, pages, outcomes, time, client, number, page, expires,
        ),
        Err(refusal) => refusal.into(),
    }
}

/// Write: replaces a file by one with this page at this number.
pub fn write(
    headers: &mut [u8],
    pages: &mut [u8],
    outcomes: &[u8],
    time: u32,
    client: u16,
    id: u32,
    number: u8,
    page: &[u8],
) -> Answer {
    let Ok(page) = page.try_into() else {
        return Refusal::BadCall.into();
    };
    match admit(headers, pages, outcomes, time, number) {
        Ok((headers, pages, outcomes)) => {
            write_sound(headers, pages, outcomes, time, client, id, number, page)
        }
        Err(refusal) => refusal.into(),
    }
}

/// Read: reads one page of a file into the lent page.
pub fn read(
    headers: &mut [u8],
    pages: &mut [u8],
    outcomes: &[u8],
    time: u32,
    id: u32,
    number: u8,
    page: &mut [u8],
) -> Answer {
    let Ok(page) = page.try_into() else {
        return Refusal::BadCall.into();
    };
    match admit(headers, pages, outcomes, time, number) {
        Ok((headers, pages, outcomes)) => {
            read_sound(headers, pages, outcomes, time, id, number, page)
        }
        Err(refusal) => refusal.into(),
    }
}

/// Info: a file's owner and times.
pub fn info(headers: &mut [u8], pages: &mut [u8], outcomes: &[u8], time: u32, id: u32) -> Facts {
    match admit(headers, pages, outcomes, time, 0) {
        Ok((headers, pages, outcomes)) => info_sound(headers, pages, outcomes, time, id),
        Err(refusal) => refusal.into(),
    }
}

/// Destroy: removes a file and its pages.
pub fn destroy(
    headers: &mut [u8],
    pages: &mut [u8],
    outcomes: &[u8],
    time: u32,
    client: u16,
    id: u32,
) -> Answer {
    match admit(headers, pages, outcomes, time, 0) {
        Ok((headers, pages, outcomes)) => destroy_sound(headers, pages, outcomes, time, client, id),
        Err(refusal) => refusal.into(),
    }
}

/// SetExpiry: replaces a file by one with the same pages that expires at another time.
pub fn set_expiry(
    headers: &mut [u8],
    pages: &mut [u8],
    outcomes: &[u8],
    time: u32,
    client: u16,
    id: u32,
    expires: u32,
) -> Answer {
    match admit(headers, pages, outcomes, time, 0) {
        Ok((headers, pages, outcomes)) => {
            set_expiry_sound(headers, pages, outcomes, time, client, id, expires)
        }
        Err(refusal) => refusal.into(),
    }
}

/// Scavenge: zeroes every expired header, then every expired page slot.
pub fn scavenge(headers: &mut [u8], pages: &mut [u8], outcomes: &[u8], time: u32) -> Swept {
    match admit(headers, pages, outcomes, time, 0) {
        Ok((headers, pages, outcomes)) => scavenge_sound(headers, pages, outcomes, time),
        Err(refusal) => refusal.into(),
    }
}

/// Look: the page slot of one page of a file, or 0 where Read would not be Success.
pub fn look(headers: &[u8], pages: &[u8], time: u32, id: u32, number: u8) -> u16 {
    let (Ok(headers), Ok(pages)) = (headers.try_into(), pages.try_into()) else {
        return 0;
    };
    if usize::from(number) >= FILE_PAGES || admit_tables(headers, pages, time).is_err() {
        return 0;
    }
    look_sound(headers, time, id, number)
}
