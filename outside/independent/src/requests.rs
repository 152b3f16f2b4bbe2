//! Each request on tables already known to be sound.
//!
//! The caller has made checks 1 to 3: the tables are sound, no outcome byte is above 2, the page
//! number is at most 15 and the time is not below the clock.

use crate::answers::{Answer, Facts, Refusal, Swept};
use crate::stores::{find, Stores};
use crate::tables::{
    contents, page_id, records, slot, Header, HeaderTable, Outcomes, Page, PageTable, FILE_PAGES,
};

/// Create, once checks 1 to 3 have passed.
pub fn create_sound(
    headers: &mut HeaderTable,
    pages: &mut PageTable,
    outcomes: &Outcomes,
    time: u32,
    client: u16,
    number: u8,
    page: &Page,
    expires: u32,
) -> Answer {
    let stores = Stores::begin(headers, pages, outcomes, time);
    create(stores, client, number, page, expires).into()
}

fn create(
    mut stores: Stores,
    client: u16,
    number: u8,
    page: &Page,
    expires: u32,
) -> Result<u32, Refusal> {
    let now = stores.now;
    let expires = expires.max(now);
    let mut page_ids = [0; FILE_PAGES];
    page_ids[usize::from(number)] = stores.create_page(expires, page)?;
    stores.create_header(Header {
        id: 0,
        owner: client,
        created: now,
        updated: now,
        expires,
        page_ids,
    })
}

/// Write, once checks 1 to 3 have passed.
pub fn write_sound(
    headers: &mut HeaderTable,
    pages: &mut PageTable,
    outcomes: &Outcomes,
    time: u32,
    client: u16,
    id: u32,
    number: u8,
    page: &Page,
) -> Answer {
    let stores = Stores::begin(headers, pages, outcomes, time);
    write(stores, client, id, number, page).into()
}

fn write(
    mut stores: Stores,
    client: u16,
    id: u32,
    number: u8,
    page: &Page,
) -> Result<u32, Refusal> {
    let (place, mut header) = stores.read_own_header(client, id)?;
    let page_id = stores.create_page(header.expires, page)?;
    let former = std::mem::replace(&mut header.page_ids[usize::from(number)], page_id);
    header.updated = stores.now;
    let id = stores.replace_header(place, header)?;
    if former != 0 {
        stores.destroy_page(former)?;
    }
    Ok(id)
}

/// Read, once checks 1 to 3 have passed.
pub fn read_sound(
    headers: &mut HeaderTable,
    pages: &mut PageTable,
    outcomes: &Outcomes,
    time: u32,
    id: u32,
    number: u8,
    page: &mut Page,
) -> Answer {
    let stores = Stores::begin(headers, pages, outcomes, time);
    read(stores, id, number, page).into()
}

fn read(mut stores: Stores, id: u32, number: u8, page: &mut Page) -> Result<u32, Refusal> {
    let (_, header) = stores.read_header(id)?;
    let page_id = header.page_ids[usize::from(number)];
    if page_id == 0 {
        return Err(Refusal::NoSuchPage);
    }
    stores.step()?;
    page.copy_from_slice(contents(slot(stores.pages, page_id)));
    Ok(0)
}

/// Info, once checks 1 to 3 have passed.
pub fn info_sound(
    headers: &mut HeaderTable,
    pages: &mut PageTable,
    outcomes: &Outcomes,
    time: u32,
    id: u32,
) -> Facts {
    let mut stores = Stores::begin(headers, pages, outcomes, time);
    match stores.read_header(id) {
        Ok((_, header)) => Facts {
            number: 0,
            owner: header.owner,
            created: header.created,
            updated: header.updated,
            expires: header.expires,
        },
        Err(refusal) => refusal.into(),
    }
}

/// Destroy, once checks 1 to 3 have passed.
pub fn destroy_sound(
    headers: &mut HeaderTable,
    pages: &mut PageTable,
    outcomes: &Outcomes,
    time: u32,
    client: u16,
    id: u32,
) -> Answer {
    let stores = Stores::begin(headers, pages, outcomes, time);
    destroy(stores, client, id).into()
}

fn destroy(mut stores: Stores, client: u16, id: u32) -> Result<u32, Refusal> {
    let (place, header) = stores.read_own_header(client, id)?;
    stores.destroy_header(place)?;
    for page_id in header.pages() {
        stores.destroy_page(page_id)?;
    }
    Ok(0)
}

/// SetExpiry, once checks 1 to 3 have passed.
pub fn set_expiry_sound(
    headers: &mut HeaderTable,
    pages: &mut PageTable,
    outcomes: &Outcomes,
    time: u32,
    client: u16,
    id: u32,
    expires: u32,
) -> Answer {
    let stores = Stores::begin(headers, pages, outcomes, time);
    set_expiry(stores, client, id, expires).into()
}

fn set_expiry(mut stores: Stores, client: u16, id: u32, expires: u32) -> Result<u32, Refusal> {
    let expires = expires.max(stores.now);
    let (place, former) = stores.read_own_header(client, id)?;
    let header = Header {
        updated: stores.now,
        expires,
        ..former
    };
    // A page must never expire before a live header that names it, wherever the request stops.
    if expires >= former.expires {
        for page_id in header.pages() {
            stores.lengthen_page(page_id, expires)?;
        }
        stores.replace_header(place, header)
    } else {
        let id = stores.replace_header(place, header)?;
        for page_id in header.pages() {
            stores.shorten_page(page_id, expires)?;
        }
        Ok(id)
    }
}

/// Scavenge, once checks 1 to 3 have passed.
pub fn scavenge_sound(
    headers: &mut HeaderTable,
    pages: &mut PageTable,
    outcomes: &Outcomes,
    time: u32,
) -> Swept {
    let stores = Stores::begin(headers, pages, outcomes, time);
    scavenge(stores).unwrap_or_else(Swept::from)
}

fn scavenge(mut stores: Stores) -> Result<Swept, Refusal> {
    Ok(Swept {
        number: 0,
        headers: stores.scavenge_headers()?,
        pages: stores.scavenge_pages()?,
    })
}

/// Look, once checks 1 to 3 have passed; it needs no page slot to tell which one it is.
pub fn look_sound(headers: &HeaderTable, time: u32, id: u32, number: u8) -> u16 {
    find(headers, id, time).map_or(0, |place| {
        page_id(&records(headers)[place], usize::from(number))
    })
}
