//! Rules S1 to S5.

use crate::tables::{
    clock, next_id, records, slot, slot_gap_is_zero, slots, spare, Header, HeaderTable, PageTable,
    Stored, HEADER_SLOTS, LAST_ID, PAGE_SLOTS, RECORD_LEN, SLOT_LEN,
};

/// Whether both tables have their lengths and are sound by rules S1 to S5.
pub fn sound(headers: &[u8], pages: &[u8]) -> bool {
    match (headers.try_into(), pages.try_into()) {
        (Ok(headers), Ok(pages)) => tables_sound(headers, pages),
        _ => false,
    }
}

/// Whether the tables are sound by rules S1 to S5.
pub fn tables_sound(headers: &HeaderTable, pages: &PageTable) -> bool {
    control_sound(headers) && slots_sound(pages) && headers_sound(headers, pages)
}

/// S1.
fn control_sound(headers: &HeaderTable) -> bool {
    (1..=LAST_ID + 1).contains(&next_id(headers)) && spare(headers).iter().all(|&byte| byte == 0)
}

/// S3.
fn slots_sound(pages: &PageTable) -> bool {
    slots(pages).iter().all(|slot| {
        if slot.in_use() {
            slot_gap_is_zero(slot)
        } else {
            *slot == [0; SLOT_LEN]
        }
    })
}

/// S2, and S4 and S5 for the live headers.
fn headers_sound(headers: &HeaderTable, pages: &PageTable) -> bool {
    let clock = clock(headers);
    let mut ids = [0; HEADER_SLOTS];
    let mut in_use = 0;
    let mut seen = [false; PAGE_SLOTS];
    for record in records(headers) {
        if !record.in_use() {
            if *record != [0; RECORD_LEN] {
                return false;
            }
            continue;
        }
        let header = Header::unpack(record);
        if !header_sound(&header, next_id(headers), clock) || ids[..in_use].contains(&header.id) {
            return false;
        }
        ids[in_use] = header.id;
        in_use += 1;
        if header.expires > clock && !pages_sound(&header, pages, &mut seen) {
            return false;
        }
    }
    true
}

/// S2 for one header in use, but for its id being shared with no other.
fn header_sound(header: &Header, next_id: u32, clock: u32) -> bool {
    (1..next_id).contains(&header.id)
        && header.created <= header.updated
        && header.updated <= clock
        && header.updated <= header.expires
        && header.page_ids.iter().all(|&page_id| page_id <= 256)
}

/// S4 and S5 for one live header, given the page slots seen in those before it.
fn pages_sound(header: &Header, pages: &PageTable, seen: &mut [bool; PAGE_SLOTS]) -> bool {
    header.pages().all(|page_id| {
        let slot = slot(pages, page_id);
        let again = std::mem::replace(&mut seen[usize::from(page_id) - 1], true);
        slot.in_use() && slot.expires() >= header.expires && !again
    })
}
