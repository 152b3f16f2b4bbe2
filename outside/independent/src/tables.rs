//! The two tables: their lengths, their records and where each field stands.

/// Bytes in the header table: the control record and 64 header records.
pub const HEADERS_LEN: usize = RECORD_LEN * (HEADER_SLOTS + 1);
/// Bytes in the page table: 256 page slots.
pub const PAGES_LEN: usize = SLOT_LEN * PAGE_SLOTS;
/// Bytes in one page.
pub const PAGE_LEN: usize = 120;
/// Bytes in an outcome list.
pub const OUTCOMES_LEN: usize = 18;
/// The number of header slots.
pub const HEADER_SLOTS: usize = 64;
/// The number of page slots.
pub const PAGE_SLOTS: usize = 256;
/// The number of pages that one file can have.
pub const FILE_PAGES: usize = 16;
/// The last file id that can be issued.
pub const LAST_ID: u32 = 0x7fff_ffff;

/// The header table: the control record, then the header records.
pub type HeaderTable = [u8; HEADERS_LEN];
/// The page table: all page slots.
pub type PageTable = [u8; PAGES_LEN];
/// The contents of one page.
pub type Page = [u8; PAGE_LEN];
/// What befalls each step of a request: 0 goes through, 1 refused, 2 cut.
pub type Outcomes = [u8; OUTCOMES_LEN];

/// Bytes in the control record and in each header record.
pub(crate) const RECORD_LEN: usize = 36;
/// Bytes in a page slot.
pub(crate) const SLOT_LEN: usize = 8 + PAGE_LEN;
/// The control record or a header record, packed.
pub(crate) type Record = [u8; RECORD_LEN];
/// A page slot, packed.
pub(crate) type Slot = [u8; SLOT_LEN];

const NEXT_ID: usize = 0;
const CLOCK: usize = 4;
const SPARE: usize = 8;

const OWNER: usize = 4;
const CREATED: usize = 6;
const UPDATED: usize = 10;
const HEADER_EXPIRES: usize = 14;
const PAGE_IDS: usize = 18;

const SLOT_EXPIRES: usize = 4;
const CONTENTS: usize = 8;

const IN_USE: u32 = 1 << 31;

fn word(bytes: &[u8], at: usize) -> u32 {
    u32::from_be_bytes([bytes[at], bytes[at + 1], bytes[at + 2], bytes[at + 3]])
}

fn put_word(bytes: &mut [u8], at: usize, value: u32) {
    bytes[at..at + 4].copy_from_slice(&value.to_be_bytes());
}

/// The next id to be issued.
pub(crate) fn next_id(headers: &HeaderTable) -> u32 {
    word(headers, NEXT_ID)
}

/// Stores the next id.
pub(crate) fn set_next_id(headers: &mut HeaderTable, id: u32) {
    put_word(headers, NEXT_ID, id);
}

/// The clock.
pub(crate) fn clock(headers: &HeaderTable) -> u32 {
    word(headers, CLOCK)
}

/// Stores the clock.
pub(crate) fn set_clock(headers: &mut HeaderTable, now: u32) {
    put_word(headers, CLOCK, now);
}

/// The control record's spare bits.
pub(crate) fn spare(headers: &HeaderTable) -> &[u8] {
    &headers[SPARE..RECORD_LEN]
}

/// The header records.
pub(crate) fn records(headers: &HeaderTable) -> &[Record] {
    headers[RECORD_LEN..].as_chunks().0
}

/// The header records, to change them.
pub(crate) fn records_mut(headers: &mut HeaderTable) -> &mut [Record] {
    headers[RECORD_LEN..].as_chunks_mut().0
}

/// The page slots.
pub(crate) fn slots(pages: &PageTable) -> &[Slot] {
    pages.as_chunks().0
}

/// The page slots, to change them.
pub(crate) fn slots_mut(pages: &mut PageTable) -> &mut [Slot] {
    pages.as_chunks_mut().0
}

/// The slot that a page id other than 0 names.
pub(crate) fn slot(pages: &PageTable, page_id: u16) -> &Slot {
    &slots(pages)[usize::from(page_id) - 1]
}

/// The slot that a page id other than 0 names, to change it.
pub(crate) fn slot_mut(pages: &mut PageTable, page_id: u16) -> &mut Slot {
    &mut slots_mut(pages)[usize::from(page_id) - 1]
}

/// What header records and page slots have in common.
pub(crate) trait Stored {
    fn in_use(&self) -> bool;
    fn expires(&self) -> u32;

    /// Not live is free: not in use, or expired.
    fn live(&self, now: u32) -> bool {
        self.in_use() && self.expires() > now
    }

    fn expired(&self, now: u32) -> bool {
        self.in_use() && self.expires() <= now
    }
}

impl Stored for Record {
    fn in_use(&self) -> bool {
        word(self, 0) & IN_USE != 0
    }

    fn expires(&self) -> u32 {
        word(self, HEADER_EXPIRES)
    }
}

impl Stored for Slot {
    fn in_use(&self) -> bool {
        word(self, 0) & IN_USE != 0
    }

    fn expires(&self) -> u32 {
        word(self, SLOT_EXPIRES)
    }
}

/// The file id in a header record.
pub(crate) fn record_id(record: &Record) -> u32 {
    word(record, 0) & !IN_USE
}

/// The page id at a page number of a header record.
pub(crate) fn page_id(record: &Record, number: usize) -> u16 {
    // Nine bits from bit 9 * number on lie within the two bytes from number + number / 8 on.
    let at = PAGE_IDS + number + number / 8;
    let bits = u16::from_be_bytes([record[at], record[at + 1]]);
    (bits >> (7 - number % 8)) & 0x1ff
}

fn put_page_id(record: &mut Record, number: usize, page_id: u16) {
    let at = PAGE_IDS + number + number / 8;
    let bits = (page_id << (7 - number % 8)).to_be_bytes();
    record[at] |= bits[0];
    record[at + 1] |= bits[1];
}

/// A header in use, unpacked.
#[derive(Clone, Copy)]
pub(crate) struct Header {
    pub id: u32,
    pub owner: u16,
    pub created: u32,
    pub updated: u32,
    pub expires: u32,
    pub page_ids: [u16; FILE_PAGES],
}

impl Header {
    /// The header in a record.
    pub fn unpack(record: &Record) -> Header {
        Header {
            id: record_id(record),
            owner: u16::from_be_bytes([record[OWNER], record[OWNER + 1]]),
            created: word(record, CREATED),
            updated: word(record, UPDATED),
            expires: record.expires(),
            page_ids: std::array::from_fn(|number| page_id(record, number)),
        }
    }

    /// The record of the header.
    pub fn pack(&self) -> Record {
        let mut record = [0; RECORD_LEN];
        put_word(&mut record, 0, IN_USE | self.id);
        record[OWNER..CREATED].copy_from_slice(&self.owner.to_be_bytes());
        put_word(&mut record, CREATED, self.created);
        put_word(&mut record, UPDATED, self.updated);
        put_word(&mut record, HEADER_EXPIRES, self.expires);
        for (number, &page_id) in self.page_ids.iter().enumerate() {
            put_page_id(&mut record, number, page_id);
        }
        record
    }

    /// The page ids that are there, by rising page number.
    pub fn pages(&self) -> impl Iterator<Item = u16> {
        self.page_ids.into_iter().filter(|&page_id| page_id != 0)
    }
}

/// Whether the 31 bits after a slot's in-use bit are zero.
pub(crate) fn slot_gap_is_zero(slot: &Slot) -> bool {
    word(slot, 0) & !IN_USE == 0
}

/// The page in a slot.
pub(crate) fn contents(slot: &Slot) -> &[u8] {
    &slot[CONTENTS..]
}

/// Sets a slot's expiry alone.
pub(crate) fn set_slot_expires(slot: &mut Slot, expires: u32) {
    put_word(slot, SLOT_EXPIRES, expires);
}

/// Writes all of a slot.
pub(crate) fn fill_slot(slot: &mut Slot, expires: u32, page: &Page) {
    put_word(slot, 0, IN_USE);
    set_slot_expires(slot, expires);
    slot[CONTENTS..].copy_from_slice(page);
}
