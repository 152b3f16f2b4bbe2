//! Sound tables made directly, without going through requests.

use crate::layout::{self, RECORD_LEN};
use crate::random::Random;
use independent::{FILE_PAGES, HEADERS_LEN, HEADER_SLOTS, LAST_ID, PAGES_LEN, PAGE_SLOTS};

/// A header in use.
#[derive(Clone)]
pub struct Header {
    pub id: u32,
    pub owner: u16,
    pub created: u32,
    pub updated: u32,
    pub expires: u32,
    pub page_ids: [u16; FILE_PAGES],
}

/// A page slot in use; its contents are the fill over and over.
#[derive(Clone)]
pub struct Slot {
    pub expires: u32,
    pub fill: [u8; 8],
}

/// Tables to be packed.
pub struct Draft {
    pub next_id: u32,
    pub clock: u32,
    /// The soonest expiry of what is live; a late one keeps full tables full for a while.
    soonest: u32,
    pub headers: Vec<Option<Header>>,
    pub slots: Vec<Option<Slot>>,
}

/// How full the tables are; all but the next id are in percent.
#[derive(Clone, Copy)]
pub struct Shape {
    headers_in_use: u32,
    headers_live: u32,
    page_ids: u32,
    other_slots_in_use: u32,
    other_slots_live: u32,
    next_id: NextId,
}

#[derive(Clone, Copy)]
enum NextId {
    Low,
    Last,
    Gone,
}

const fn shape(headers: [u32; 3], other_slots: [u32; 2], next_id: NextId) -> Shape {
    Shape {
        headers_in_use: headers[0],
        headers_live: headers[1],
        page_ids: headers[2],
        other_slots_in_use: other_slots[0],
        other_slots_live: other_slots[1],
        next_id,
    }
}

/// Some of everything; each rule can be broken in it.
pub const MIXED: Shape = shape([60, 60, 12], [40, 50], NextId::Low);

/// The shapes of sound tables to try.
pub const SHAPES: [Shape; 15] = [
    MIXED,
    // Headers with all 16 pages.
    shape([25, 60, 100], [40, 50], NextId::Low),
    shape([15, 100, 100], [0, 0], NextId::Last),
    // No free header slot, with free page slots and with none.
    shape([100, 100, 8], [30, 50], NextId::Low),
    shape([100, 100, 8], [30, 50], NextId::Gone),
    shape([100, 100, 3], [0, 0], NextId::Gone),
    shape([100, 100, 20], [100, 100], NextId::Low),
    // No free page slot, with free header slots.
    shape([30, 70, 30], [100, 100], NextId::Low),
    shape([30, 70, 100], [100, 100], NextId::Gone),
    // Every slot in use and many free.
    shape([100, 50, 20], [100, 50], NextId::Low),
    shape([100, 0, 50], [100, 0], NextId::Low),
    // The last id and none left.
    shape([50, 80, 30], [30, 50], NextId::Last),
    shape([50, 80, 30], [30, 50], NextId::Gone),
    // Hardly anything.
    shape([5, 80, 10], [2, 50], NextId::Low),
    shape([0, 0, 0], [0, 0], NextId::Gone),
];

impl Draft {
    /// Random sound tables of this shape.
    pub fn random(random: &mut Random, shape: Shape, clock: u32) -> Draft {
        let next_id = match shape.next_id {
            NextId::Low => random.within(HEADER_SLOTS as u32 + 1, 80),
            NextId::Last => LAST_ID,
            NextId::Gone => LAST_ID + 1,
        };
        let mut draft = Draft {
            next_id,
            clock,
            soonest: clock.saturating_add(random.pick(&[1, 50, 50])),
            headers: vec![None; HEADER_SLOTS],
            slots: vec![None; PAGE_SLOTS],
        };
        let mut unnamed: Vec<u16> = (1..=PAGE_SLOTS as u16).collect();
        random.shuffle(&mut unnamed);
        // Ids count down from the highest issued, in any order of slots.
        let mut places: Vec<usize> = (0..HEADER_SLOTS).collect();
        random.shuffle(&mut places);
        for (below, &place) in places.iter().enumerate() {
            if random.percent(shape.headers_in_use) {
                let id = next_id - 1 - below as u32;
                draft.headers[place] = Some(draft.header(random, shape, id, &mut unnamed));
            }
        }
        for page_id in unnamed {
            if random.percent(shape.other_slots_in_use) {
                let live = random.percent(shape.other_slots_live);
                let expires = some_expiry(random, &draft, live);
                draft.slots[usize::from(page_id) - 1] = Some(Slot::random(random, expires));
            }
        }
        draft
    }

    /// A header, with the slots that it names if it is live.
    fn header(
        &mut self,
        random: &mut Random,
        shape: Shape,
        id: u32,
        unnamed: &mut Vec<u16>,
    ) -> Header {
        let live = random.percent(shape.headers_live) && self.clock < u32::MAX;
        let expires = some_expiry(random, self, live);
        let updated = some_time_until(random, self.clock.min(expires));
        let mut page_ids = [0; FILE_PAGES];
        for page_id in &mut page_ids {
            if !random.percent(shape.page_ids) {
                continue;
            }
            if live {
                *page_id = unnamed.pop().unwrap_or(0);
                self.name(random, *page_id, expires);
            } else {
                // An expired header may name any slot, also a free or a reused one.
                *page_id = random.within(1, PAGE_SLOTS as u32) as u16;
            }
        }
        Header {
            id,
            owner: random.pick(&[7, 7, 8, 0, 65535]),
            created: some_time_until(random, updated),
            updated,
            expires,
            page_ids,
        }
    }

    /// Puts a page into the slot that a live header names; it may outlive the header.
    fn name(&mut self, random: &mut Random, page_id: u16, expires: u32) {
        if page_id != 0 {
            let later = random.pick(&[expires, expires, expires.saturating_add(1), u32::MAX]);
            self.slots[usize::from(page_id) - 1] = Some(Slot::random(random, later));
        }
    }

    /// Writes both tables.
    pub fn pack(&self, headers: &mut Vec<u8>, pages: &mut Vec<u8>) {
        headers.clear();
        headers.resize(HEADERS_LEN, 0);
        pages.clear();
        pages.resize(PAGES_LEN, 0);
        layout::put(headers, layout::NEXT_ID, self.next_id);
        layout::put(headers, layout::CLOCK, self.clock);
        for (header, record) in self
            .headers
            .iter()
            .zip(headers[RECORD_LEN..].chunks_mut(RECORD_LEN))
        {
            if let Some(header) = header {
                header.pack(record);
            }
        }
        for (slot, bytes) in self.slots.iter().zip(pages.chunks_mut(layout::SLOT_LEN)) {
            if let Some(slot) = slot {
                slot.pack(bytes);
            }
        }
    }
}

impl Header {
    fn pack(&self, record: &mut [u8]) {
        layout::put(record, layout::IN_USE, 1);
        layout::put(record, layout::ID, self.id);
        layout::put(record, layout::OWNER, self.owner.into());
        layout::put(record, layout::CREATED, self.created);
        layout::put(record, layout::UPDATED, self.updated);
        layout::put(record, layout::EXPIRES, self.expires);
        for (number, &page_id) in self.page_ids.iter().enumerate() {
            layout::put(record, layout::page_id(number), page_id.into());
        }
    }
}

impl Slot {
    fn random(random: &mut Random, expires: u32) -> Slot {
        let fill = random.bits().to_le_bytes();
        Slot { expires, fill }
    }

    fn pack(&self, bytes: &mut [u8]) {
        layout::put(bytes, layout::IN_USE, 1);
        layout::put(bytes, layout::SLOT_EXPIRES, self.expires);
        for chunk in bytes[layout::CONTENTS].chunks_mut(self.fill.len()) {
            chunk.copy_from_slice(&self.fill);
        }
    }
}

/// A clock for tables made directly.
pub fn some_clock(random: &mut Random) -> u32 {
    match random.below(20) {
        0 => 0,
        1 => u32::MAX - 1,
        2 => u32::MAX,
        3 | 4 => random.word(),
        _ => random.within(50, 100),
    }
}

/// An expiry from the soonest on if it is to be live and there is any, otherwise up to the clock.
fn some_expiry(random: &mut Random, draft: &Draft, live: bool) -> u32 {
    if live && draft.clock < u32::MAX {
        match random.below(10) {
            0 => draft.soonest,
            1 => u32::MAX,
            _ => draft.soonest.saturating_add(random.within(0, 120)),
        }
    } else {
        some_time_until(random, draft.clock)
    }
}

/// Often the limit itself, otherwise somewhat before it, or 0.
fn some_time_until(random: &mut Random, limit: u32) -> u32 {
    match random.below(10) {
        0 => 0,
        1..=3 => limit,
        _ => limit.saturating_sub(random.within(0, 40)),
    }
}
