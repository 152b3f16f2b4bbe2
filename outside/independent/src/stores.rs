//! The Header Store and the Page Store: the steps that requests are made of.

use crate::answers::Refusal;
use crate::tables::{
    fill_slot, next_id, record_id, records, records_mut, set_clock, set_next_id, set_slot_expires,
    slot_mut, slots, slots_mut, Header, HeaderTable, Outcomes, Page, PageTable, Stored, LAST_ID,
    RECORD_LEN, SLOT_LEN,
};

/// Both tables during one request, with its time and the outcomes of the steps to come.
pub(crate) struct Stores<'a> {
    pub headers: &'a mut HeaderTable,
    pub pages: &'a mut PageTable,
    pub now: u32,
    outcomes: std::slice::Iter<'a, u8>,
}

/// The place in the header table of the live header with this id.
pub(crate) fn find(headers: &HeaderTable, id: u32, now: u32) -> Option<usize> {
    records(headers)
        .iter()
        .position(|record| record_id(record) == id && record.live(now))
}

impl<'a> Stores<'a> {
    /// Begins a request: now is stored as the clock before step 1.
    pub fn begin(
        headers: &'a mut HeaderTable,
        pages: &'a mut PageTable,
        outcomes: &'a Outcomes,
        now: u32,
    ) -> Stores<'a> {
        set_clock(headers, now);
        Stores {
            headers,
            pages,
            now,
            outcomes: outcomes.iter(),
        }
    }

    /// Takes the next step's outcome; a refusal ends the request.
    pub fn step(&mut self) -> Result<(), Refusal> {
        match self.outcomes.next() {
            Some(0) => Ok(()),
            Some(1) => Err(Refusal::ServiceError),
            _ => Err(Refusal::Cut),
        }
    }

    /// Takes the outcome of a step after the header step: whether it goes through or is passed over.
    fn cleanup_step(&mut self) -> Result<bool, Refusal> {
        match self.step() {
            Err(Refusal::ServiceError) => Ok(false),
            outcome => outcome.map(|()| true),
        }
    }

    /// A step: reads the header with this id, and tells its place.
    pub fn read_header(&mut self, id: u32) -> Result<(usize, Header), Refusal> {
        self.step()?;
        let place = find(self.headers, id, self.now).ok_or(Refusal::NoSuchFile)?;
        Ok((place, Header::unpack(&records(self.headers)[place])))
    }

    /// A step and the owner check after it.
    pub fn read_own_header(&mut self, client: u16, id: u32) -> Result<(usize, Header), Refusal> {
        let (place, header) = self.read_header(id)?;
        if header.owner != client {
            return Err(Refusal::NotOwner);
        }
        Ok((place, header))
    }

    /// A step: creates a page in the lowest free slot.
    pub fn create_page(&mut self, expires: u32, page: &Page) -> Result<u16, Refusal> {
        self.step()?;
        let place = lowest_free(slots(self.pages), self.now)?;
        fill_slot(&mut slots_mut(self.pages)[place], expires, page);
        Ok(place as u16 + 1)
    }

    /// A step: creates a header in the lowest free slot under the next id.
    pub fn create_header(&mut self, header: Header) -> Result<u32, Refusal> {
        self.step()?;
        let place = lowest_free(records(self.headers), self.now)?;
        self.put_under_next_id(place, header)
    }

    /// A step: replaces the header in this place by one under the next id.
    pub fn replace_header(&mut self, place: usize, header: Header) -> Result<u32, Refusal> {
        self.step()?;
        self.put_under_next_id(place, header)
    }

    fn put_under_next_id(&mut self, place: usize, header: Header) -> Result<u32, Refusal> {
        let id = next_id(self.headers);
        if id > LAST_ID {
            return Err(Refusal::NoIds);
        }
        set_next_id(self.headers, id + 1);
        records_mut(self.headers)[place] = Header { id, ..header }.pack();
        Ok(id)
    }

    /// A step: destroys the header in this place.
    pub fn destroy_header(&mut self, place: usize) -> Result<(), Refusal> {
        self.step()?;
        records_mut(self.headers)[place] = [0; RECORD_LEN];
        Ok(())
    }

    /// A step that is passed over when refused: destroys a page.
    pub fn destroy_page(&mut self, page_id: u16) -> Result<(), Refusal> {
        if self.cleanup_step()? {
            *slot_mut(self.pages, page_id) = [0; SLOT_LEN];
        }
        Ok(())
    }

    /// A step: sets a page's expiry.
    pub fn lengthen_page(&mut self, page_id: u16, expires: u32) -> Result<(), Refusal> {
        self.step()?;
        set_slot_expires(slot_mut(self.pages, page_id), expires);
        Ok(())
    }

    /// A step that is passed over when refused: sets a page's expiry.
    pub fn shorten_page(&mut self, page_id: u16, expires: u32) -> Result<(), Refusal> {
        if self.cleanup_step()? {
            set_slot_expires(slot_mut(self.pages, page_id), expires);
        }
        Ok(())
    }

    /// A step: zeroes every expired header and counts them.
    pub fn scavenge_headers(&mut self) -> Result<u32, Refusal> {
        self.step()?;
        Ok(zero_expired(records_mut(self.headers), self.now))
    }

    /// A step: zeroes every expired page slot and counts them.
    pub fn scavenge_pages(&mut self) -> Result<u32, Refusal> {
        self.step()?;
        Ok(zero_expired(slots_mut(self.pages), self.now))
    }
}

fn zero_expired<const N: usize>(stored: &mut [[u8; N]], now: u32) -> u32
where
    [u8; N]: Stored,
{
    let mut zeroed = 0;
    for stored in stored {
        if stored.expired(now) {
            *stored = [0; N];
            zeroed += 1;
        }
    }
    zeroed
}

fn lowest_free(stored: &[impl Stored], now: u32) -> Result<usize, Refusal> {
    stored
        .iter()
        .position(|stored| !stored.live(now))
        .ok_or(Refusal::NoSpace)
}
