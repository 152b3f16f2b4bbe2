//! The one place that calls the library: its C declarations, and calls over slices that are safe for any bytes.
//!
//! Why each `unsafe` below is sound: every pointer and length are those of one slice; Rust's borrows keep the slices
//! that are written apart from all others; and the library, which keeps no pointer, is proved to touch nothing beyond
//! them for any lengths and contents.

use crate::{FileId, PageNum};

/// `pagefile_answer` of the C header.
#[repr(C)]
pub(crate) struct Answer {
    pub(crate) number: u8,
    pub(crate) id: u32,
}

/// `pagefile_facts` of the C header.
#[repr(C)]
pub(crate) struct Facts {
    pub(crate) number: u8,
    pub(crate) owner: u16,
    pub(crate) created: u32,
    pub(crate) updated: u32,
    pub(crate) expires: u32,
}

/// `pagefile_swept` of the C header.
#[repr(C)]
pub(crate) struct Swept {
    pub(crate) number: u8,
    pub(crate) headers: u32,
    pub(crate) pages: u32,
}

extern "C" {
    fn pagefile_format(
        headers: *mut u8,
        headers_len: usize,
        pages: *mut u8,
        pages_len: usize,
    ) -> u8;
    fn pagefile_create(
        headers: *mut u8,
        headers_len: usize,
        pages: *mut u8,
        pages_len: usize,
        outcomes: *const u8,
        outcomes_len: usize,
        time: u32,
        client: u16,
        number: u8,
        page: *const u8,
        page_len: usize,
        expires: u32,
    ) -> Answer;
    fn pagefile_write(
        headers: *mut u8,
        headers_len: usize,
        pages: *mut u8,
        pages_len: usize,
        outcomes: *const u8,
        outcomes_len: usize,
        time: u32,
        client: u16,
        id: u32,
        number: u8,
        page: *const u8,
        page_len: usize,
    ) -> Answer;
    fn pagefile_read(
        headers: *mut u8,
        headers_len: usize,
        pages: *mut u8,
        pages_len: usize,
        outcomes: *const u8,
        outcomes_len: usize,
        time: u32,
        id: u32,
        number: u8,
        page: *mut u8,
        page_len: usize,
    ) -> Answer;
    fn pagefile_info(
        headers: *mut u8,
        headers_len: usize,
        pages: *mut u8,
        pages_len: usize,
        outcomes: *const u8,
        outcomes_len: usize,
        time: u32,
        id: u32,
    ) -> Facts;
    fn pagefile_destroy(
        headers: *mut u8,
        headers_len: usize,
        pages: *mut u8,
        pages_len: usize,
        outcomes: *const u8,
        outcomes_len: usize,
        time: u32,
        client: u16,
        id: u32,
    ) -> Answer;
    fn pagefile_set_expiry(
        headers: *mut u8,
        headers_len: usize,
        pages: *mut u8,
        pages_len: usize,
        outcomes: *const u8,
        outcomes_len: usize,
        time: u32,
        client: u16,
        id: u32,
        expires: u32,
    ) -> Answer;
    fn pagefile_scavenge(
        headers: *mut u8,
        headers_len: usize,
        pages: *mut u8,
        pages_len: usize,
        outcomes: *const u8,
        outcomes_len: usize,
        time: u32,
    ) -> Swept;
    fn pagefile_look(
        headers: *const u8,
        headers_len: usize,
        pages: *const u8,
        pages_len: usize,
        time: u32,
        id: u32,
        number: u8,
    ) -> u16;
}

/// Format, and its answer's number.
pub(crate) fn format(headers: &mut [u8], pages: &mut [u8]) -> u8 {
    // SAFETY: as at the head of this module.
    unsafe {
        pagefile_format(
            headers.as_mut_ptr(),
            headers.len(),
            pages.as_mut_ptr(),
            pages.len(),
        )
    }
}

/// Look, and the page's slot, 0 for none.
pub(crate) fn look(headers: &[u8], pages: &[u8], time: u32, id: FileId, number: PageNum) -> u16 {
    // SAFETY: as at the head of this module.
    unsafe {
        pagefile_look(
            headers.as_ptr(),
            headers.len(),
            pages.as_ptr(),
            pages.len(),
            time,
            id.get(),
            number.get(),
        )
    }
}

/// What every request but Format and Look is given; it is used up by one request.
pub(crate) struct Call<'a> {
    pub(crate) headers: &'a mut [u8],
    pub(crate) pages: &'a mut [u8],
    pub(crate) outcomes: &'a [u8],
    pub(crate) time: u32,
}

/// Calls one of the library's functions on the call's buffers, with what else it is given.
macro_rules! on {
    ($call:ident, $function:ident $(, $more:expr)*) => {
        // SAFETY: as at the head of this module.
        unsafe {
            $function(
                $call.headers.as_mut_ptr(),
                $call.headers.len(),
                $call.pages.as_mut_ptr(),
                $call.pages.len(),
                $call.outcomes.as_ptr(),
                $call.outcomes.len(),
                $call.time
                $(, $more)*
            )
        }
    };
}

#[rustfmt::skip] // One line for each call.
impl Call<'_> {
    pub(crate) fn create(self, client: u16, number: PageNum, page: &[u8], expires: u32) -> Answer {
        on!(self, pagefile_create, client, number.get(), page.as_ptr(), page.len(), expires)
    }

    pub(crate) fn write(self, client: u16, id: FileId, number: PageNum, page: &[u8]) -> Answer {
        on!(self, pagefile_write, client, id.get(), number.get(), page.as_ptr(), page.len())
    }

    pub(crate) fn read(self, id: FileId, number: PageNum, page: &mut [u8]) -> Answer {
        on!(self, pagefile_read, id.get(), number.get(), page.as_mut_ptr(), page.len())
    }

    pub(crate) fn info(self, id: FileId) -> Facts {
        on!(self, pagefile_info, id.get())
    }

    pub(crate) fn destroy(self, client: u16, id: FileId) -> Answer {
        on!(self, pagefile_destroy, client, id.get())
    }

    pub(crate) fn set_expiry(self, client: u16, id: FileId, expires: u32) -> Answer {
        on!(self, pagefile_set_expiry, client, id.get(), expires)
    }

    pub(crate) fn scavenge(self) -> Swept {
        on!(self, pagefile_scavenge)
    }
}
