//! The independent Rust as C functions; they are named so that callgrind can find them.

use super::{Answer, Facts, Swept};
use independent::{HeaderTable, Outcomes, Page, PageTable};
use std::slice::{from_raw_parts as lent, from_raw_parts_mut as lent_mut};

fn answer(answer: independent::Answer) -> Answer {
    Answer {
        number: answer.number,
        id: answer.id,
    }
}

fn facts(facts: independent::Facts) -> Facts {
    Facts {
        number: facts.number,
        owner: facts.owner,
        created: facts.created,
        updated: facts.updated,
        expires: facts.expires,
    }
}

fn swept(swept: independent::Swept) -> Swept {
    Swept {
        number: swept.number,
        headers: swept.headers,
        pages: swept.pages,
    }
}

/// The functions at the border; each pointer is valid for its length and no two overlap.
#[rustfmt::skip] // One line for each head and body.
mod border {
    use super::*;

    #[no_mangle]
    #[inline(never)]
    unsafe extern "C" fn rust_format(h: *mut u8, hl: usize, p: *mut u8, pl: usize) -> u8 {
        independent::format(lent_mut(h, hl), lent_mut(p, pl))
    }
    #[no_mangle]
    #[inline(never)]
    unsafe extern "C" fn rust_create(h: *mut u8, hl: usize, p: *mut u8, pl: usize, o: *const u8, ol: usize, time: u32, client: u16, number: u8, page: *const u8, len: usize, expires: u32) -> Answer {
        answer(independent::create(lent_mut(h, hl), lent_mut(p, pl), lent(o, ol), time, client, number, lent(page, len), expires))
    }
    #[no_mangle]
    #[inline(never)]
    unsafe extern "C" fn rust_write(h: *mut u8, hl: usize, p: *mut u8, pl: usize, o: *const u8, ol: usize, time: u32, client: u16, id: u32, number: u8, page: *const u8, len: usize) -> Answer {
        answer(independent::write(lent_mut(h, hl), lent_mut(p, pl), lent(o, ol), time, client, id, number, lent(page, len)))
    }
    #[no_mangle]
    #[inline(never)]
    unsafe extern "C" fn rust_read(h: *mut u8, hl: usize, p: *mut u8, pl: usize, o: *const u8, ol: usize, time: u32, id: u32, number: u8, page: *mut u8, len: usize) -> Answer {
        answer(independent::read(lent_mut(h, hl), lent_mut(p, pl), lent(o, ol), time, id, number, lent_mut(page, len)))
    }
    #[no_mangle]
    #[inline(never)]
    unsafe extern "C" fn rust_info(h: *mut u8, hl: usize, p: *mut u8, pl: usize, o: *const u8, ol: usize, time: u32, id: u32) -> Facts {
        facts(independent::info(lent_mut(h, hl), lent_mut(p, pl), lent(o, ol), time, id))
    }
    #[no_mangle]
    #[inline(never)]
    unsafe extern "C" fn rust_destroy(h: *mut u8, hl: usize, p: *mut u8, pl: usize, o: *const u8, ol: usize, time: u32, client: u16, id: u32) -> Answer {
        answer(independent::destroy(lent_mut(h, hl), lent_mut(p, pl), lent(o, ol), time, client, id))
    }
    #[no_mangle]
    #[inline(never)]
    unsafe extern "C" fn rust_set_expiry(h: *mut u8, hl: usize, p: *mut u8, pl: usize, o: *const u8, ol: usize, time: u32, client: u16, id: u32, expires: u32) -> Answer {
        answer(independent::set_expiry(lent_mut(h, hl), lent_mut(p, pl), lent(o, ol), time, client, id, expires))
    }
    #[no_mangle]
    #[inline(never)]
    unsafe extern "C" fn rust_scavenge(h: *mut u8, hl: usize, p: *mut u8, pl: usize, o: *const u8, ol: usize, time: u32) -> Swept {
        swept(independent::scavenge(lent_mut(h, hl), lent_mut(p, pl), lent(o, ol), time))
    }
    #[no_mangle]
    #[inline(never)]
    unsafe extern "C" fn rust_look(h: *const u8, hl: usize, p: *const u8, pl: usize, time: u32, id: u32, number: u8) -> u16 {
        independent::look(lent(h, hl), lent(p, pl), time, id, number)
    }
}

/// The functions for tables known to be sound.
#[rustfmt::skip] // One line for each head and body.
mod inner {
    use super::*;

    #[no_mangle]
    #[inline(never)]
    extern "C" fn rust_create_sound(h: &mut HeaderTable, p: &mut PageTable, o: &Outcomes, time: u32, client: u16, number: u8, page: &Page, expires: u32) -> Answer {
        answer(independent::create_sound(h, p, o, time, client, number, page, expires))
    }
    #[no_mangle]
    #[inline(never)]
    extern "C" fn rust_write_sound(h: &mut HeaderTable, p: &mut PageTable, o: &Outcomes, time: u32, client: u16, id: u32, number: u8, page: &Page) -> Answer {
        answer(independent::write_sound(h, p, o, time, client, id, number, page))
    }
    #[no_mangle]
    #[inline(never)]
    extern "C" fn rust_read_sound(h: &mut HeaderTable, p: &mut PageTable, o: &Outcomes, time: u32, id: u32, number: u8, page: &mut Page) -> Answer {
        answer(independent::read_sound(h, p, o, time, id, number, page))
    }
    #[no_mangle]
    #[inline(never)]
    extern "C" fn rust_info_sound(h: &mut HeaderTable, p: &mut PageTable, o: &Outcomes, time: u32, id: u32) -> Facts {
        facts(independent::info_sound(h, p, o, time, id))
    }
    #[no_mangle]
    #[inline(never)]
    extern "C" fn rust_destroy_sound(h: &mut HeaderTable, p: &mut PageTable, o: &Outcomes, time: u32, client: u16, id: u32) -> Answer {
        answer(independent::destroy_sound(h, p, o, time, client, id))
    }
    #[no_mangle]
    #[inline(never)]
    extern "C" fn rust_set_expiry_sound(h: &mut HeaderTable, p: &mut PageTable, o: &Outcomes, time: u32, client: u16, id: u32, expires: u32) -> Answer {
        answer(independent::set_expiry_sound(h, p, o, time, client, id, expires))
    }
    #[no_mangle]
    #[inline(never)]
    extern "C" fn rust_scavenge_sound(h: &mut HeaderTable, p: &mut PageTable, o: &Outcomes, time: u32) -> Swept {
        swept(independent::scavenge_sound(h, p, o, time))
    }
    #[no_mangle]
    #[inline(never)]
    extern "C" fn rust_look_sound(h: &HeaderTable, time: u32, id: u32, number: u8) -> u16 {
        independent::look_sound(h, time, id, number)
    }
}
