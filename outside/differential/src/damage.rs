//! Damaged tables: one clause of one rule broken alone, and damage without a plan.

use crate::draft::{Draft, Header, Slot, MIXED};
use crate::layout;
use crate::random::Random;
use independent::{sound, FILE_PAGES, HEADER_SLOTS, LAST_ID, PAGE_SLOTS};

/// Breaks one clause in a draft; none where the draft has nothing to break it in.
type Break = fn(&mut Draft, &mut Random) -> Option<()>;
/// Breaks one clause in packed tables.
type BreakBytes = fn(&mut [u8], &mut [u8], &mut Random) -> Option<()>;

/// The clauses of the rules that are broken in a draft.
const BREAKS: [Break; 16] = [
    next_id_zero,
    next_id_high,
    id_zero,
    id_not_issued,
    id_shared,
    created_late,
    updated_after_clock,
    updated_after_expiry,
    page_id_high_in_expired,
    page_id_high_in_live,
    named_slot_not_in_use,
    named_slot_early,
    named_slot_expired,
    named_twice_within,
    named_twice_across,
    all_headers_one_id,
];

/// The clauses of the rules that are broken in packed tables, and damage without a plan.
const BYTE_BREAKS: [BreakBytes; 4] = [spare_bit, free_header_bit, free_slot_bit, slot_gap_bit];

/// Damage that may leave the tables sound.
const ACCIDENTS: [BreakBytes; 5] = [header_bit, any_bit, random_bytes, all_ones, random_headers];

/// How many kinds of damage there are.
pub const DAMAGES: usize = BREAKS.len() + BYTE_BREAKS.len() + ACCIDENTS.len();

/// Writes tables with this kind of damage.
pub fn damaged(random: &mut Random, damage: usize, headers: &mut Vec<u8>, pages: &mut Vec<u8>) {
    while try_damage(random, damage, headers, pages).is_none() {}
    let planned = damage < BREAKS.len() + BYTE_BREAKS.len();
    assert!(
        !planned || !sound(headers, pages),
        "damage {damage} broke nothing"
    );
}

fn try_damage(
    random: &mut Random,
    damage: usize,
    headers: &mut Vec<u8>,
    pages: &mut Vec<u8>,
) -> Option<()> {
    let clock = random.within(50, 100);
    let mut draft = Draft::random(random, MIXED, clock);
    match BREAKS.get(damage) {
        Some(broken) => {
            broken(&mut draft, random)?;
            draft.pack(headers, pages);
        }
        None => {
            draft.pack(headers, pages);
            let mut rest = BYTE_BREAKS.iter().chain(&ACCIDENTS);
            rest.nth(damage - BREAKS.len())?(headers, pages, random)?;
        }
    }
    Some(())
}

/// A header in use for which the condition holds.
fn some_header<'a>(
    draft: &'a mut Draft,
    random: &mut Random,
    condition: impl Fn(&Header) -> bool,
) -> Option<&'a mut Header> {
    let fits = |header: &&mut Option<Header>| header.as_ref().is_some_and(&condition);
    let mut headers: Vec<_> = draft.headers.iter_mut().filter(fits).flatten().collect();
    if headers.is_empty() {
        return None;
    }
    Some(headers.swap_remove(random.below(headers.len())))
}

/// A live header that names a page, and that page id.
fn some_named_page(draft: &mut Draft, random: &mut Random) -> Option<(Header, u16)> {
    let clock = draft.clock;
    let named = |header: &Header| header.expires > clock && header.page_ids != [0; FILE_PAGES];
    let header = some_header(draft, random, named)?.clone();
    let page_ids: Vec<u16> = header.page_ids.into_iter().filter(|&id| id != 0).collect();
    Some((header, random.pick(&page_ids)))
}

/// The slot that a live header names.
fn named_slot(draft: &mut Draft, page_id: u16) -> &mut Option<Slot> {
    &mut draft.slots[usize::from(page_id) - 1]
}

// S1.

fn next_id_zero(draft: &mut Draft, _: &mut Random) -> Option<()> {
    // With a header in use, S2 would be broken as well.
    draft.headers.fill(None);
    draft.next_id = 0;
    Some(())
}

fn next_id_high(draft: &mut Draft, random: &mut Random) -> Option<()> {
    let low = LAST_ID + 2;
    let any = random.word() | low;
    draft.next_id = random.pick(&[low, low, u32::MAX, any]);
    Some(())
}

fn spare_bit(headers: &mut [u8], _: &mut [u8], random: &mut Random) -> Option<()> {
    flip(headers, 64 + random.end_or_below(224));
    Some(())
}

// S2.

fn free_header_bit(headers: &mut [u8], _: &mut [u8], random: &mut Random) -> Option<()> {
    let record = &mut headers[layout::record(random.end_or_below(HEADER_SLOTS))];
    let free = layout::get(record, layout::IN_USE) == 0;
    free.then(|| flip(record, 1 + random.end_or_below(287)))
}

fn id_zero(draft: &mut Draft, random: &mut Random) -> Option<()> {
    some_header(draft, random, |_| true)?.id = 0;
    Some(())
}

fn id_not_issued(draft: &mut Draft, random: &mut Random) -> Option<()> {
    let next_id = draft.next_id;
    let later = random.within(next_id, LAST_ID);
    some_header(draft, random, |_| true)?.id = random.pick(&[next_id, next_id, LAST_ID, later]);
    Some(())
}

fn id_shared(draft: &mut Draft, random: &mut Random) -> Option<()> {
    let id = some_header(draft, random, |_| true)?.id;
    some_header(draft, random, |other| other.id != id)?.id = id;
    Some(())
}

fn all_headers_one_id(draft: &mut Draft, random: &mut Random) -> Option<()> {
    let id = some_header(draft, random, |_| true)?.id;
    some_header(draft, random, |other| other.id != id)?;
    draft
        .headers
        .iter_mut()
        .flatten()
        .for_each(|header| header.id = id);
    Some(())
}

fn created_late(draft: &mut Draft, random: &mut Random) -> Option<()> {
    let header = some_header(draft, random, |_| true)?;
    let later = header.updated + 1;
    header.created = random.pick(&[later, later, u32::MAX]);
    Some(())
}

fn updated_after_clock(draft: &mut Draft, random: &mut Random) -> Option<()> {
    let clock = draft.clock;
    let header = some_header(draft, random, |header| header.expires > clock)?;
    header.updated = random.pick(&[clock + 1, header.expires]);
    Some(())
}

fn updated_after_expiry(draft: &mut Draft, random: &mut Random) -> Option<()> {
    // In a live header, updated after expiry would be after the clock as well.
    let clock = draft.clock;
    let fits = |header: &Header| header.expires <= clock && header.updated > 0;
    let header = some_header(draft, random, fits)?;
    header.expires = random.pick(&[header.updated - 1, 0]);
    Some(())
}

fn page_id_high_in_expired(draft: &mut Draft, random: &mut Random) -> Option<()> {
    let clock = draft.clock;
    let header = some_header(draft, random, |header| header.expires <= clock)?;
    header.page_ids[random.below(FILE_PAGES)] = high_page_id(random);
    Some(())
}

fn page_id_high_in_live(draft: &mut Draft, random: &mut Random) -> Option<()> {
    let clock = draft.clock;
    let header = some_header(draft, random, |header| header.expires > clock)?;
    header.page_ids[random.below(FILE_PAGES)] = high_page_id(random);
    Some(())
}

fn high_page_id(random: &mut Random) -> u16 {
    let any = random.within(257, 511) as u16;
    random.pick(&[257, 511, any])
}

// S3.

fn free_slot_bit(_: &mut [u8], pages: &mut [u8], random: &mut Random) -> Option<()> {
    let slot = &mut pages[layout::slot(random.end_or_below(PAGE_SLOTS))];
    let free = layout::get(slot, layout::IN_USE) == 0;
    free.then(|| flip(slot, 1 + random.end_or_below(1023)))
}

fn slot_gap_bit(_: &mut [u8], pages: &mut [u8], random: &mut Random) -> Option<()> {
    let slot = &mut pages[layout::slot(random.end_or_below(PAGE_SLOTS))];
    let in_use = layout::get(slot, layout::IN_USE) == 1;
    let bit = layout::SLOT_GAP.start + random.end_or_below(layout::SLOT_GAP.len());
    in_use.then(|| flip(slot, bit))
}

// S4.

fn named_slot_not_in_use(draft: &mut Draft, random: &mut Random) -> Option<()> {
    let (_, page_id) = some_named_page(draft, random)?;
    *named_slot(draft, page_id) = None;
    Some(())
}

fn named_slot_early(draft: &mut Draft, random: &mut Random) -> Option<()> {
    let (header, page_id) = some_named_page(draft, random)?;
    named_slot(draft, page_id).as_mut()?.expires = header.expires - 1;
    Some(())
}

fn named_slot_expired(draft: &mut Draft, random: &mut Random) -> Option<()> {
    let (_, page_id) = some_named_page(draft, random)?;
    let expires = random.pick(&[draft.clock, 0]);
    named_slot(draft, page_id).as_mut()?.expires = expires;
    Some(())
}

// S5.

fn named_twice_within(draft: &mut Draft, random: &mut Random) -> Option<()> {
    let (header, page_id) = some_named_page(draft, random)?;
    let from = header.page_ids.iter().position(|&other| other == page_id)?;
    let to = (from + 1 + random.below(FILE_PAGES - 1)) % FILE_PAGES;
    some_header(draft, random, |other| other.id == header.id)?.page_ids[to] = page_id;
    Some(())
}

fn named_twice_across(draft: &mut Draft, random: &mut Random) -> Option<()> {
    let (header, page_id) = some_named_page(draft, random)?;
    // The slot outlives both headers, so that S4 holds.
    named_slot(draft, page_id).as_mut()?.expires = u32::MAX;
    let clock = draft.clock;
    let other = |other: &Header| other.expires > clock && other.id != header.id;
    some_header(draft, random, other)?.page_ids[random.below(FILE_PAGES)] = page_id;
    Some(())
}

// Damage without a plan.

fn header_bit(headers: &mut [u8], _: &mut [u8], random: &mut Random) -> Option<()> {
    flip(headers, random.below(8 * headers.len()));
    Some(())
}

fn any_bit(headers: &mut [u8], pages: &mut [u8], random: &mut Random) -> Option<()> {
    let bit = random.below(8 * (headers.len() + pages.len()));
    match bit.checked_sub(8 * headers.len()) {
        Some(bit) => flip(pages, bit),
        None => flip(headers, bit),
    }
    Some(())
}

fn random_bytes(headers: &mut [u8], pages: &mut [u8], random: &mut Random) -> Option<()> {
    random.fill(headers);
    random.fill(pages);
    Some(())
}

fn all_ones(headers: &mut [u8], pages: &mut [u8], random: &mut Random) -> Option<()> {
    match random.below(3) {
        0 => headers.fill(0xff),
        1 => pages.fill(0xff),
        _ => {
            headers.fill(0xff);
            pages.fill(0xff);
        }
    }
    Some(())
}

fn random_headers(headers: &mut [u8], _: &mut [u8], random: &mut Random) -> Option<()> {
    random.fill(&mut headers[layout::RECORD_LEN..]);
    Some(())
}

fn flip(bytes: &mut [u8], bit: usize) {
    bytes[bit / 8] ^= 0x80 >> (bit % 8);
}
