//! Calls of the proved library's C functions: the one place with unsafe code.

use crate::case::{Case, Reply};
use crate::guarded::Guarded;
use linked::{library, Answer, Facts, Kind, Swept};

/// Calls the library on these buffers.
#[rustfmt::skip] // One line for each call.
pub fn call(case: &Case, buffers: &mut [Guarded; 4]) -> Reply {
    let &Case { time, client, id, number, expires, .. } = case;
    let [(h, hl), (p, pl), (o, ol), (page, len)] = buffers.each_mut().map(Guarded::lend);
    let answer = |answer: Answer| Reply::new(answer.number, [answer.id]);
    // SAFETY: each pointer is valid for its length, or null with length 0, and no two overlap.
    unsafe {
        match case.kind {
            Kind::Format => Reply::new(library::format(h, hl, p, pl), []),
            Kind::Create => answer(library::create(h, hl, p, pl, o, ol, time, client, number, page, len, expires)),
            Kind::Write => answer(library::write(h, hl, p, pl, o, ol, time, client, id, number, page, len)),
            Kind::Read => answer(library::read(h, hl, p, pl, o, ol, time, id, number, page, len)),
            Kind::Info => facts(library::info(h, hl, p, pl, o, ol, time, id)),
            Kind::Destroy => answer(library::destroy(h, hl, p, pl, o, ol, time, client, id)),
            Kind::SetExpiry => answer(library::set_expiry(h, hl, p, pl, o, ol, time, client, id, expires)),
            Kind::Scavenge => swept(library::scavenge(h, hl, p, pl, o, ol, time)),
            Kind::Look => Reply::new(0, [library::look(h, hl, p, pl, time, id, number).into()]),
        }
    }
}

fn facts(facts: Facts) -> Reply {
    let times = [facts.created, facts.updated, facts.expires];
    Reply::new(
        facts.number,
        [facts.owner.into(), times[0], times[1], times[2]],
    )
}

fn swept(swept: Swept) -> Reply {
    Reply::new(swept.number, [swept.headers, swept.pages])
}
