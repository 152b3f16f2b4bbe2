//! All three implementations behind the same C functions: the one place with unsafe code.
//!
//! The independent Rust is given C functions of its own, so that all three are called alike.

mod exported;

use crate::request::{Reply, Request};
use crate::tables::Buffers;
use linked::{border, library, Answer, Facts, Kind, Swept};

/// Whose code answers.
#[derive(Clone, Copy, Debug, PartialEq, Eq)]
pub enum Implementation {
    Library,
    Rust,
    PlainC,
}

impl Implementation {
    /// All three, in the order of the report's columns.
    pub const ALL: [Implementation; 3] = [
        Implementation::Library,
        Implementation::Rust,
        Implementation::PlainC,
    ];

    /// What the names of its C functions begin with.
    pub fn prefix(self) -> &'static str {
        match self {
            Implementation::Library => "pagefile",
            Implementation::Rust => "rust",
            Implementation::PlainC => "plain_c",
        }
    }
}

impl From<Answer> for Reply {
    fn from(answer: Answer) -> Reply {
        Reply::new(answer.number, [answer.id, 0, 0, 0])
    }
}

impl From<Facts> for Reply {
    fn from(facts: Facts) -> Reply {
        let owner = facts.owner.into();
        Reply::new(
            facts.number,
            [owner, facts.created, facts.updated, facts.expires],
        )
    }
}

impl From<Swept> for Reply {
    fn from(swept: Swept) -> Reply {
        Reply::new(swept.number, [swept.headers, swept.pages, 0, 0])
    }
}

border!(rust, "rust");
border!(plain_c, "plain_c");

/// Declares the C functions of one implementation for tables known to be sound.
macro_rules! inner {
    ($module:ident, $prefix:literal) => {
        #[rustfmt::skip] // One line for each C declaration.
        mod $module {
            use super::{Answer, Facts, Swept};
            extern "C" {
                #[link_name = concat!($prefix, "_create_sound")]
                pub fn create(h: *mut u8, p: *mut u8, o: *const u8, time: u32, client: u16, number: u8, page: *const u8, expires: u32) -> Answer;
                #[link_name = concat!($prefix, "_write_sound")]
                pub fn write(h: *mut u8, p: *mut u8, o: *const u8, time: u32, client: u16, id: u32, number: u8, page: *const u8) -> Answer;
                #[link_name = concat!($prefix, "_read_sound")]
                pub fn read(h: *mut u8, p: *mut u8, o: *const u8, time: u32, id: u32, number: u8, page: *mut u8) -> Answer;
                #[link_name = concat!($prefix, "_info_sound")]
                pub fn info(h: *mut u8, p: *mut u8, o: *const u8, time: u32, id: u32) -> Facts;
                #[link_name = concat!($prefix, "_destroy_sound")]
                pub fn destroy(h: *mut u8, p: *mut u8, o: *const u8, time: u32, client: u16, id: u32) -> Answer;
                #[link_name = concat!($prefix, "_set_expiry_sound")]
                pub fn set_expiry(h: *mut u8, p: *mut u8, o: *const u8, time: u32, client: u16, id: u32, expires: u32) -> Answer;
                #[link_name = concat!($prefix, "_scavenge_sound")]
                pub fn scavenge(h: *mut u8, p: *mut u8, o: *const u8, time: u32) -> Swept;
                #[link_name = concat!($prefix, "_look_sound")]
                pub fn look(h: *const u8, time: u32, id: u32, number: u8) -> u16;
            }
        }
    };
}

inner!(rust_sound, "rust");
inner!(plain_c_sound, "plain_c");

extern "C" {
    fn plain_c_pass(headers: *const u8, pages: *const u8) -> u8;
    fn plain_c_pass_unrolled(headers: *const u8, pages: *const u8) -> u8;
}

/// A vectorised pass over both tables.
#[derive(Clone, Copy)]
pub enum Pass {
    /// As the compiler makes it of a plain loop.
    Plain,
    /// The same loop unrolled.
    Unrolled,
}

impl Pass {
    /// Both, in the order of the report.
    pub const ALL: [Pass; 2] = [Pass::Plain, Pass::Unrolled];

    /// The name of its C function.
    pub fn function(self) -> &'static str {
        match self {
            Pass::Plain => "plain_c_pass",
            Pass::Unrolled => "plain_c_pass_unrolled",
        }
    }
}

/// The bits of all bytes of both tables together; not inlined, so that callgrind finds it.
#[inline(never)]
pub fn pass(pass: Pass, buffers: &Buffers) -> u8 {
    let (headers, pages) = (buffers.headers.as_ptr(), buffers.pages.as_ptr());
    // SAFETY: both tables have the lengths that a pass goes over.
    unsafe {
        match pass {
            Pass::Plain => plain_c_pass(headers, pages),
            Pass::Unrolled => plain_c_pass_unrolled(headers, pages),
        }
    }
}

/// Matches a request to the functions of one implementation at the border.
macro_rules! ask {
    ($module:ident, $request:ident, $buffers:ident) => {{
        let &Request {
            kind,
            time,
            client,
            id,
            number,
            expires,
            ..
        } = $request;
        let Buffers {
            headers,
            pages,
            outcomes,
            page,
        } = $buffers;
        let (h, hl, p, pl) = (
            headers.as_mut_ptr(),
            headers.len(),
            pages.as_mut_ptr(),
            pages.len(),
        );
        let (o, ol, page, len) = (
            outcomes.as_ptr(),
            outcomes.len(),
            page.as_mut_ptr(),
            page.len(),
        );
        match kind {
            Kind::Format => Reply::new($module::format(h, hl, p, pl), [0; 4]),
            Kind::Create => $module::create(
                h, hl, p, pl, o, ol, time, client, number, page, len, expires,
            )
            .into(),
            Kind::Write => {
                $module::write(h, hl, p, pl, o, ol, time, client, id, number, page, len).into()
            }
            Kind::Read => $module::read(h, hl, p, pl, o, ol, time, id, number, page, len).into(),
            Kind::Info => $module::info(h, hl, p, pl, o, ol, time, id).into(),
            Kind::Destroy => $module::destroy(h, hl, p, pl, o, ol, time, client, id).into(),
            Kind::SetExpiry => {
                $module::set_expiry(h, hl, p, pl, o, ol, time, client, id, expires).into()
            }
            Kind::Scavenge => $module::scavenge(h, hl, p, pl, o, ol, time).into(),
            Kind::Look => Reply::new(
                0,
                [
                    $module::look(h, hl, p, pl, time, id, number).into(),
                    0,
                    0,
                    0,
                ],
            ),
        }
    }};
}

/// Makes the request at the border of an implementation; not inlined, so that callgrind finds it.
#[inline(never)]
pub fn call(implementation: Implementation, request: &Request, buffers: &mut Buffers) -> Reply {
    // SAFETY: each pointer is valid for its length, and no two overlap.
    unsafe {
        match implementation {
            Implementation::Library => ask!(library, request, buffers),
            Implementation::Rust => ask!(rust, request, buffers),
            Implementation::PlainC => ask!(plain_c, request, buffers),
        }
    }
}

/// Matches a request to the functions of one implementation for tables known to be sound.
macro_rules! ask_inner {
    ($module:ident, $request:ident, $buffers:ident) => {{
        let &Request {
            kind,
            time,
            client,
            id,
            number,
            expires,
            ..
        } = $request;
        let (h, p) = ($buffers.headers.as_mut_ptr(), $buffers.pages.as_mut_ptr());
        let (o, page) = ($buffers.outcomes.as_ptr(), $buffers.page.as_mut_ptr());
        Some(match kind {
            Kind::Format => return None,
            Kind::Create => $module::create(h, p, o, time, client, number, page, expires).into(),
            Kind::Write => $module::write(h, p, o, time, client, id, number, page).into(),
            Kind::Read => $module::read(h, p, o, time, id, number, page).into(),
            Kind::Info => $module::info(h, p, o, time, id).into(),
            Kind::Destroy => $module::destroy(h, p, o, time, client, id).into(),
            Kind::SetExpiry => $module::set_expiry(h, p, o, time, client, id, expires).into(),
            Kind::Scavenge => $module::scavenge(h, p, o, time).into(),
            Kind::Look => Reply::new(0, [$module::look(h, time, id, number).into(), 0, 0, 0]),
        })
    }};
}

/// Makes the request on tables known to be sound, where the implementation has a function for it.
#[inline(never)]
pub fn call_inner(
    implementation: Implementation,
    request: &Request,
    buffers: &mut Buffers,
) -> Option<Reply> {
    // SAFETY: each pointer is valid for the length that the document gives its buffer.
    unsafe {
        match implementation {
            Implementation::Library => None,
            Implementation::Rust => ask_inner!(rust_sound, request, buffers),
            Implementation::PlainC => ask_inner!(plain_c_sound, request, buffers),
        }
    }
}
