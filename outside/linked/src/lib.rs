//! The proved library's C functions as the header declares them, for the programs that call it raw.

#![deny(missing_docs)]

/// The C functions by name.
#[allow(missing_docs)] // The functions are the header's.
#[derive(Clone, Copy, Debug, PartialEq, Eq)]
pub enum Kind {
    Format,
    Create,
    Write,
    Read,
    Info,
    Destroy,
    SetExpiry,
    Scavenge,
    Look,
}

impl Kind {
    /// All functions, each in the place of its number.
    pub const ALL: [Kind; 9] = [
        Kind::Format,
        Kind::Create,
        Kind::Write,
        Kind::Read,
        Kind::Info,
        Kind::Destroy,
        Kind::SetExpiry,
        Kind::Scavenge,
        Kind::Look,
    ];

    /// What the name of the C function ends with.
    pub fn name(self) -> &'static str {
        match self {
            Kind::Format => "format",
            Kind::Create => "create",
            Kind::Write => "write",
            Kind::Read => "read",
            Kind::Info => "info",
            Kind::Destroy => "destroy",
            Kind::SetExpiry => "set_expiry",
            Kind::Scavenge => "scavenge",
            Kind::Look => "look",
        }
    }
}

/// `pagefile_answer` of the C header.
#[allow(missing_docs)] // The fields are the header's.
#[repr(C)]
pub struct Answer {
    pub number: u8,
    pub id: u32,
}

/// `pagefile_facts` of the C header.
#[allow(missing_docs)] // The fields are the header's.
#[repr(C)]
pub struct Facts {
    pub number: u8,
    pub owner: u16,
    pub created: u32,
    pub updated: u32,
    pub expires: u32,
}

/// `pagefile_swept` of the C header.
#[allow(missing_docs)] // The fields are the header's.
#[repr(C)]
pub struct Swept {
    pub number: u8,
    pub headers: u32,
    pub pages: u32,
}

/// Declares the C functions of an implementation, in a module of its own; their names begin with the prefix.
#[macro_export]
macro_rules! border {
    ($module:ident, $prefix:literal) => {
        /// The C functions; each pointer has to be valid for its length, and no two may overlap.
        #[allow(missing_docs)] // The functions are the header's.
        #[rustfmt::skip] // One line for each C declaration.
        pub mod $module {
            use $crate::{Answer, Facts, Swept};
            extern "C" {
                #[link_name = concat!($prefix, "_format")]
                pub fn format(h: *mut u8, hl: usize, p: *mut u8, pl: usize) -> u8;
                #[link_name = concat!($prefix, "_create")]
                pub fn create(h: *mut u8, hl: usize, p: *mut u8, pl: usize, o: *const u8, ol: usize, time: u32, client: u16, number: u8, page: *const u8, len: usize, expires: u32) -> Answer;
                #[link_name = concat!($prefix, "_write")]
                pub fn write(h: *mut u8, hl: usize, p: *mut u8, pl: usize, o: *const u8, ol: usize, time: u32, client: u16, id: u32, number: u8, page: *const u8, len: usize) -> Answer;
                #[link_name = concat!($prefix, "_read")]
                pub fn read(h: *mut u8, hl: usize, p: *mut u8, pl: usize, o: *const u8, ol: usize, time: u32, id: u32, number: u8, page: *mut u8, len: usize) -> Answer;
                #[link_name = concat!($prefix, "_info")]
                pub fn info(h: *mut u8, hl: usize, p: *mut u8, pl: usize, o: *const u8, ol: usize, time: u32, id: u32) -> Facts;
                #[link_name = concat!($prefix, "_destroy")]
                pub fn destroy(h: *mut u8, hl: usize, p: *mut u8, pl: usize, o: *const u8, ol: usize, time: u32, client: u16, id: u32) -> Answer;
                #[link_name = concat!($prefix, "_set_expiry")]
                pub fn set_expiry(h: *mut u8, hl: usize, p: *mut u8, pl: usize, o: *const u8, ol: usize, time: u32, client: u16, id: u32, expires: u32) -> Answer;
                #[link_name = concat!($prefix, "_scavenge")]
                pub fn scavenge(h: *mut u8, hl: usize, p: *mut u8, pl: usize, o: *const u8, ol: usize, time: u32) -> Swept;
                #[link_name = concat!($prefix, "_look")]
                pub fn look(h: *const u8, hl: usize, p: *const u8, pl: usize, time: u32, id: u32, number: u8) -> u16;
            }
        }
    };
}

border!(library, "pagefile");
