//! One call of the library: its request, its arguments and the buffers lent to it.

use independent::{HEADERS_LEN, OUTCOMES_LEN, PAGES_LEN, PAGE_LEN};
use linked::Kind;

/// The answer numbers that the request can give; Look's are those of Read on an all-zero list.
pub fn answers(kind: Kind) -> &'static [u8] {
    match kind {
        Kind::Format => &[0, 1],
        Kind::Create => &[0, 1, 2, 3, 7, 8, 9, 10],
        Kind::Write => &[0, 1, 2, 3, 4, 5, 7, 8, 9, 10],
        Kind::Read => &[0, 1, 2, 3, 4, 6, 9, 10],
        Kind::Info => &[0, 1, 2, 3, 4, 9, 10],
        Kind::Destroy => &[0, 1, 2, 3, 4, 5, 9, 10],
        Kind::SetExpiry => &[0, 1, 2, 3, 4, 5, 8, 9, 10],
        Kind::Scavenge => &[0, 1, 2, 3, 9, 10],
        Kind::Look => &[0, 1, 2, 3, 4, 6],
    }
}

/// The buffers that the request is lent.
pub fn buffers(kind: Kind) -> &'static [usize] {
    match kind {
        Kind::Format | Kind::Look => &[HEADERS, PAGES],
        Kind::Create | Kind::Write | Kind::Read => &[HEADERS, PAGES, OUTCOMES, PAGE],
        _ => &[HEADERS, PAGES, OUTCOMES],
    }
}

/// The header table's place among the buffers.
pub const HEADERS: usize = 0;
/// The page table's place among the buffers.
pub const PAGES: usize = 1;
/// The outcome list's place among the buffers.
pub const OUTCOMES: usize = 2;
/// The lent page's place among the buffers.
pub const PAGE: usize = 3;

/// What the buffers are called, in their order.
pub const BUFFER_NAMES: [&str; 4] = ["headers", "pages", "outcomes", "page"];
/// The lengths that the buffers must have, in their order.
pub const LENGTHS: [usize; 4] = [HEADERS_LEN, PAGES_LEN, OUTCOMES_LEN, PAGE_LEN];

/// One buffer as it is lent.
#[derive(Clone, Debug, PartialEq, Eq)]
pub struct Lent {
    pub bytes: Vec<u8>,
    /// Lent as a null pointer; then there are no bytes.
    pub null: bool,
}

impl Lent {
    /// A null pointer with length 0.
    pub fn null() -> Lent {
        Lent {
            bytes: Vec::new(),
            null: true,
        }
    }
}

/// One call; a request leaves out the arguments and buffers that it does not have.
#[derive(Clone, Debug, PartialEq, Eq)]
pub struct Case {
    pub kind: Kind,
    pub time: u32,
    pub client: u16,
    pub id: u32,
    pub number: u8,
    pub expires: u32,
    /// How far the buffers lie from an aligned address.
    pub shift: usize,
    pub lent: [Lent; 4],
}

impl Case {
    /// A case with all numbers 0 and all buffers zero.
    pub fn zero() -> Case {
        Case {
            kind: Kind::Format,
            time: 0,
            client: 0,
            id: 0,
            number: 0,
            expires: 0,
            shift: 0,
            lent: LENGTHS.map(|length| Lent {
                bytes: vec![0; length],
                null: false,
            }),
        }
    }
}

/// What a call answers: its number, and the numbers that its answer has besides, in their order.
///
/// Look answers number 0 and the page slot.
#[derive(Clone, Copy, Debug, PartialEq, Eq)]
pub struct Reply {
    pub number: u8,
    pub more: [u32; 4],
}

impl Reply {
    /// A reply with up to four more numbers.
    pub fn new<const N: usize>(number: u8, numbers: [u32; N]) -> Reply {
        let mut more = [0; 4];
        more[..N].copy_from_slice(&numbers);
        Reply { number, more }
    }
}
