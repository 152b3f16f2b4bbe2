//! The buffers lent to each call, and the tables that are measured.

use independent::{
    HeaderTable, Outcomes, Page, PageTable, HEADERS_LEN, OUTCOMES_LEN, PAGES_LEN, PAGE_LEN,
};

/// The clock of all tables measured.
pub const NOW: u32 = 10;
/// When all files in them expire.
pub const EXPIRES: u32 = 1000;
/// Who owns all files in them.
pub const CLIENT: u16 = 7;
/// How many pages each file has, at the numbers from 0 on.
pub const PAGES: u8 = 4;

/// What a call is lent; aligned so that counts do not hang on where it happens to lie.
#[derive(Clone, PartialEq, Eq)]
#[repr(align(64))]
pub struct Buffers {
    pub headers: HeaderTable,
    pub pages: PageTable,
    pub outcomes: Outcomes,
    pub page: Page,
}

/// How full the tables are.
#[derive(Clone, Copy, PartialEq, Eq)]
pub enum Fill {
    Empty,
    Half,
    Full,
}

impl Fill {
    /// All three, in the order of the report.
    pub const ALL: [Fill; 3] = [Fill::Empty, Fill::Half, Fill::Full];

    /// The number of files.
    pub fn files(self) -> u32 {
        match self {
            Fill::Empty => 0,
            Fill::Half => 32,
            Fill::Full => 64,
        }
    }

    /// What the report calls it.
    pub fn name(self) -> &'static str {
        match self {
            Fill::Empty => "empty",
            Fill::Half => "half-full",
            Fill::Full => "full",
        }
    }

    /// The number of page slots in use.
    pub fn slots(self) -> u32 {
        self.files() * u32::from(PAGES)
    }

    /// The id of the file in the last header slot in use: it takes the longest to find.
    pub fn last_id(self) -> u32 {
        // Each page took a request, and each request an id.
        self.slots()
    }

    /// Tables with that many files.
    pub fn buffers(self) -> Box<Buffers> {
        let mut buffers = Box::new(Buffers {
            headers: [0; HEADERS_LEN],
            pages: [0; PAGES_LEN],
            outcomes: [0; OUTCOMES_LEN],
            page: [0x41; PAGE_LEN],
        });
        let Buffers {
            headers: h,
            pages: p,
            outcomes: o,
            page,
        } = &mut *buffers;
        independent::format(h, p);
        // On empty tables too, this brings the clock to now.
        independent::scavenge(h, p, o, NOW);
        for _ in 0..self.files() {
            let mut answer = independent::create(h, p, o, NOW, CLIENT, 0, page, EXPIRES);
            for number in 1..PAGES {
                answer = independent::write(h, p, o, NOW, CLIENT, answer.id, number, page);
            }
            assert_eq!(answer.number, 0, "the tables could not be filled");
        }
        buffers
    }
}
