//! Makes one call on both implementations and compares all that they leave.

use crate::boundary;
use crate::case::{Case, Reply, BUFFER_NAMES, HEADERS, PAGES};
use crate::guarded::{Guarded, GUARD_LEN};
use independent::{OUTCOMES_LEN, PAGE_LEN};
use linked::Kind;

/// The buffers that both implementations work on.
pub struct Bench {
    library: [Guarded; 4],
    expected: [Vec<u8>; 4],
    /// Tables on which Read tells what Look ought to answer.
    looked: [Vec<u8>; 2],
}

/// What the library did and what was expected of it.
#[derive(Clone, Copy)]
pub struct Replies {
    pub library: Reply,
    pub expected: Reply,
}

impl Bench {
    /// A bench with empty buffers.
    pub fn new() -> Bench {
        Bench {
            library: std::array::from_fn(|_| Guarded::new()),
            expected: Default::default(),
            looked: Default::default(),
        }
    }

    /// Makes the call on both implementations, each on its own copy of the buffers.
    pub fn run(&mut self, case: &Case) -> Replies {
        for (buffer, lent) in case.lent.iter().enumerate() {
            self.library[buffer].fill(lent, case.shift);
            self.expected[buffer].clear();
            self.expected[buffer].extend_from_slice(&lent.bytes);
        }
        Replies {
            library: boundary::call(case, &mut self.library),
            expected: expect(case, &mut self.expected),
        }
    }

    /// Whether the call just made left the same with both, and all guards intact.
    pub fn agrees(&self, replies: Replies) -> bool {
        let mut buffers = self.library.iter().zip(&self.expected);
        replies.library == replies.expected
            && buffers.all(|(library, expected)| library.bytes() == expected && library.intact())
    }

    /// Each way in which the call just made left something else than expected.
    pub fn differences(&self, replies: Replies) -> Vec<String> {
        let mut found = Vec::new();
        if replies.library != replies.expected {
            let (library, expected) = (replies.library, replies.expected);
            found.push(format!(
                "answer {} {:?}, expected {} {:?}",
                library.number, library.more, expected.number, expected.more
            ));
        }
        for ((library, expected), name) in self.library.iter().zip(&self.expected).zip(BUFFER_NAMES)
        {
            let mut bytes = library.bytes().iter().zip(expected);
            if let Some(at) = bytes.position(|(library, expected)| library != expected) {
                found.push(format!(
                    "{name}: byte {at} is {:02x}, expected {:02x}",
                    library.bytes()[at],
                    expected[at]
                ));
            }
            if !library.intact() {
                found.push(format!(
                    "{name}: the {GUARD_LEN} guard bytes around it changed"
                ));
            }
        }
        found
    }

    /// Leaves the tables in the case as the call just made left them.
    pub fn keep(&mut self, case: &mut Case) {
        for buffer in [HEADERS, PAGES] {
            std::mem::swap(&mut case.lent[buffer].bytes, &mut self.expected[buffer]);
        }
    }

    /// The number to count the call just made under: for Look, that of Read on an all-zero list.
    pub fn number(&mut self, case: &Case, replies: Replies) -> u8 {
        if case.kind != Kind::Look {
            return replies.expected.number;
        }
        for buffer in [HEADERS, PAGES] {
            self.looked[buffer].clone_from(&case.lent[buffer].bytes);
        }
        let [headers, pages] = &mut self.looked;
        let mut page = [0; PAGE_LEN];
        let outcomes = [0; OUTCOMES_LEN];
        let (time, id, number) = (case.time, case.id, case.number);
        let read = independent::read(headers, pages, &outcomes, time, id, number, &mut page).number;
        let end = 128 * replies.expected.more[0] as usize;
        let alike = match end {
            0 => read != 0,
            _ => read == 0 && case.lent[PAGES].bytes[end - PAGE_LEN..end] == page,
        };
        assert!(
            alike,
            "Look and Read of the independent implementation differ"
        );
        read
    }
}

/// Makes the call on the independent implementation.
fn expect(case: &Case, buffers: &mut [Vec<u8>; 4]) -> Reply {
    let &Case {
        time,
        client,
        id,
        number,
        expires,
        ..
    } = case;
    let [h, p, o, page] = buffers;
    let answer = |answer: independent::Answer| Reply::new(answer.number, [answer.id]);
    match case.kind {
        Kind::Format => Reply::new(independent::format(h, p), []),
        Kind::Create => answer(independent::create(
            h, p, o, time, client, number, page, expires,
        )),
        Kind::Write => answer(independent::write(h, p, o, time, client, id, number, page)),
        Kind::Read => answer(independent::read(h, p, o, time, id, number, page)),
        Kind::Info => {
            let facts = independent::info(h, p, o, time, id);
            let owner = facts.owner.into();
            Reply::new(
                facts.number,
                [owner, facts.created, facts.updated, facts.expires],
            )
        }
        Kind::Destroy => answer(independent::destroy(h, p, o, time, client, id)),
        Kind::SetExpiry => answer(independent::set_expiry(h, p, o, time, client, id, expires)),
        Kind::Scavenge => {
            let swept = independent::scavenge(h, p, o, time);
            Reply::new(swept.number, [swept.headers, swept.pages])
        }
        Kind::Look => Reply::new(0, [independent::look(h, p, time, id, number).into()]),
    }
}
