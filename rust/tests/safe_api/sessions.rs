//! The scope document's sessions worked by hand, and its marks in the bytes, through the safe API.

use crate::{befalls, file, A, B, CLIENT, THROUGH};
use pagefile::{Error, Outcome, Outcomes, Page, PageNum, Swept, Tables};

const EXPECTED: [&str; 13] = [
    "1 0 0 4",
    "2 0 6 1",
    "3 0 4",
    "4 0 5 4",
    "5 0 9 0 4",
    "6 0 0 0 4",
    "7 0 10 0",
    "8 0 10 4 0",
    "9 0 9 4",
    "10 0 0 0 4",
    "11 0 3 0",
    "12 0 0 0 0",
    "13 0 2",
];

const SESSIONS: [fn(&mut Session); 13] = [
    until_expiry,
    no_such_number,
    expired_at_once,
    not_owner,
    header_refused,
    clean_up_refused,
    header_cut,
    clean_up_cut,
    lengthening_refused,
    shortening_clean_up_refused,
    clock_back,
    destroy_clean_up_refused,
    page_id_altered,
];

/// Tables in use, and the numbers of the answers so far.
struct Session {
    tables: Tables,
    numbers: Vec<u8>,
}

impl Session {
    fn fresh() -> Session {
        Session {
            tables: Tables::new(),
            numbers: Vec::new(),
        }
    }

    fn tell<T>(&mut self, answer: Result<T, Error>) -> Option<T> {
        self.numbers
            .push(answer.as_ref().map_or_else(|error| error.number(), |_| 0));
        answer.ok()
    }

    fn create(&mut self, expires: u32) {
        let answer = self
            .tables
            .create(&THROUGH, 10, CLIENT, PageNum::FIRST, &A, expires);
        self.tell(answer);
    }

    fn write(&mut self, outcomes: Outcomes, time: u32, client: u16, id: u32) {
        let answer = self
            .tables
            .write(&outcomes, time, client, file(id), PageNum::FIRST, &B);
        self.tell(answer);
    }

    fn read(&mut self, time: u32, id: u32, number: u8) -> Option<Page> {
        let answer = PageNum::new(number)
            .and_then(|number| self.tables.read(&THROUGH, time, file(id), number));
        self.tell(answer)
    }

    fn set_expiry(&mut self, outcomes: Outcomes, expires: u32) {
        let answer = self
            .tables
            .set_expiry(&outcomes, 20, CLIENT, file(1), expires);
        self.tell(answer);
    }

    fn scavenge(&mut self, time: u32) -> Option<Swept> {
        let answer = self.tables.scavenge(&THROUGH, time);
        self.tell(answer)
    }
}

fn until_expiry(session: &mut Session) {
    session.create(100);
    assert_eq!(session.read(99, 1, 0), Some(A));
    session.read(100, 1, 0);
}

fn no_such_number(session: &mut Session) {
    session.create(100);
    session.read(11, 1, 1);
    session.read(11, 1, 16);
}

fn expired_at_once(session: &mut Session) {
    session.create(5);
    session.read(10, 1, 0);
}

fn not_owner(session: &mut Session) {
    session.create(100);
    session.write(THROUGH, 11, 8, 1);
    session.write(THROUGH, 11, 8, 2);
}

fn header_refused(session: &mut Session) {
    session.create(100);
    session.write(befalls(3, Outcome::Refused), 20, CLIENT, 1);
    assert_eq!(session.read(20, 1, 0), Some(A));
    session.read(20, 2, 0);
    let slot = &session.tables.pages()[128..256];
    assert_eq!(slot[..8], [0x80, 0, 0, 0, 0, 0, 0, 100]);
    assert_eq!(slot[8..], B);
}

fn clean_up_refused(session: &mut Session) {
    session.create(100);
    session.write(befalls(4, Outcome::Refused), 20, CLIENT, 1);
    assert_eq!(session.read(20, 2, 0), Some(B));
    session.read(20, 1, 0);
}

fn header_cut(session: &mut Session) {
    session.create(100);
    session.write(befalls(3, Outcome::Cut), 20, CLIENT, 1);
    assert_eq!(session.read(20, 1, 0), Some(A));
}

fn clean_up_cut(session: &mut Session) {
    session.create(100);
    session.write(befalls(4, Outcome::Cut), 20, CLIENT, 1);
    session.read(20, 1, 0);
    assert_eq!(session.read(20, 2, 0), Some(B));
}

fn lengthening_refused(session: &mut Session) {
    session.create(100);
    session.set_expiry(befalls(2, Outcome::Refused), 200);
    session.read(100, 1, 0);
}

fn shortening_clean_up_refused(session: &mut Session) {
    session.create(100);
    session.set_expiry(befalls(3, Outcome::Refused), 50);
    assert_eq!(session.read(49, 2, 0), Some(A));
    session.read(50, 2, 0);
}

fn clock_back(session: &mut Session) {
    session.create(100);
    session.read(9, 1, 0);
    assert_eq!(session.read(10, 1, 0), Some(A));
}

fn destroy_clean_up_refused(session: &mut Session) {
    session.create(100);
    let refused = befalls(3, Outcome::Refused);
    let answer = session.tables.destroy(&refused, 20, CLIENT, file(1));
    session.tell(answer);
    let nothing = Swept {
        headers: 0,
        pages: 0,
    };
    assert_eq!(session.scavenge(99), Some(nothing));
    assert_eq!(
        session.scavenge(100),
        Some(Swept {
            headers: 0,
            pages: 1
        })
    );
}

fn page_id_altered(session: &mut Session) {
    session.create(100);
    let (mut headers, pages) = std::mem::take(&mut session.tables).into_bytes();
    // the first header's first page id, nine bits from its byte 18 on
    headers[36 + 18..36 + 20].copy_from_slice(&[0x01, 0x00]);
    session.tables = Tables::from_bytes(headers, pages).unwrap();
    session.read(10, 1, 0);
}

#[test]
fn sessions_answer_as_worked_by_hand() {
    for (place, (run, expected)) in SESSIONS.iter().zip(EXPECTED).enumerate() {
        let mut session = Session::fresh();
        run(&mut session);
        let mut line = (place + 1).to_string();
        for number in session.numbers {
            line += &format!(" {number}");
        }
        assert_eq!(line, expected);
    }
}

#[test]
fn first_header_record_after_create() {
    let mut session = Session::fresh();
    session.create(100);
    let mut record = [0; 36];
    record[..20].copy_from_slice(&[
        0x80, 0, 0, 1, 0, 7, 0, 0, 0, 0x0A, 0, 0, 0, 0x0A, 0, 0, 0, 0x64, 0, 0x80,
    ]);
    assert_eq!(session.tables.headers()[36..72], record);
}

#[test]
fn page_id_256_at_number_15_ends_its_record() {
    let mut tables = Tables::new();
    let refused = befalls(2, Outcome::Refused);
    for _ in 1..=255 {
        let answer = tables.create(&refused, 10, CLIENT, PageNum::FIRST, &B, 100);
        assert_eq!(answer, Err(Error::ServiceError));
    }
    tables
        .create(&THROUGH, 10, CLIENT, PageNum::LAST, &A, 100)
        .unwrap();
    assert_eq!(tables.headers()[70..72], [0x01, 0x00]);
}

#[test]
fn the_65th_unexpired_create_finds_no_space() {
    let mut session = Session::fresh();
    for _ in 1..=65 {
        session.create(100);
    }
    assert_eq!(session.numbers[..64], [0; 64]);
    assert_eq!(session.numbers[64], Error::NoSpace.number());
}
