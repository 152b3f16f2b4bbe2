//! The sessions worked by hand in the document, and its worked bytes.

use independent::{
    create, destroy, format, look, read, scavenge, set_expiry, sound, write, Answer, Swept,
    HEADERS_LEN, OUTCOMES_LEN, PAGES_LEN, PAGE_LEN,
};

const A: [u8; PAGE_LEN] = [0x41; PAGE_LEN];
const B: [u8; PAGE_LEN] = [0x42; PAGE_LEN];
const ALL_GO: [u8; OUTCOMES_LEN] = [0; OUTCOMES_LEN];

/// A list that is zero but for this outcome at this step, counted from 1.
fn at_step(step: usize, outcome: u8) -> [u8; OUTCOMES_LEN] {
    let mut outcomes = ALL_GO;
    outcomes[step - 1] = outcome;
    outcomes
}

/// A session of client 7: its tables, and the answer numbers so far.
struct Session {
    headers: Vec<u8>,
    pages: Vec<u8>,
    line: Vec<u8>,
}

impl Session {
    fn fresh() -> Session {
        let (mut headers, mut pages) = (vec![0xff; HEADERS_LEN], vec![0xff; PAGES_LEN]);
        assert_eq!(format(&mut headers, &mut pages), 0);
        let line = Vec::new();
        Session {
            headers,
            pages,
            line,
        }
    }

    /// Begins as all the sessions do.
    fn begun(expires: u32) -> Session {
        let mut session = Session::fresh();
        assert_eq!(session.create(0, expires).id, 1);
        session
    }

    fn create(&mut self, number: u8, expires: u32) -> Answer {
        let (headers, pages) = (&mut self.headers, &mut self.pages);
        let answer = create(headers, pages, &ALL_GO, 10, 7, number, &A, expires);
        self.line.push(answer.number);
        answer
    }

    fn write(&mut self, time: u32, client: u16, id: u32, outcomes: [u8; OUTCOMES_LEN]) {
        let (headers, pages) = (&mut self.headers, &mut self.pages);
        let answer = write(headers, pages, &outcomes, time, client, id, 0, &B);
        self.line.push(answer.number);
    }

    /// Reads and gives what was read; Look has to tell the same.
    fn read(&mut self, time: u32, id: u32, number: u8) -> [u8; PAGE_LEN] {
        let slot = usize::from(look(&self.headers, &self.pages, time, id, number));
        let mut page = [0; PAGE_LEN];
        let (headers, pages) = (&mut self.headers, &mut self.pages);
        let answer = read(headers, pages, &ALL_GO, time, id, number, &mut page);
        self.line.push(answer.number);
        assert_eq!(slot != 0, answer.number == 0);
        if slot != 0 {
            assert_eq!(&self.pages[slot * 128 - PAGE_LEN..slot * 128], page);
        }
        page
    }

    fn set_expiry(&mut self, expires: u32, outcomes: [u8; OUTCOMES_LEN]) {
        let (headers, pages) = (&mut self.headers, &mut self.pages);
        let answer = set_expiry(headers, pages, &outcomes, 20, 7, 1, expires);
        self.line.push(answer.number);
    }

    fn destroy(&mut self, outcomes: [u8; OUTCOMES_LEN]) {
        let (headers, pages) = (&mut self.headers, &mut self.pages);
        let answer = destroy(headers, pages, &outcomes, 20, 7, 1);
        self.line.push(answer.number);
    }

    fn scavenge(&mut self, time: u32) -> Swept {
        let swept = scavenge(&mut self.headers, &mut self.pages, &ALL_GO, time);
        self.line.push(swept.number);
        swept
    }

    fn first_record(&self) -> &[u8] {
        &self.headers[36..72]
    }
}

#[test]
fn session_1() {
    let mut session = Session::begun(100);
    assert_eq!(session.read(99, 1, 0), A);
    session.read(100, 1, 0);
    assert_eq!(session.line, [0, 0, 4]);
}

#[test]
fn session_2() {
    let mut session = Session::begun(100);
    session.read(11, 1, 1);
    session.read(11, 1, 16);
    assert_eq!(session.line, [0, 6, 1]);
}

#[test]
fn session_3() {
    let mut session = Session::begun(5);
    session.read(10, 1, 0);
    assert_eq!(session.line, [0, 4]);
}

#[test]
fn session_4() {
    let mut session = Session::begun(100);
    session.write(11, 8, 1, ALL_GO);
    session.write(11, 8, 2, ALL_GO);
    assert_eq!(session.line, [0, 5, 4]);
}

#[test]
fn session_5() {
    let mut session = Session::begun(100);
    session.write(20, 7, 1, at_step(3, 1));
    assert_eq!(session.read(20, 1, 0), A);
    session.read(20, 2, 0);
    assert_eq!(session.line, [0, 9, 0, 4]);
    assert_eq!(session.pages[128..136], [0x80, 0, 0, 0, 0, 0, 0, 100]);
    assert_eq!(session.pages[136..256], B);
}

#[test]
fn session_6() {
    let mut session = Session::begun(100);
    session.write(20, 7, 1, at_step(4, 1));
    assert_eq!(session.read(20, 2, 0), B);
    session.read(20, 1, 0);
    assert_eq!(session.line, [0, 0, 0, 4]);
}

#[test]
fn session_7() {
    let mut session = Session::begun(100);
    session.write(20, 7, 1, at_step(3, 2));
    assert_eq!(session.read(20, 1, 0), A);
    assert_eq!(session.line, [0, 10, 0]);
}

#[test]
fn session_8() {
    let mut session = Session::begun(100);
    session.write(20, 7, 1, at_step(4, 2));
    session.read(20, 1, 0);
    assert_eq!(session.read(20, 2, 0), B);
    assert_eq!(session.line, [0, 10, 4, 0]);
}

#[test]
fn session_9() {
    let mut session = Session::begun(100);
    session.set_expiry(200, at_step(2, 1));
    session.read(100, 1, 0);
    assert_eq!(session.line, [0, 9, 4]);
}

#[test]
fn session_10() {
    let mut session = Session::begun(100);
    session.set_expiry(50, at_step(3, 1));
    assert_eq!(session.read(49, 2, 0), A);
    session.read(50, 2, 0);
    assert_eq!(session.line, [0, 0, 0, 4]);
}

#[test]
fn session_11() {
    let mut session = Session::begun(100);
    session.read(9, 1, 0);
    assert_eq!(session.read(10, 1, 0), A);
    assert_eq!(session.line, [0, 3, 0]);
}

#[test]
fn session_12() {
    let mut session = Session::begun(100);
    session.destroy(at_step(3, 1));
    let counts = |swept: Swept| (swept.headers, swept.pages);
    assert_eq!(counts(session.scavenge(99)), (0, 0));
    assert_eq!(counts(session.scavenge(100)), (0, 1));
    assert_eq!(session.line, [0, 0, 0, 0]);
}

#[test]
fn session_13() {
    let mut session = Session::begun(100);
    session.headers[36 + 18..36 + 20].copy_from_slice(&[0x01, 0x00]);
    assert!(!sound(&session.headers, &session.pages));
    session.read(10, 1, 0);
    assert_eq!(session.line, [0, 2]);
}

#[test]
fn first_header_record() {
    let mut expected = vec![0x80, 0, 0, 1, 0, 7, 0, 0, 0, 10, 0, 0, 0, 10, 0, 0, 0, 100];
    expected.extend([0, 0x80]);
    expected.extend([0; 16]);
    assert_eq!(Session::begun(100).first_record(), expected);
}

#[test]
fn page_id_256_at_number_15() {
    let mut session = Session::fresh();
    for slot in session.pages.chunks_mut(128).take(255) {
        slot[0] = 0x80;
        slot[4..8].fill(0xff);
    }
    assert_eq!(session.create(15, 100), Answer { number: 0, id: 1 });
    let mut page_ids = [0; 18];
    page_ids[16..].copy_from_slice(&[0x01, 0x00]);
    assert_eq!(session.first_record()[18..], page_ids);
    assert_eq!(session.read(20, 1, 15), A);
}

#[test]
fn the_65th_create() {
    let mut session = Session::fresh();
    for id in 1..=64 {
        assert_eq!(session.create(0, 100), Answer { number: 0, id });
    }
    assert_eq!(session.create(0, 100), Answer { number: 7, id: 0 });
    assert!(sound(&session.headers, &session.pages));
    // The page of the refused Create stays in slot 65.
    assert_eq!(session.pages[64 * 128], 0x80);
}
