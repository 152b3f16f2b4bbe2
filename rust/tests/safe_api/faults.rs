//! Refused and cut steps lose no file, and damaged bytes are left alone.

use crate::{befalls, file, one_file, A, B, CLIENT, THROUGH};
use pagefile::{Error, Facts, FileId, Outcome, PageNum, Tables, HEADERS_LEN, PAGES_LEN};

/// The file is as it was made.
fn assert_untouched(tables: &mut Tables, id: FileId) {
    let made = Facts {
        owner: CLIENT,
        created: 10,
        updated: 10,
        expires: 100,
    };
    assert_eq!(tables.info(&THROUGH, 20, id), Ok(made));
    assert_eq!(tables.read(&THROUGH, 20, id, PageNum::FIRST), Ok(A));
}

#[test]
fn a_refused_header_step_leaves_the_file() {
    let (mut tables, id) = (one_file(), file(1));
    let refused = |step| befalls(step, Outcome::Refused);
    let write = tables.write(&refused(3), 20, CLIENT, id, PageNum::FIRST, &B);
    assert_eq!(write, Err(Error::ServiceError));
    assert_untouched(&mut tables, id);
    let destroy = tables.destroy(&refused(2), 20, CLIENT, id);
    assert_eq!(destroy, Err(Error::ServiceError));
    assert_untouched(&mut tables, id);
    let later = tables.set_expiry(&refused(3), 20, CLIENT, id, 200);
    assert_eq!(later, Err(Error::ServiceError));
    assert_untouched(&mut tables, id);
    let sooner = tables.set_expiry(&refused(2), 20, CLIENT, id, 50);
    assert_eq!(sooner, Err(Error::ServiceError));
    assert_untouched(&mut tables, id);
}

#[test]
fn whatever_befalls_a_write_one_page_is_there() {
    for step in 1..=4 {
        for outcome in [Outcome::Through, Outcome::Refused, Outcome::Cut] {
            let (mut tables, old, next) = (one_file(), file(1), file(2));
            let outcomes = befalls(step, outcome);
            let answer = tables.write(&outcomes, 20, CLIENT, old, PageNum::FIRST, &B);
            let seen = [old, next].map(|id| tables.read(&THROUGH, 20, id, PageNum::FIRST));
            let gone = Err(Error::NoSuchFile);
            match (step, outcome) {
                (1..=3, Outcome::Refused) => assert_eq!(answer, Err(Error::ServiceError)),
                (_, Outcome::Cut) => assert_eq!(answer, Err(Error::Cut)),
                _ => assert_eq!(answer, Ok(next)),
            }
            if step <= 3 && outcome != Outcome::Through {
                assert_eq!(seen, [Ok(A), gone]);
            } else {
                assert_eq!(seen, [gone, Ok(B)]);
            }
        }
    }
}

/// Every request but Format, as what it refuses with.
fn refusals(tables: &mut Tables, time: u32) -> [Option<Error>; 7] {
    let id = file(1);
    let number = PageNum::FIRST;
    [
        tables.create(&THROUGH, time, CLIENT, number, &A, 100).err(),
        tables.write(&THROUGH, time, CLIENT, id, number, &B).err(),
        tables.read(&THROUGH, time, id, number).err(),
        tables.info(&THROUGH, time, id).err(),
        tables.destroy(&THROUGH, time, CLIENT, id).err(),
        tables.set_expiry(&THROUGH, time, CLIENT, id, 200).err(),
        tables.scavenge(&THROUGH, time).err(),
    ]
}

/// Every request but Format refuses so, Look has nothing to show, and no byte is changed.
fn assert_left_alone(mut tables: Tables, time: u32, error: Error, why: &str) {
    let before = tables.clone();
    assert_eq!(refusals(&mut tables, time), [Some(error); 7], "{why}");
    let id = file(1);
    assert_eq!(tables.look(time, id, PageNum::FIRST), None, "{why}");
    assert_eq!(tables, before, "{why}");
}

/// A rule of soundness, and how to break it alone in the tables of `one_file`.
type Damage = (&'static str, fn(&mut [u8], &mut [u8]));

const DAMAGES: [Damage; 7] = [
    ("S1: a spare bit", |headers, _| headers[8] = 1),
    ("S2: not in use, not zero", |headers, _| headers[72] = 0x40),
    ("S2: id not yet issued", |headers, _| headers[39] = 2),
    ("S3: not in use, not zero", |_, pages| pages[128 + 8] = 1),
    ("S3: a spare bit", |_, pages| pages[3] = 1),
    ("S4: page expires first", |_, pages| pages[7] = 99),
    ("S5: page 1 is page 0", |headers, _| headers[56] = 0x40),
];

#[test]
fn damaged_bytes_are_answered_and_left_alone() {
    for (rule, damage) in DAMAGES {
        let (mut headers, mut pages) = one_file().into_bytes();
        damage(&mut headers, &mut pages);
        let tables = Tables::from_bytes(headers, pages).unwrap();
        assert_left_alone(tables, 20, Error::Damaged, rule);
    }
    let noise = |len: usize| (0..len).map(|place| (place * 31 + 7) as u8).collect();
    let tables = Tables::from_bytes(noise(HEADERS_LEN), noise(PAGES_LEN)).unwrap();
    assert_left_alone(tables, 20, Error::Damaged, "noise");
}

#[test]
fn a_time_below_the_clock_changes_nothing() {
    assert_left_alone(one_file(), 9, Error::ClockBack, "created at 10");
}

#[test]
fn wrong_lengths_make_no_tables() {
    for (headers, pages) in [
        (0, 0),
        (HEADERS_LEN - 1, PAGES_LEN),
        (HEADERS_LEN, PAGES_LEN + 1),
        (PAGES_LEN, HEADERS_LEN),
    ] {
        let answer = Tables::from_bytes(vec![0; headers], vec![0; pages]);
        assert_eq!(answer, Err(Error::BadCall));
    }
}
