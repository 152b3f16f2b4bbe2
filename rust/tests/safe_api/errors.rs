//! The errors: their numbers, their words, and that each is met.

use crate::{befalls, file, one_file, A, CLIENT, THROUGH};
use pagefile::{Error, FileId, Outcome, Outcomes, PageNum, Tables};
use std::collections::HashSet;

#[test]
fn numbers_and_names_are_the_documents() {
    let names = [
        "BadCall",
        "Damaged",
        "ClockBack",
        "NoSuchFile",
        "NotOwner",
        "NoSuchPage",
        "NoSpace",
        "NoIds",
        "ServiceError",
        "Cut",
    ];
    for ((error, name), number) in Error::ALL.into_iter().zip(names).zip(1..) {
        assert_eq!(error.number(), number);
        assert_eq!(format!("{error:?}"), name);
    }
}

#[test]
fn each_error_has_words_of_its_own() {
    let words: HashSet<String> = Error::ALL.iter().map(Error::to_string).collect();
    assert_eq!(words.len(), Error::ALL.len());
    let boxed: Box<dyn std::error::Error + Send + Sync> = Error::Damaged.into();
    assert_eq!(boxed.to_string(), "the tables are not sound");
}

fn create(tables: &mut Tables) -> Result<FileId, Error> {
    tables.create(&THROUGH, 10, CLIENT, PageNum::FIRST, &A, 100)
}

/// Tables of no files with these four bytes for next id.
fn next_id(bytes: [u8; 4]) -> Tables {
    let (mut headers, pages) = Tables::new().into_bytes();
    headers[..4].copy_from_slice(&bytes);
    Tables::from_bytes(headers, pages).unwrap()
}

#[test]
fn each_error_is_met() {
    let id = file(1);
    let (first, last) = (PageNum::FIRST, PageNum::LAST);
    let mut full = Tables::new();
    while create(&mut full).is_ok() {}
    let met = [
        PageNum::new(16).err(),
        create(&mut next_id([0; 4])).err(),
        one_file().read(&THROUGH, 9, id, first).err(),
        Tables::new().info(&THROUGH, 10, id).err(),
        one_file().destroy(&THROUGH, 10, 8, id).err(),
        one_file().read(&THROUGH, 10, id, last).err(),
        create(&mut full).err(),
        create(&mut next_id([0x80, 0, 0, 0])).err(),
        one_file().scavenge(&befalls(1, Outcome::Refused), 10).err(),
        one_file().scavenge(&befalls(1, Outcome::Cut), 10).err(),
    ];
    assert_eq!(met, Error::ALL.map(Some));
}

#[test]
fn the_highest_id_is_issued() {
    let id = create(&mut next_id([0x7F, 0xFF, 0xFF, 0xFF])).unwrap();
    assert_eq!(id, file(FileId::MAX));
    assert_eq!(FileId::new(FileId::MAX + 1), Err(Error::NoSuchFile));
}

#[test]
fn outcomes_refuse_what_no_list_has() {
    assert_eq!(THROUGH.with(0, Outcome::Cut), Err(Error::BadCall));
    assert_eq!(THROUGH.with(19, Outcome::Cut), Err(Error::BadCall));
    assert_eq!(Outcomes::from_bytes(&[0; 17]), Err(Error::BadCall));
    let mut bytes = [0; 18];
    bytes[17] = 2;
    let cut = THROUGH.with(18, Outcome::Cut);
    assert_eq!(Outcomes::from_bytes(&bytes), cut);
}
