//! Look lends the page where it lies, from tables owned or borrowed.

use crate::{file, one_file, A, B, CLIENT, THROUGH};
use pagefile::{Error, FileId, PageNum, Tables, TablesRef, HEADERS_LEN, PAGES_LEN};

/// Tables with a file of page A at 0 and page B at 15, and its id.
fn two_pages() -> (Tables, FileId) {
    let mut tables = one_file();
    let id = tables
        .write(&THROUGH, 20, CLIENT, file(1), PageNum::LAST, &B)
        .unwrap();
    (tables, id)
}

#[test]
fn look_lends_the_page_table_itself() {
    let (tables, id) = two_pages();
    let page = tables.look(20, id, PageNum::LAST).unwrap();
    assert_eq!(page, B);
    assert_eq!(page.as_ptr(), tables.pages()[128 + 8..].as_ptr());
}

#[test]
fn looks_can_be_held_together() {
    let (tables, id) = two_pages();
    let first = tables.look(20, id, PageNum::FIRST);
    let last = tables.look(20, id, PageNum::LAST);
    assert_eq!((first, last), (Some(&A[..]), Some(&B[..])));
}

#[test]
fn look_shows_what_read_would_copy_and_changes_nothing() {
    let (tables, id) = two_pages();
    let before = tables.clone();
    for time in [19, 20, 99, 100] {
        for id in [id, file(1)] {
            for number in PageNum::all() {
                let copy = tables.clone().read(&THROUGH, time, id, number).ok();
                let looked = tables.look(time, id, number);
                assert_eq!(looked, copy.as_ref().map(|page| &page[..]));
            }
        }
    }
    assert_eq!(tables, before);
}

#[test]
fn look_needs_no_tables_of_its_own() {
    let (tables, id) = two_pages();
    let shared: TablesRef = Tables::from_bytes(tables.headers(), tables.pages()).unwrap();
    assert_eq!(shared.look(20, id, PageNum::FIRST), Some(&A[..]));
}

#[test]
fn requests_on_borrowed_tables_write_the_lender_s_bytes() -> Result<(), Error> {
    let (mut headers, mut pages) = ([0; HEADERS_LEN], [0; PAGES_LEN]);
    let mut banks = Tables::from_bytes(&mut headers, &mut pages)?;
    banks.format()?;
    let id = banks.create(&THROUGH, 10, CLIENT, PageNum::FIRST, &A, 100)?;
    assert_eq!(banks.look(10, id, PageNum::FIRST), Some(&A[..]));
    assert_eq!(pages[8..128], A);
    let mut owned = Tables::from_bytes(headers.to_vec(), pages.to_vec())?;
    assert_eq!(owned.read(&THROUGH, 10, id, PageNum::FIRST), Ok(A));
    Ok(())
}
