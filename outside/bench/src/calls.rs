//! The calls that callgrind counts, and the check that all three answer alike.

use crate::boundary::{call, call_inner, pass, Implementation, Pass};
use crate::request::{requests, Reply, Request};
use crate::tables::{Buffers, Fill};
use std::hint::black_box;

/// One request on tables of one fill: a row of the report.
pub struct Cell {
    pub fill: Fill,
    pub request: Request,
}

/// All cells, in the order of the report.
pub fn cells() -> Vec<Cell> {
    let of_fill = |fill| {
        requests(fill)
            .into_iter()
            .map(move |request| Cell { fill, request })
    };
    Fill::ALL.into_iter().flat_map(of_fill).collect()
}

/// The function that callgrind is told to write out its counts after.
pub const CELL_DONE: &str = "bench::calls::cell_done";

/// Each cell's calls end with this one.
#[inline(never)]
fn cell_done() {
    black_box(());
}

/// Makes each cell's calls once, and both passes, for callgrind to count.
pub fn make_all() {
    for Cell { fill, request } in cells() {
        let fresh = fill.buffers();
        for implementation in Implementation::ALL {
            black_box(call(implementation, &request, &mut fresh.clone()));
            if request.has_inner() {
                black_box(call_inner(implementation, &request, &mut fresh.clone()));
            }
        }
        for which in Pass::ALL {
            black_box(pass(which, &fresh));
        }
        cell_done();
    }
}

/// The answer of all three implementations and the tables that they leave, which must be the same.
pub fn agreed(request: &Request, fresh: &Buffers) -> (Reply, Box<Buffers>) {
    let on_fresh = |make: &dyn Fn(&mut Buffers) -> Option<Reply>| {
        let mut buffers = Box::new(fresh.clone());
        make(&mut buffers).map(|reply| (reply, buffers))
    };
    let border = Implementation::ALL
        .map(|by| on_fresh(&|buffers| Some(call(by, request, buffers))))
        .into_iter();
    let inner = Implementation::ALL
        .into_iter()
        .filter(|_| request.has_inner())
        .map(|by| on_fresh(&|buffers| call_inner(by, request, buffers)));
    let mut all = border.chain(inner).flatten();
    let first = all.next().expect("the library answers");
    assert!(
        all.all(|other| other == first),
        "the implementations differ in {}",
        request.name
    );
    first
}
