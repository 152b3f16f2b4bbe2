//! Nanoseconds, by the clock.

use crate::boundary::{call, pass, Implementation, Pass};
use crate::calls::{agreed, Cell};
use crate::request::{Reply, Request};
use crate::tables::Buffers;
use std::hint::black_box;
use std::time::Instant;

/// How often all cells are gone through: a slow stretch of the machine ought to miss some.
const SWEEPS: usize = 20;
/// How many batches of each call one sweep has.
const BATCHES: usize = 200;
/// How many calls are timed together.
pub const CALLS: usize = 16;
/// How many batches the smallest is taken of.
pub const ALL_BATCHES: usize = SWEEPS * BATCHES;

/// The times of one cell; the places are those of the implementations.
pub struct Times {
    pub reply: Reply,
    pub border: [f64; 3],
    /// Both passes over the two tables.
    pub passes: [f64; 2],
}

/// Times each cell's calls, on tables in the cache.
pub fn time(cells: &[Cell]) -> Vec<Times> {
    let mut watches: Vec<Watch> = cells.iter().map(Watch::new).collect();
    for sweep in 1..=SWEEPS {
        eprintln!("timing: sweep {sweep} of {SWEEPS}");
        for watch in &mut watches {
            for _ in 0..BATCHES {
                watch.turn();
            }
        }
    }
    watches.into_iter().map(Watch::times).collect()
}

/// One cell's calls and the least times found so far.
struct Watch {
    request: Request,
    reply: Reply,
    undo: Undo,
    buffers: Box<Buffers>,
    border: [f64; 3],
    undone: f64,
    passes: [f64; 2],
}

impl Watch {
    fn new(cell: &Cell) -> Watch {
        let fresh = cell.fill.buffers();
        let (reply, left) = agreed(&cell.request, &fresh);
        Watch {
            request: cell.request,
            reply,
            undo: Undo::new(&fresh, &left),
            buffers: fresh,
            border: [f64::INFINITY; 3],
            undone: f64::INFINITY,
            passes: [f64::INFINITY; 2],
        }
    }

    /// Times one batch of each.
    fn turn(&mut self) {
        let (undo, buffers) = (&self.undo, &mut self.buffers);
        for (least, implementation) in self.border.iter_mut().zip(Implementation::ALL) {
            let mut last = None;
            let batch = batch(|| {
                last = Some(call(implementation, &self.request, buffers));
                undo.apply(buffers);
            });
            assert_eq!(last, Some(self.reply), "the answer changed");
            *least = least.min(batch);
        }
        self.undone = self.undone.min(batch(|| undo.apply(buffers)));
        for (least, which) in self.passes.iter_mut().zip(Pass::ALL) {
            let batch = batch(|| {
                black_box(pass(which, buffers));
            });
            *least = least.min(batch);
        }
    }

    fn times(self) -> Times {
        Times {
            reply: self.reply,
            border: self.border.map(|least| least - self.undone),
            passes: self.passes,
        }
    }
}

/// The nanoseconds of one call, when it is made several times on end.
fn batch(mut work: impl FnMut()) -> f64 {
    let start = Instant::now();
    for _ in 0..CALLS {
        work();
    }
    start.elapsed().as_nanos() as f64 / CALLS as f64
}

/// Bytes of a table and where they stand.
type Change = (usize, Vec<u8>);

/// What puts both tables back as they were: only what a call changed, as a copy of all is dearer
/// than most calls.
struct Undo {
    headers: Vec<Change>,
    pages: Vec<Change>,
}

impl Undo {
    fn new(fresh: &Buffers, left: &Buffers) -> Undo {
        Undo {
            headers: changes(&fresh.headers, &left.headers),
            pages: changes(&fresh.pages, &left.pages),
        }
    }

    /// Not inlined, so that it is the same code after a call and by itself.
    #[inline(never)]
    fn apply(&self, buffers: &mut Buffers) {
        put_back(&self.headers, &mut buffers.headers);
        put_back(&self.pages, &mut buffers.pages);
    }
}

fn put_back(changes: &[Change], table: &mut [u8]) {
    for (at, bytes) in changes {
        table[*at..at + bytes.len()].copy_from_slice(bytes);
    }
}

/// The words of a table that a call changed, as they were; neighbours in one piece.
fn changes(fresh: &[u8], left: &[u8]) -> Vec<Change> {
    let mut changes: Vec<Change> = Vec::new();
    for (word, (fresh, left)) in fresh.chunks(4).zip(left.chunks(4)).enumerate() {
        if fresh == left {
            continue;
        }
        match changes.last_mut() {
            Some((at, bytes)) if *at + bytes.len() == 4 * word => bytes.extend_from_slice(fresh),
            _ => changes.push((4 * word, fresh.to_vec())),
        }
    }
    changes
}
