//! Instructions, counted by callgrind.

use crate::boundary::{Implementation, Pass};
use crate::calls::{Cell, CELL_DONE};
use linked::Kind;
use std::collections::HashMap;
use std::env;
use std::fs;
use std::process::Command;

/// How many instructions each calling function spent in each called one, all below included.
type Inclusive = HashMap<(String, String), u64>;

/// What this program is called with to make the calls that callgrind counts.
pub const SUBCOMMAND: &str = "calls";

/// The functions that make the calls at the border and on sound tables, and the passes.
const CALL: &str = "bench::boundary::call";
const CALL_INNER: &str = "bench::boundary::call_inner";
const PASS: &str = "bench::boundary::pass";

/// The instructions of one cell; the places are those of the implementations.
pub struct Counts {
    pub border: [u64; 3],
    /// Beyond admission, where the request goes on after it.
    pub inner: Option<[u64; 3]>,
    /// Both passes over the two tables.
    pub passes: [u64; 2],
}

/// Runs this program under callgrind and gives the counts of each cell.
pub fn count(cells: &[Cell]) -> Vec<Counts> {
    let parts = run();
    assert!(parts.len() >= cells.len(), "callgrind left cells out");
    cells
        .iter()
        .zip(&parts)
        .map(|(cell, part)| counts(cell, part))
        .collect()
}

fn run() -> Vec<Inclusive> {
    let folder = env::temp_dir().join(format!("pagefile-bench-{}", std::process::id()));
    fs::create_dir_all(&folder).expect("a temporary folder can be made");
    let out = folder.join("callgrind.out");
    let status = Command::new("valgrind")
        .args(["--tool=callgrind", "--quiet", "--combine-dumps=yes"])
        .args(["--compress-strings=no", "--compress-pos=no"])
        .arg(format!("--dump-after={CELL_DONE}"))
        .arg(format!("--callgrind-out-file={}", out.display()))
        .arg(env::current_exe().expect("this program has a path"))
        .arg(SUBCOMMAND)
        .status()
        .expect("valgrind is installed");
    assert!(status.success(), "valgrind failed");
    let text = fs::read_to_string(&out).expect("callgrind has written its counts");
    fs::remove_dir_all(&folder).expect("the temporary folder can be removed");
    text.split("\npart: ").skip(1).map(inclusive).collect()
}

/// Reads the calls of one part of callgrind's output.
fn inclusive(part: &str) -> Inclusive {
    let mut found = Inclusive::new();
    let (mut caller, mut called) = ("", "");
    let mut lines = part.lines();
    while let Some(line) = lines.next() {
        if let Some(name) = line.strip_prefix("fn=") {
            caller = name;
        } else if let Some(name) = line.strip_prefix("cfn=") {
            called = name;
        } else if line.starts_with("calls=") {
            let cost = lines.next().and_then(|cost| cost.split(' ').next_back());
            let cost: Option<u64> = cost.and_then(|cost| cost.parse().ok());
            *found.entry((caller.into(), called.into())).or_default() +=
                cost.expect("callgrind gives each call its cost");
        }
    }
    found
}

fn counts(cell: &Cell, part: &Inclusive) -> Counts {
    let kind = cell.request.kind;
    let spent = |caller: &str, called: String| {
        let key = (caller.to_string(), called);
        *part
            .get(&key)
            .unwrap_or_else(|| panic!("callgrind saw no call of {}", key.1))
    };
    let border = Implementation::ALL
        .map(|implementation| spent(CALL, format!("{}_{}", implementation.prefix(), kind.name())));
    let inner = |implementation: Implementation| {
        let function = format!("{}_{}", implementation.prefix(), kind.name());
        match implementation {
            Implementation::Library => border[0] - spent(&function, admission(kind).to_string()),
            _ => spent(CALL_INNER, format!("{function}_sound")),
        }
    };
    Counts {
        border,
        inner: cell
            .request
            .has_inner()
            .then(|| Implementation::ALL.map(inner)),
        passes: Pass::ALL.map(|pass| spent(PASS, pass.function().to_string())),
    }
}

/// The library's function for the checks that all requests begin with.
fn admission(kind: Kind) -> &'static str {
    match kind {
        Kind::Look => "service::admit_tables",
        _ => "service::admit",
    }
}
