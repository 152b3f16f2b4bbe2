//! Cases as text that can be replayed.
//!
//! A line for each number and buffer; under a buffer, a line for each run of bytes that are not
//! zero: where it begins and its bytes in hex, or one byte and how often it stands there.

use crate::case::{Case, Lent, BUFFER_NAMES};
use linked::Kind;
use std::fmt::Write;

/// From this many equal bytes on, they are written as one byte with a count.
const REPEATED: usize = 4;
/// The most bytes in one line of hex.
const HEX_RUN: usize = 36;
/// The largest buffer that a text can ask for.
const MOST_BYTES: usize = 1 << 20;

/// The case as text.
pub fn encode(case: &Case) -> String {
    let mut text = format!("request {:?}\n", case.kind);
    for (name, number) in [
        ("time", case.time),
        ("client", case.client.into()),
        ("id", case.id),
        ("number", case.number.into()),
        ("expires", case.expires),
        ("shift", case.shift as u32),
    ] {
        let _ = writeln!(text, "{name} {number}");
    }
    for (name, lent) in BUFFER_NAMES.iter().zip(&case.lent) {
        if lent.null {
            let _ = writeln!(text, "{name} null");
        } else {
            let _ = writeln!(text, "{name} {}", lent.bytes.len());
            encode_bytes(&mut text, &lent.bytes);
        }
    }
    text
}

fn encode_bytes(text: &mut String, bytes: &[u8]) {
    let mut at = 0;
    while at < bytes.len() {
        let equal = equal_run(&bytes[at..]);
        if bytes[at] == 0 {
            at += equal;
            continue;
        }
        if equal >= REPEATED {
            let _ = writeln!(text, "  {at} {:02x}*{equal}", bytes[at]);
            at += equal;
            continue;
        }
        let run = hex_run(&bytes[at..]);
        let hex: String = bytes[at..at + run]
            .iter()
            .map(|byte| format!("{byte:02x}"))
            .collect();
        let _ = writeln!(text, "  {at} {hex}");
        at += run;
    }
}

/// How many bytes from the first on are equal to it.
fn equal_run(bytes: &[u8]) -> usize {
    bytes.iter().take_while(|&&byte| byte == bytes[0]).count()
}

/// How many bytes to write in hex before a longer run of equal bytes begins.
fn hex_run(bytes: &[u8]) -> usize {
    let limit = bytes.len().min(HEX_RUN);
    let end = (1..limit).find(|&at| equal_run(&bytes[at..]) >= REPEATED);
    end.unwrap_or(limit)
}

/// The case that a text tells, or what is wrong with the text.
pub fn decode(text: &str) -> Result<Case, String> {
    let mut case = Case::zero();
    let mut buffer = None;
    for line in text.lines().filter(|line| !line.trim().is_empty()) {
        let wrong = || format!("cannot read the line: {line}");
        let (name, value) = line.trim().split_once(' ').ok_or_else(wrong)?;
        if line.starts_with(' ') {
            let lent = buffer.ok_or_else(wrong)?;
            decode_run(&mut case.lent[lent], name, value).ok_or_else(wrong)?;
        } else if let Some(lent) = BUFFER_NAMES.iter().position(|&known| known == name) {
            case.lent[lent] = decode_lent(value).ok_or_else(wrong)?;
            buffer = Some(lent);
        } else {
            decode_number(&mut case, name, value).ok_or_else(wrong)?;
        }
    }
    Ok(case)
}

fn decode_number(case: &mut Case, name: &str, value: &str) -> Option<()> {
    match name {
        "request" => {
            let mut kinds = Kind::ALL.into_iter();
            case.kind = kinds.find(|kind| format!("{kind:?}") == value)?;
        }
        "time" => case.time = value.parse().ok()?,
        "client" => case.client = value.parse().ok()?,
        "id" => case.id = value.parse().ok()?,
        "number" => case.number = value.parse().ok()?,
        "expires" => case.expires = value.parse().ok()?,
        "shift" => case.shift = value.parse().ok()?,
        _ => return None,
    }
    Some(())
}

fn decode_lent(value: &str) -> Option<Lent> {
    let null = value == "null";
    let length = if null { 0 } else { value.parse().ok()? };
    (length <= MOST_BYTES).then(|| Lent {
        bytes: vec![0; length],
        null,
    })
}

fn decode_run(lent: &mut Lent, at: &str, run: &str) -> Option<()> {
    let (hex, count) = run.split_once('*').unwrap_or((run, "1"));
    let (at, count): (usize, usize) = (at.parse().ok()?, count.parse().ok()?);
    if !hex.len().is_multiple_of(2) {
        return None;
    }
    let unit = hex.len() / 2;
    let room = lent
        .bytes
        .get_mut(at..at.checked_add(unit.checked_mul(count)?)?)?;
    for (place, byte) in room.iter_mut().enumerate() {
        let digit = 2 * (place % unit);
        *byte = u8::from_str_radix(hex.get(digit..digit + 2)?, 16).ok()?;
    }
    Some(())
}

#[cfg(test)]
mod tests {
    use super::*;
    use crate::random::Random;

    #[test]
    fn a_case_comes_back_from_its_text() {
        let mut random = Random::new(1);
        let mut case = Case::zero();
        case.kind = Kind::SetExpiry;
        case.id = u32::MAX;
        random.fill(&mut case.lent[0].bytes[100..300]);
        case.lent[1].bytes[5..50].fill(0xff);
        case.lent[2].bytes.clear();
        case.lent[2].null = true;
        case.lent[3].bytes = vec![1, 2, 3, 3, 3, 3, 3, 0, 0, 4];
        assert_eq!(decode(&encode(&case)), Ok(case));
    }

    #[test]
    fn wrong_text_is_refused() {
        for text in [
            "request Grow",
            "time x",
            "  3 ff",
            "page 2\n  1 ffff",
            "page 2\n  0 fff",
        ] {
            assert!(decode(text).is_err(), "{text}");
        }
    }
}
