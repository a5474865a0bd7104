//! Width tables moved between the form without names and the form with them.

use crate::refusal::{refusal, Refusal};
use crate::widths::{ANY_NAME, NAMED, NAMELESS};

/// The records of a table without names, each of them made one for any name, so that every font
/// finds what it found before. A wrong table is refused (14), then an area of too few bytes (17).
pub fn widen(table: &[u8], area: u64) -> Result<Vec<Vec<u8>>, Refusal> {
    let records = NAMELESS.records(table)?;
    let (at, _) = NAMELESS.name_and_code();
    let widened = |record: &&[u8]| [&record[..at], &ANY_NAME, &record[at..]].concat();
    held(records.iter().map(widened).collect(), area)
}

/// The way back. A wrong table is refused (14), then the first record for one name only, which
/// would become one for all (24), and last of all an area of too few bytes (17).
pub fn narrow(table: &[u8], area: u64) -> Result<Vec<Vec<u8>>, Refusal> {
    let records = NAMED.records(table)?;
    let (name, code) = NAMED.name_and_code();
    if let Some(index) = records.iter().position(|record| record[name..code] != ANY_NAME) {
        return Err(refusal(24, index * NAMED.record()));
    }
    let narrowed = |record: &&[u8]| [&record[..name], &record[code..]].concat();
    held(records.iter().map(narrowed).collect(), area)
}

/// The records, if an area of so many bytes holds them.
fn held(records: Vec<Vec<u8>>, area: u64) -> Result<Vec<Vec<u8>>, Refusal> {
    let bytes: usize = records.iter().map(Vec::len).sum();
    if area < bytes as u64 {
        return Err(refusal(17, 0));
    }
    Ok(records)
}
