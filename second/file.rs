//! The table file.

use crate::refusal::{self, Refusal};
use crate::rule;
use crate::table::{Row, Table, MOST_ROWS};

/// "One version byte, 1."
const VERSION: u8 = 1;

/// Reads a file: "12 (under 4 bytes, or the length field differs from the bytes that follow), 13, 1, 2, 12 (length not
/// 2+6n), then rows from the first, in each row 3, 4, 5, then 6, then 7".
pub fn read(bytes: &[u8]) -> Result<Table, Refusal> {
    let (length, version, n, rest) = match bytes {
        [high, low, version, n, rest @ ..] => (word(*high, *low), *version, *n, rest),
        _ => return Err(refusal::SIZE),
    };
    // "Two bytes: the number of bytes that follow them": the version, n and the rest.
    if usize::from(length) != 2 + rest.len() {
        return Err(refusal::SIZE);
    }
    if version != VERSION {
        return Err(refusal::VERSION);
    }
    if n == 0 {
        return Err(refusal::EMPTY);
    }
    if usize::from(n) > MOST_ROWS {
        return Err(refusal::MANY);
    }
    if usize::from(length) != 2 + 6 * usize::from(n) {
        return Err(refusal::SIZE);
    }
    let rows: Vec<Row> = rest.chunks_exact(6).map(row).collect();
    let table = Table::of(&rows);
    rule::check(&table)?;
    Ok(table)
}

/// "rows of period, p, a, two bytes each"
fn row(six: &[u8]) -> Row {
    Row { period: word(six[0], six[1]), p: word(six[2], six[3]), a: word(six[4], six[5]) }
}

fn word(high: u8, low: u8) -> u16 {
    u16::from_be_bytes([high, low])
}

/// The file of the rows of a table, whether they would be accepted or not. "The file writer needs 4+6n."
pub fn bytes_of(table: &Table) -> Vec<u8> {
    let rows = table.used();
    let mut bytes = Vec::new();
    bytes.extend_from_slice(&(2 + 6 * rows.len() as u16).to_be_bytes());
    bytes.push(VERSION);
    bytes.push(rows.len() as u8);
    for row in rows {
        for number in [row.period, row.p, row.a] {
            bytes.extend_from_slice(&number.to_be_bytes());
        }
    }
    bytes
}
