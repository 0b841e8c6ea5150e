//! Table files: whole ones, refused ones, and the order of their refusals.

use super::draft::*;
use super::faults;
use super::fixed_examples::p1;
use crate::file;
use crate::form::{LARGEST_BODY, TABLE_PLACE};

pub fn drafts() -> Vec<Draft> {
    let mut files = sizes();
    files.extend(counts());
    files.extend(orders());
    for fault in faults::single().iter().chain(&faults::double()) {
        // n of 0 or over 16 is made by hand above.
        if fault.number > 2 {
            files.push(file::bytes_of(&fault.table));
        }
    }
    files.extend(faults::accepted().iter().map(file::bytes_of));
    files.iter().map(|file| Draft::new(READ).list(file)).collect()
}

/// A file with this length field, version and n, and these bytes after them.
fn file_of(length: usize, version: u8, n: u8, rest: &[u8]) -> Vec<u8> {
    let mut file = (length as u16).to_be_bytes().to_vec();
    file.extend_from_slice(&[version, n]);
    file.extend_from_slice(rest);
    file
}

/// The bytes of so many accepted rows of period 32.
fn rows(n: usize) -> Vec<u8> {
    [0, 32, 0, 1, 0, 1].repeat(n)
}

/// Refusal 12 by its three causes.
fn sizes() -> Vec<Vec<u8>> {
    let whole = file::bytes_of(&p1());
    let mut files: Vec<Vec<u8>> = (0..4).map(|size| whole[..size].to_vec()).collect();
    // The length field differs from what follows: it says less, or more, or bytes are cut or added.
    for length in [0, 13, 15, 256, 65_535] {
        files.push(file_of(length, 1, 2, &whole[4..]));
    }
    files.push(whole[..4].to_vec());
    files.push(whole[..15].to_vec());
    files.push([whole.as_slice(), &[0]].concat());
    // The length field is what is there, but not 2+6n.
    files.push(file_of(14, 1, 1, &rows(2)));
    files.push(file_of(8, 1, 2, &rows(1)));
    files.push(file_of(2, 1, 1, &[]));
    files.push(file_of(15, 1, 2, &[rows(2), vec![0]].concat()));
    files.push(file_of(13, 1, 2, &rows(2)[..11]));
    files.push(vec![1; LARGEST_BODY - TABLE_PLACE]);
    files
}

/// Versions, n of 0, over 16 and of 16.
fn counts() -> Vec<Vec<u8>> {
    vec![
        file_of(14, 0, 2, &rows(2)),
        file_of(14, 2, 2, &rows(2)),
        file_of(14, 255, 2, &rows(2)),
        file_of(2, 1, 0, &[]),
        file_of(98, 1, 16, &rows(16)),
        file_of(104, 1, 17, &rows(17)),
        file_of(1532, 1, 255, &rows(255)),
    ]
}

/// Two refusals at once: 12, 13, 1, 2, 12, 3.
fn orders() -> Vec<Vec<u8>> {
    vec![
        file_of(15, 2, 2, &rows(2)),
        vec![0, 0, 2],
        file_of(2, 2, 0, &[]),
        file_of(104, 0, 17, &rows(17)),
        file_of(14, 2, 1, &rows(2)),
        file_of(8, 1, 0, &rows(1)),
        file_of(14, 1, 17, &rows(2)),
        file_of(14, 1, 1, &[0; 12]),
        file_of(20, 1, 2, &[0; 18]),
        file_of(8, 1, 1, &[0; 6]),
    ]
}
