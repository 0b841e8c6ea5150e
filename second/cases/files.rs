//! Random table files: whole ones, and ones with something wrong.

use super::tables;
use crate::file;
use crate::numbers::Numbers;

/// A file: half of them written from accepted tables and whole.
pub fn mixed(numbers: &mut Numbers) -> Vec<u8> {
    match numbers.weighted(&[50, 25, 23, 2]) {
        0 => file::bytes_of(&tables::accepted(numbers)),
        1 => {
            let number = numbers.between(3, 7) as u8;
            file::bytes_of(&tables::refused(numbers, number))
        }
        2 => {
            let mut file = file::bytes_of(&tables::accepted(numbers));
            damage(numbers, &mut file);
            if numbers.one_in(4) {
                damage(numbers, &mut file);
            }
            file
        }
        _ => (0..numbers.below(30)).map(|_| numbers.byte()).collect(),
    }
}

fn damage(numbers: &mut Numbers, file: &mut Vec<u8>) {
    if file.len() < 4 {
        return file.push(numbers.byte());
    }
    match numbers.below(8) {
        0 => file.truncate(numbers.below(file.len())),
        1 => pad(numbers, file),
        2 => file[2] = numbers.pick(&[0, 2, 3, 129, 255]),
        3 => file[3] = numbers.pick(&[0, 1, 2, 3, 16, 17, 255]),
        4 => file[1] ^= 1 << numbers.below(8),
        5 => file[0] = numbers.byte(),
        6 => with_count(numbers, file),
        _ => {
            let place = numbers.below(file.len());
            file[place] ^= 1 << numbers.below(8);
        }
    }
}

/// Bytes more at the end, half the time with a length field that counts them.
fn pad(numbers: &mut Numbers, file: &mut Vec<u8>) {
    for _ in 0..numbers.between(1, 7) {
        file.push(if numbers.one_in(2) { 0 } else { numbers.byte() });
    }
    if numbers.one_in(2) {
        set_length(file);
    }
}

/// A file of this many rows whose length is right, be n 0 or over 16.
fn with_count(numbers: &mut Numbers, file: &mut Vec<u8>) {
    let n = numbers.pick(&[0, 16, 17, 18, 20]);
    file.resize(4 + 6 * usize::from(n), 1);
    file[3] = n;
    set_length(file);
}

/// Makes the length field what follows it; a file has at least these two bytes.
fn set_length(file: &mut [u8]) {
    let length = (file.len() - 2) as u16;
    file[..2].copy_from_slice(&length.to_be_bytes());
}
