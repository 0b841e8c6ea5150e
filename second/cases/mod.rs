//! Cases: a systematic part, the same for every seed but for what the lent memory holds, and random ones.

mod any;
pub mod draft;
pub mod faults;
mod files;
mod fixed;
mod fixed_bags;
mod fixed_buffers;
mod fixed_dosing;
pub mod fixed_examples;
mod fixed_files;
mod fixed_forms;
mod fixed_long;
mod fixed_records;
mod fixed_reports;
mod fixed_rooms;
mod fixed_tables;
mod records;
mod reports;
mod spans;
mod tables;

use crate::numbers::Numbers;
use std::io::{self, Write};

/// Writes n cases: first the systematic part, then random ones. The same seed and n always give the same bytes, and a smaller n gives the first of them.
pub fn write_all(seed: u64, n: u64, out: &mut dyn Write) -> io::Result<()> {
    let mut numbers = Numbers::new(seed);
    let fixed = fixed::bodies(&mut numbers);
    let mut bodies = fixed.into_iter();
    for _ in 0..n {
        let body = bodies.next().unwrap_or_else(|| any::body(&mut numbers));
        write_case(&body, out)?;
    }
    Ok(())
}

/// Writes n random cases.
pub fn write_fresh(seed: u64, n: u64, out: &mut dyn Write) -> io::Result<()> {
    let mut numbers = Numbers::new(seed);
    for _ in 0..n {
        write_case(&any::body(&mut numbers), out)?;
    }
    Ok(())
}

fn write_case(body: &[u8], out: &mut dyn Write) -> io::Result<()> {
    out.write_all(&(body.len() as u16).to_be_bytes())?;
    out.write_all(body)
}
