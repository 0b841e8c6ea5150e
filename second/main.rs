//! The second program: it makes cases for the entries of the library, and answers cases by the rules alone, in the
//! plainest way but for the run, which keeps its reservations as it must. Its answers are there to be compared with the
//! library's.

#[cfg(test)]
mod anew;
mod answers;
mod bags;
mod cases;
mod counts;
#[cfg(test)]
mod dosed;
#[cfg(test)]
mod examples;
mod file;
mod form;
mod kept;
mod numbers;
mod record;
mod refusal;
mod rule;
mod run;
mod table;

use std::env;
use std::io::{self, BufWriter, Read, Write};
use std::process;

const USE: &str = "use: second cases SEED N | second fresh SEED N | second answers | second counts";

/// What keeps a verb from its work, as one line for standard error.
type Trouble = String;

/// Writes so many cases of a seed.
type Writer = fn(u64, u64, &mut dyn Write) -> io::Result<()>;

fn main() {
    let arguments: Vec<String> = env::args_os().skip(1).map(|word| word.to_string_lossy().into_owned()).collect();
    let words: Vec<&str> = arguments.iter().map(String::as_str).collect();
    let done = match words.as_slice() {
        ["cases", seed, n] => make(cases::write_all, seed, n),
        ["fresh", seed, n] => make(cases::write_fresh, seed, n),
        ["answers"] => answer(),
        ["counts"] => count(),
        _ => Err(USE.to_string()),
    };
    match done {
        Ok(status) => process::exit(status),
        Err(trouble) => {
            eprintln!("second: {}", trouble);
            process::exit(2);
        }
    }
}

/// `cases SEED N` and `fresh SEED N`
fn make(write: Writer, seed: &str, n: &str) -> Result<i32, Trouble> {
    let seed = number(seed, "SEED")?;
    let n = number(n, "N")?;
    let mut out = BufWriter::new(io::stdout().lock());
    write(seed, n, &mut out).and_then(|()| out.flush()).map_err(not_written)?;
    Ok(0)
}

/// `answers`
fn answer() -> Result<i32, Trouble> {
    let input = standard_input()?;
    let mut out = BufWriter::new(io::stdout().lock());
    answers::answer_all(&input, &mut out).and_then(|()| out.flush()).map_err(not_written)?;
    Ok(0)
}

/// `counts`: status 1 where something is missing.
fn count() -> Result<i32, Trouble> {
    let (text, complete) = counts::report(&standard_input()?);
    io::stdout().write_all(text.as_bytes()).map_err(not_written)?;
    Ok(if complete { 0 } else { 1 })
}

fn number(word: &str, name: &str) -> Result<u64, Trouble> {
    word.parse().map_err(|_| format!("{} must be a whole number below 2^64, not '{}'", name, word))
}

fn standard_input() -> Result<Vec<u8>, Trouble> {
    let mut input = Vec::new();
    io::stdin().lock().read_to_end(&mut input).map_err(|error| format!("standard input: {}", error))?;
    Ok(input)
}

fn not_written(error: io::Error) -> Trouble {
    format!("standard output: {}", error)
}
