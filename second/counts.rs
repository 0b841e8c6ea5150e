//! How many cases of an input got which answer.

use crate::answers::{self, NAMES};
use crate::form::{Input, Next};

/// The numbers of refusal that each entry can give, kind by kind, with 0 for an accepted case.
const GIVES: [&[usize]; NAMES.len()] = [
    &[0],
    &[0, 1, 2, 3, 4, 5, 6],
    &[0, 1, 2, 3, 4, 5, 6, 7],
    &[0, 1, 2, 3, 4, 5, 6, 7, 8],
    &[0, 1, 2, 3, 4, 5, 6, 7, 8],
    &[0, 1, 2, 3, 4, 5, 6],
    &[0, 1, 2, 3, 4, 5, 6, 7, 12, 13],
    &[0, 1, 2, 3, 4, 5, 6, 7, 8],
    &[0, 1, 2, 3, 4, 5, 6, 7],
    &[0, 1, 2, 3, 4, 5, 6, 7, 9],
    &[0, 1, 2, 3, 4, 5, 6, 7, 9],
    &[0, 1, 2, 3, 4, 5, 6, 7, 9, 10, 11],
    &[0, 1, 2, 3, 4, 5, 6, 7, 8, 9, 10, 11],
    &[0, 1, 2, 3, 4, 5, 6, 7, 9, 10, 11],
    &[0, 1, 2, 3, 4, 5, 6, 7, 10, 11],
    &[0, 1, 2, 3, 4, 5, 6, 7, 8, 10, 11, 14, 15],
];

/// How many numbers of refusal there are, 0 among them.
const NUMBERS: usize = 16;

/// What was met in an input.
struct Counts {
    /// By kind, from 1, and number.
    met: [[u64; NUMBERS]; NAMES.len()],
    unknown: u64,
    /// Whether the input ended as it should.
    whole: bool,
}

/// The table of an input's counts, and whether nothing is missing in it.
pub fn report(input: &[u8]) -> (String, bool) {
    let counts = count(input);
    let mut text = table(&counts);
    let missing = missing(&counts);
    for line in &missing {
        text.push_str(line);
    }
    if !counts.whole {
        text.push_str("the input is cut off or has a case that is too long\n");
    }
    let known: u64 = counts.met.iter().flatten().sum();
    text.push_str(&format!("total {} cases, {} of them of unknown kinds\n", known + counts.unknown, counts.unknown));
    (text, missing.is_empty() && counts.whole)
}

fn count(input: &[u8]) -> Counts {
    let mut counts = Counts { met: [[0; NUMBERS]; NAMES.len()], unknown: 0, whole: false };
    let mut input = Input::new(input);
    while let Next::Body(body) = input.take() {
        let answer = answers::answer(body);
        match answer.kind {
            1..=16 => counts.met[usize::from(answer.kind) - 1][usize::from(answer.number)] += 1,
            _ => counts.unknown += 1,
        }
    }
    // A case that stopped the count is met again here.
    counts.whole = input.take() == Next::End;
    counts
}

fn table(counts: &Counts) -> String {
    let mut text = format!("{:<10}{:>6}", "kind", "all");
    for number in 0..NUMBERS {
        text.push_str(&format!("{:>6}", number));
    }
    text.push('\n');
    for (name, met) in NAMES.iter().zip(&counts.met) {
        text.push_str(&format!("{:<10}{:>6}", name, met.iter().sum::<u64>()));
        for met in met {
            text.push_str(&format!("{:>6}", met));
        }
        text.push('\n');
    }
    text
}

/// A line for each number that an entry can give and that wasn't met at it.
fn missing(counts: &Counts) -> Vec<String> {
    let mut lines = Vec::new();
    for (kind, gives) in GIVES.iter().enumerate() {
        for number in gives.iter() {
            if counts.met[kind][*number] == 0 {
                lines.push(format!("missing: no case of {} is answered {}\n", NAMES[kind], number));
            }
        }
    }
    lines
}
