//! `choosecases SEED COUNT SMALL > cases.bin` goes through the cases that
//! `makecases SEED COUNT` writes and chooses some, so that a small file
//! reaches all that the many reach: the first SMALL small ones, and of the
//! others those that reach what few of the chosen ones did so far. Of the
//! large ones hardly any is wanted. It tells how often each thing is reached,
//! on standard error, and ends with the status 1 if something never is.

use reference::{cases, files, generator, reached};
use std::collections::BTreeMap;

/// The stored bytes of a case that is small.
const SMALL: usize = 1_024;

/// How many of the chosen cases are to reach a thing before a case of so many
/// bytes is no longer wanted for it.
fn wanted(size: usize) -> u64 {
    match size {
        0..=SMALL => 60,
        0..=4_096 => 12,
        0..=16_384 => 4,
        _ => 2,
    }
}

fn main() {
    let numbers: Vec<u64> = std::env::args().skip(1).filter_map(|a| a.parse().ok()).collect();
    if numbers.len() != 3 {
        eprintln!("usage: choosecases SEED COUNT SMALL > cases.bin");
        std::process::exit(2);
    }
    let mut sums = reached::nothing();
    let mut chosen: BTreeMap<(String, String), u64> = BTreeMap::new();
    let (mut count, mut small) = (0, 0);
    files::print(cases::MAGIC);
    for index in 0..numbers[1] as usize {
        let (case, kind) = generator::case(numbers[0], index);
        let mut bytes = Vec::new();
        case.store(&mut bytes);
        let (here, _) = reached::of(&case, kind).unwrap_or_else(|e| {
            eprintln!("case {} (seed {}): {}", index, numbers[0], e);
            std::process::exit(1)
        });
        let new = here.reached().iter().any(|thing| chosen.get(thing).copied().unwrap_or(0) < wanted(bytes.len()));
        let first = bytes.len() <= SMALL && small < numbers[2];
        if !new && !first {
            continue;
        }
        for thing in here.reached() {
            *chosen.entry(thing).or_default() += 1;
        }
        sums.join(&here);
        count += 1;
        small += (bytes.len() <= SMALL) as u64;
        files::print(&bytes);
    }
    let never = sums.print(|line| eprintln!("{}", line));
    eprintln!("{} cases chosen, {} of them small", count, small);
    for n in &never {
        eprintln!("never reached: {}", n);
    }
    std::process::exit(!never.is_empty() as i32);
}
