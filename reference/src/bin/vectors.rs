//! `vectors PATH` reads a stored file of cases (standard input without PATH)
//! and prints one line for each.
//!
//! # The stored file
//!
//! Eight bytes `EJVCASE1`, then cases one after the other to the end. All
//! numbers are big-endian and unsigned. A case is
//!
//! | bytes | content |
//! |---|---|
//! | 4 | the length of the program file |
//! | so many | the program file |
//! | 4 | the length of the keys |
//! | so many | the keys |
//! | 4 | how many entries the sheet has |
//! | 4 | how many entries the pending memory has |
//! | 1 | how many damages of the sheet follow (mostly none) |
//! | 6 each | a damage: 4 bytes the entry, 2 bytes its new value |
//! | 4 | how many cells the stack has |
//! | 4 | how many bytes the recorder's memory has |
//! | 2 | how many slots the label's line has |
//! | 1 | how many slices follow (at least one) |
//! | 6 each | a slice: 4 bytes the fuel of the go, 2 bytes how many keys arrive before it |
//!
//! # The lines
//!
//! ```text
//! INDEX check CHECK SHEET admit ADMIT
//! INDEX check CHECK SHEET admit ok label STOP COUNT LOST UNITS record STOP COUNT WRITTEN MEMORY slices STOP SUM LOST UNITS
//! ```
//!
//! What exactly is done with a case, how lent memory is filled before, and
//! what each word of a line means stands at the top of src/cases.rs.

use reference::{cases, files};
use std::io::Read;

fn main() {
    let mut bytes = Vec::new();
    let read = match std::env::args_os().nth(1) {
        Some(path) => std::fs::File::open(path).and_then(|mut f| f.read_to_end(&mut bytes)),
        None => std::io::stdin().lock().read_to_end(&mut bytes),
    };
    if let Err(e) = read {
        eprintln!("{}", e);
        std::process::exit(1);
    }
    let mut rest = match bytes.strip_prefix(&cases::MAGIC[..]) {
        Some(rest) => rest,
        None => {
            eprintln!("not a file of cases");
            std::process::exit(1);
        }
    };
    let mut index = 0;
    while !rest.is_empty() {
        let case = match cases::Case::load(&mut rest) {
            Some(case) => case,
            None => {
                eprintln!("case {} is cut", index);
                std::process::exit(1);
            }
        };
        files::print(format!("{}\n", cases::line(index, &case)).as_bytes());
        index += 1;
    }
}
