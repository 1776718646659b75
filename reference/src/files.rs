//! Reading files and printing, for the programs.

use std::fs::File;
use std::io::{ErrorKind, Read, Write};
use std::path::Path;
use std::process::exit;

/// Tells an error in one line and leaves with the status 1.
fn fail(what: String) -> ! {
    eprintln!("{}", what.replace('\n', " "));
    exit(1)
}

/// The first bytes of a file, at most `limit`. A missing file is empty.
pub fn contents(path: &Path, limit: u64) -> Vec<u8> {
    let mut bytes = Vec::new();
    let read = File::open(path).and_then(|f| f.take(limit).read_to_end(&mut bytes));
    match read {
        Ok(_) => bytes,
        Err(e) if e.kind() == ErrorKind::NotFound => Vec::new(),
        Err(e) => fail(format!("{}: {}", path.display(), e)),
    }
}

/// Writes to standard output.
pub fn print(bytes: &[u8]) {
    let mut out = std::io::stdout().lock();
    if let Err(e) = out.write_all(bytes).and_then(|_| out.flush()) {
        fail(format!("standard output: {}", e));
    }
}

/// `ejvm` and `record`: reads the two files and prints what is made of them.
pub fn program(run: fn(&[u8], &[u8]) -> String) {
    // one byte past the limit tells that the file is large
    let file = contents(Path::new("program.ejvm"), crate::text::LARGE as u64 + 1);
    if file.len() > crate::text::LARGE {
        print(run(&file, &[]).as_bytes());
        return;
    }
    let keys = contents(Path::new("keys.bin"), 512);
    print(run(&file, &keys).as_bytes());
}
