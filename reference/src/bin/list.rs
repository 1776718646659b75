//! Lists a program file.

use reference::{files, text};

fn main() {
    let path = std::env::args_os().nth(1).unwrap_or_else(|| "program.ejvm".into());
    // one byte past the longest file tells that it is too long
    let file = files::contents(std::path::Path::new(&path), 65_536);
    files::print(text::listing(&file).as_bytes());
}
