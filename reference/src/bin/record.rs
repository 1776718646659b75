//! Runs `program.ejvm` with `keys.bin` on a recorder.

use reference::text;

fn main() {
    reference::files::program(text::record);
}
