//! Runs `program.ejvm` with `keys.bin` on a label.

use reference::text;

fn main() {
    reference::files::program(text::ejvm);
}
