//! `coverage SEED COUNT` makes the cases that `makecases SEED COUNT` writes,
//! does what `vectors` does with each, follows the plain machine beside it,
//! and prints how often each thing was reached. It ends with a list of what
//! was never reached, and with the status 1 if that list is not empty.

use reference::cases::Seen;
use reference::generator::case;
use reference::hosts::{Host, Recorder};
use reference::machine::start;
use reference::reached::{self, kind_of, Counts};
use reference::verify::{admit, check};

/// A recorder filled to its last unit, which takes more than 10,000
/// instructions.
fn long_recorder(c: &mut Counts) {
    let code = [0xFA, 1, 0x10, 0x80, 0, 0xF1, 0xA7, 0xFF, 0xFC, 0xB1];
    let mut file = vec![0x65, 0x4A, 0x56, 0x4D, 0x10, 2, 0, 0, 0, 38, 1, 0, 0];
    file.extend([0, 0, 0, 23, 0, 0, 0, 0, 0, 33]);
    file.extend(code);
    file.extend([2, 0, 10, 0, 0x6D, 0, 0x41]);
    let mut sheet = vec![0; file.len()];
    check(&file, &mut sheet, file.len()).unwrap();
    let admitted = admit(&file, &sheet).unwrap();
    for size in [65_535, 65_536, 65_537, 65_538, 80_000] {
        let mut cells = vec![0; 10];
        let mut memory = vec![0; size];
        let mut recorder = Recorder::open(&mut memory, &[]);
        let (stop, count) = start(&admitted, &mut cells).go(&mut recorder, 1_000_000);
        let answer = format!("{} bytes: {}, count {}, written {}, room {}", size, kind_of(Some(stop)), count, recorder.count(), recorder.room());
        c.one("a recorder filled with six units at a time", answer);
    }
}

fn main() {
    let numbers: Vec<u64> = std::env::args().skip(1).filter_map(|a| a.parse().ok()).collect();
    if numbers.len() != 2 {
        eprintln!("usage: coverage SEED COUNT");
        std::process::exit(2);
    }
    let mut c = reached::nothing();
    let mut highest = Seen::default();
    for index in 0..numbers[1] as usize {
        let (case, kind) = case(numbers[0], index);
        let (here, seen) = reached::of(&case, kind).unwrap_or_else(|e| {
            println!("case {} (seed {}): {}", index, numbers[0], e);
            std::process::exit(1)
        });
        c.join(&here);
        highest.frames = highest.frames.max(seen.frames);
        highest.operands = highest.operands.max(seen.operands);
        highest.return_place = highest.return_place.max(seen.return_place);
    }
    c.add("highest", "frames at a time", highest.frames as u64);
    c.add("highest", "operands of a frame", highest.operands as u64);
    c.add("highest", "return place", highest.return_place as u64);
    long_recorder(&mut c);

    let never = c.print(|line| println!("{}", line));
    println!("the run and the plain machine agree on every case");
    if never.is_empty() {
        println!("everything listed was reached");
    } else {
        for n in &never {
            println!("never reached: {}", n);
        }
        std::process::exit(1);
    }
}
