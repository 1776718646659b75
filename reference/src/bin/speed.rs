//! `speed PATH FUEL` runs a program file on 2,048 cells with a label, in one
//! go with the fuel, and prints the stop, the count and the time that one
//! instruction took. For comparing engines.

use reference::hosts::Label;
use reference::machine::start;
use reference::text::stop_words;
use reference::verify::{admit, check};

fn main() {
    let arguments: Vec<String> = std::env::args().skip(1).collect();
    let fuel = arguments.get(1).and_then(|a| a.parse::<u32>().ok());
    let (path, fuel) = match (arguments.first(), fuel) {
        (Some(path), Some(fuel)) => (path, fuel),
        _ => {
            eprintln!("usage: speed PATH FUEL");
            std::process::exit(2);
        }
    };
    let file = std::fs::read(path).expect("the file is read");
    let mut sheet = vec![0; file.len()];
    let pair = check(&file, &mut sheet, file.len()).expect("the file is accepted");
    let admitted = admit(&file, &sheet).expect("the sheet is accepted");
    let mut cells = vec![0; 2_048];
    let mut label = Label::new(256);
    let mut run = start(&admitted, &mut cells);
    let before = std::time::Instant::now();
    let (stop, count) = run.go(&mut label, fuel);
    let nanos = before.elapsed().as_nanos() as f64;
    println!("places {} peak {} stop {} count {}", pair.places, pair.peak, stop_words(stop), count);
    println!("{:.3} ns for one instruction, {:.3} s in all", nanos / count.max(1) as f64, nanos / 1e9);
}
