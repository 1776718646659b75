//! `makecases SEED COUNT > cases.bin` writes cases in their stored form, which
//! is described at the top of src/cases.rs.

use reference::{cases, files, generator};

fn main() {
    let numbers: Vec<u64> = std::env::args().skip(1).filter_map(|a| a.parse().ok()).collect();
    if numbers.len() != 2 {
        eprintln!("usage: makecases SEED COUNT > cases.bin");
        std::process::exit(2);
    }
    files::print(cases::MAGIC);
    for index in 0..numbers[1] as usize {
        let mut bytes = Vec::new();
        generator::case(numbers[0], index).0.store(&mut bytes);
        files::print(&bytes);
    }
}
