//! Texts: what OUT writes, what a listing shows, what the programs print.

use crate::format::{self, decode, entry};
use crate::hosts::{Label, Recorder};
use crate::machine::{start, End, Stop};
use crate::verify::{admit, check, BLANK};
use crate::Refusal;
use std::fmt::Write;

// What OUT writes.

/// The signed reading of a pattern.
pub fn signed(pattern: u16) -> i32 {
    if pattern < 32_768 {
        pattern as i32
    } else {
        pattern as i32 - 65_536
    }
}

/// The units of one OUT, at most six.
#[derive(Clone, Copy, Debug)]
pub struct Text {
    units: [u16; 6],
    count: usize,
}

impl Text {
    pub fn units(&self) -> &[u16] {
        &self.units[..self.count]
    }

    pub fn count(&self) -> usize {
        self.count
    }
}

/// The units that OUT writes for a value. A mode above 2 is as mode 2.
pub fn text(mode: u8, value: u16) -> Text {
    let mut text = Text { units: [0; 6], count: 0 };
    if mode == 0 {
        text.units[0] = value;
        text.count = 1;
        return text;
    }
    let number = if mode == 1 { signed(value) } else { signed(value) / 10 };
    let mut rest = number.unsigned_abs();
    let mut digits = [0; 5];
    let mut count = 0;
    loop {
        digits[count] = 48 + (rest % 10) as u16;
        count += 1;
        rest /= 10;
        if rest == 0 {
            break;
        }
    }
    if number < 0 {
        text.units[0] = 45;
        text.count = 1;
    }
    while count > 0 {
        count -= 1;
        text.units[text.count] = digits[count];
        text.count += 1;
    }
    text
}

/// The same by the library's own decimal writing; for the plain machine, so
/// that each of the two checks the other.
pub fn written(mode: u8, value: u16) -> Vec<u16> {
    match mode {
        0 => vec![value],
        1 => signed(value).to_string().encode_utf16().collect(),
        _ => (signed(value) / 10).to_string().encode_utf16().collect(),
    }
}

// The listing.

/// A name or message, unit by unit.
pub fn shown(bytes: &[u8]) -> String {
    let mut out = String::new();
    for pair in bytes.chunks(2) {
        let unit = pair[0] as u32 * 256 + pair[1] as u32;
        if (0x20..=0x7E).contains(&unit) && unit != 0x5C {
            out.push(unit as u8 as char);
        } else {
            write!(out, "\\u{:04X}", unit).unwrap();
        }
    }
    out
}

/// The lines of `list` for a file.
pub fn listing(file: &[u8]) -> String {
    let mut sheet = vec![0; file.len()];
    if let Err(refusal) = check(file, &mut sheet, file.len()) {
        return format!("refused {} {}\n{}\n", refusal.number(), refusal.place, refusal.rule.words());
    }
    let reader = format::read(file).expect("check accepted the file");
    let mut out = String::new();
    writeln!(out, "program {}", shown(reader.program_name().bytes)).unwrap();
    for k in 0..reader.methods() {
        let code = reader.code(k).unwrap();
        writeln!(
            out,
            "method {} {} parameters {} locals {} code {} size {} peak {}",
            k,
            shown(reader.name(k).unwrap().bytes),
            reader.parameters(k).unwrap(),
            reader.locals(k).unwrap(),
            code.place,
            code.bytes.len(),
            sheet[entry(k)]
        )
        .unwrap();
        let mut at = 0;
        while at < code.bytes.len() {
            let i = decode(&code.bytes[at..]).expect("check accepted the file");
            let place = code.place + at;
            if sheet[place] == BLANK {
                write!(out, "place {} blank", place).unwrap();
            } else {
                write!(out, "place {} number {}", place, sheet[place]).unwrap();
            }
            write!(out, " {}", format::name_of(i.opcode).unwrap()).unwrap();
            if let Some(index) = i.index {
                write!(out, " {}", index).unwrap();
            }
            if let Some(number) = i.number {
                write!(out, " {}", number).unwrap();
            }
            out.push('\n');
            at += i.length;
        }
    }
    for i in 0..reader.constants() {
        let bytes = reader.constant(i).unwrap().bytes;
        writeln!(out, "constant {} {}", i, i16::from_be_bytes([bytes[0], bytes[1]])).unwrap();
    }
    for i in 0..reader.messages() {
        writeln!(out, "message {} {}", i, shown(reader.message(i).unwrap().bytes)).unwrap();
    }
    out
}

// What ejvm and record print.

/// The word or words of a stop.
pub fn stop_words(stop: Stop) -> String {
    match stop {
        Stop::Ended(End::Plain) => "return".to_string(),
        Stop::Ended(End::Value(v)) => format!("value {}", signed(v)),
        Stop::Ended(End::Halt) => "halt".to_string(),
        Stop::Ended(End::Error(i)) => format!("error {}", i),
        Stop::Spent => "spent".to_string(),
        Stop::NoUnit => "waiting".to_string(),
        Stop::NoRoom => "full".to_string(),
        Stop::StackFull => "deep".to_string(),
    }
}

/// The units in pairs of bytes, the high byte first; an odd last byte is
/// ignored.
pub fn pairs(bytes: &[u8]) -> Vec<u16> {
    bytes.chunks_exact(2).map(|p| p[0] as u16 * 256 + p[1] as u16).collect()
}

/// The longest file that `ejvm` and `record` run.
pub const LARGE: usize = 8_192;

const SLOTS: usize = 256;
const STACK: usize = 2_048;
const FUEL: u32 = 10_000;
const MEMORY: usize = 195;

fn refused(refusal: Refusal) -> String {
    format!("ejvm 1\nrefused {} {}\n", refusal.number(), refusal.place)
}

/// What `ejvm` prints.
pub fn ejvm(file: &[u8], keys: &[u8]) -> String {
    if file.len() > LARGE {
        return "large\n".to_string();
    }
    let mut label = Label::new(SLOTS);
    for unit in pairs(keys).iter().take(SLOTS) {
        label.key(*unit).expect("the line has a slot for each");
    }
    let mut sheet = vec![0; file.len()];
    if let Err(refusal) = check(file, &mut sheet, file.len()) {
        return refused(refusal);
    }
    let admitted = match admit(file, &sheet) {
        Err(refusal) => return refused(refusal),
        Ok(admitted) => admitted,
    };
    let mut cells = vec![0; STACK];
    let (stop, count) = start(&admitted, &mut cells).go(&mut label, FUEL);
    let mut out = format!("ejvm 1\nstop {}\ncount {}\nunits", stop_words(stop), count);
    for unit in label.shown() {
        write!(out, " {:04X}", unit).unwrap();
    }
    out.push('\n');
    out
}

/// What `record` prints.
pub fn record(file: &[u8], keys: &[u8]) -> String {
    if file.len() > LARGE {
        return "large\n".to_string();
    }
    let keys = &keys[..keys.len().min(2 * SLOTS)];
    let mut sheet = vec![0; file.len()];
    if let Err(refusal) = check(file, &mut sheet, file.len()) {
        return refused(refusal);
    }
    let admitted = match admit(file, &sheet) {
        Err(refusal) => return refused(refusal),
        Ok(admitted) => admitted,
    };
    let mut cells = vec![0; STACK];
    let mut memory = vec![0; MEMORY];
    let mut recorder = Recorder::open(&mut memory, keys);
    let (stop, count) = start(&admitted, &mut cells).go(&mut recorder, FUEL);
    let mut out = format!("ejvm 1\nstop {}\ncount {}\nmemory", stop_words(stop), count);
    for byte in &memory {
        write!(out, " {:02X}", byte).unwrap();
    }
    out.push('\n');
    out
}

#[cfg(test)]
mod tests {
    use super::*;

    fn of(units: &[u16]) -> String {
        String::from_utf16(units).unwrap()
    }

    /// The table of patterns.
    #[test]
    fn patterns() {
        for (p, one, two) in [
            (0, "0", "0"),
            (5, "5", "0"),
            (9, "9", "0"),
            (10, "10", "1"),
            (3505, "3505", "350"),
            (32767, "32767", "3276"),
            (32768, "-32768", "-3276"),
            (65526, "-10", "-1"),
            (65531, "-5", "0"),
            (65535, "-1", "0"),
        ] {
            assert_eq!(text(0, p).units(), [p]);
            assert_eq!(of(text(1, p).units()), one);
            assert_eq!(of(text(2, p).units()), two);
            assert_eq!(of(text(3, p).units()), two);
            assert_eq!(of(text(255, p).units()), two);
        }
        assert_eq!(text(1, 65526).units(), [45, 49, 48]);
    }

    #[test]
    fn every_pattern_both_ways() {
        let mut most = [0; 3];
        for mode in 0..3 {
            for p in 0..=65_535 {
                let t = text(mode, p);
                assert_eq!(t.units(), written(mode, p));
                most[mode as usize] = t.count().max(most[mode as usize]);
            }
        }
        assert_eq!(most, [1, 6, 5]);
    }

    #[test]
    fn names() {
        assert_eq!(shown(&[0, 0x41, 0, 0x0A, 0, 0x5C, 0, 0x20, 0, 0x7E, 0, 0x7F, 0x20, 0x41]), "A\\u000A\\u005C ~\\u007F\\u2041");
        assert_eq!(shown(&[]), "");
    }
}
