//! Cases: their stored form, and what is done with one and printed of it.
//!
//! # The stored form
//!
//! Eight bytes `EJVCASE1`, then cases one after the other to the end. All
//! numbers are big-endian and unsigned. A case is
//!
//! | bytes | content |
//! |---|---|
//! | 4 | the length of the program file |
//! | so many | the program file |
//! | 4 | the length of the keys |
//! | so many | the keys |
//! | 4 | how many entries the sheet has |
//! | 4 | how many entries the pending memory has |
//! | 1 | how many damages of the sheet follow (mostly none) |
//! | 6 each | a damage: 4 bytes the entry, 2 bytes its new value |
//! | 4 | how many cells the stack has |
//! | 4 | how many bytes the recorder's memory has |
//! | 2 | how many slots the label's line has |
//! | 1 | how many slices follow (at least one) |
//! | 6 each | a slice: 4 bytes the fuel of the go, 2 bytes how many keys arrive before it |
//!
//! # What is done with a case
//!
//! Memory that is lent is filled before: entry j of the sheet is (7 × j + 3)
//! modulo 65,536, cell j of a stack likewise, byte j of the recorder's memory
//! (7 × j + 3) modulo 256.
//!
//! 1. `check` is given the file, the sheet and the pending memory.
//! 2. The digest of the whole sheet is taken, whatever `check` answered: 32-bit
//!    FNV-1a over the entries, each as two bytes, the high one first.
//! 3. The damages are put into the sheet in their order; one whose entry the
//!    sheet does not have is left out.
//! 4. `admit` is given the file and the sheet, also if `check` refused.
//! 5. If `admit` accepts, three runs are made, each on a fresh stack:
//!    - label: a new label; all keys (the pairs of the keys' bytes, an odd last
//!      byte ignored) are keyed in order, and those refused are lost; one go
//!      with a fuel of 10,000.
//!    - record: a recorder over fresh memory which is given all bytes of the
//!      keys; one go with a fuel of 10,000.
//!    - slices: a new label; for each slice the next keys are keyed, as many as
//!      it says or as are left, those refused being lost, and then comes a go
//!      with its fuel, whatever the go before answered.
//!
//! # What is printed of a case
//!
//! One line; its words are separated by one space:
//!
//! ```text
//! INDEX check CHECK SHEET admit ADMIT
//! INDEX check CHECK SHEET admit ok label STOP COUNT LOST UNITS record STOP COUNT WRITTEN MEMORY slices STOP SUM LOST UNITS
//! ```
//!
//! the first if `admit` refuses, the second if it accepts.
//!
//! - INDEX counts the cases from 0.
//! - CHECK is `PLACES PEAK`, `check`'s pair, or `refused NUMBER PLACE`.
//! - SHEET is the digest, eight capital hexadecimal digits.
//! - ADMIT is `refused NUMBER PLACE`.
//! - STOP is as the programs print it, but one word: `value:V`, `error:I`.
//!   Of the slices it is the last go's.
//! - COUNT is the go's count, SUM the sum of the counts of all slices.
//! - LOST is how many keys were refused.
//! - UNITS are the units written, four capital hexadecimal digits each without
//!   spaces, or `-` if there is none.
//! - WRITTEN is the number of units written, MEMORY the 32-bit FNV-1a digest of
//!   the recorder's whole memory afterwards, eight capital hexadecimal digits.

use crate::format::{INVOKEVIRTUAL, OUT};
use crate::hosts::{Label, Recorder};
use crate::machine::{start, Frame, Plain, Run, Step, Stop};
use crate::text;
use crate::verify::{admit, check, Admitted, Pair};
use crate::Refusal;
use std::fmt::Write;

/// The first bytes of a stored file of cases.
pub const MAGIC: &[u8; 8] = b"EJVCASE1";

/// The fuel of the label's and the recorder's one go.
pub const FUEL: u32 = 10_000;

/// A slice: the fuel of a go, and how many keys arrive before it.
#[derive(Clone, Copy, Debug, PartialEq, Eq)]
pub struct Slice {
    pub fuel: u32,
    pub keys: u16,
}

#[derive(Clone, Debug, PartialEq, Eq)]
pub struct Case {
    pub file: Vec<u8>,
    pub keys: Vec<u8>,
    pub sheet: u32,
    pub pending: u32,
    pub damages: Vec<(u32, u16)>,
    pub cells: u32,
    pub memory: u32,
    pub slots: u16,
    pub slices: Vec<Slice>,
}

impl Case {
    /// Adds the case's stored form.
    pub fn store(&self, to: &mut Vec<u8>) {
        to.extend((self.file.len() as u32).to_be_bytes());
        to.extend(&self.file);
        to.extend((self.keys.len() as u32).to_be_bytes());
        to.extend(&self.keys);
        to.extend(self.sheet.to_be_bytes());
        to.extend(self.pending.to_be_bytes());
        to.push(self.damages.len() as u8);
        for (entry, value) in &self.damages {
            to.extend(entry.to_be_bytes());
            to.extend(value.to_be_bytes());
        }
        to.extend(self.cells.to_be_bytes());
        to.extend(self.memory.to_be_bytes());
        to.extend(self.slots.to_be_bytes());
        to.push(self.slices.len() as u8);
        for slice in &self.slices {
            to.extend(slice.fuel.to_be_bytes());
            to.extend(slice.keys.to_be_bytes());
        }
    }

    /// Takes a stored case off the front of the bytes; none if they are cut.
    pub fn load(from: &mut &[u8]) -> Option<Case> {
        fn some<'b>(from: &mut &'b [u8], size: usize) -> Option<&'b [u8]> {
            if from.len() < size {
                return None;
            }
            let (head, rest) = from.split_at(size);
            *from = rest;
            Some(head)
        }
        fn number(from: &mut &[u8], size: usize) -> Option<u32> {
            Some(some(from, size)?.iter().fold(0, |n, b| n << 8 | *b as u32))
        }
        let size = number(from, 4)? as usize;
        let file = some(from, size)?.to_vec();
        let size = number(from, 4)? as usize;
        let keys = some(from, size)?.to_vec();
        let sheet = number(from, 4)?;
        let pending = number(from, 4)?;
        let mut damages = Vec::new();
        for _ in 0..number(from, 1)? {
            damages.push((number(from, 4)?, number(from, 2)? as u16));
        }
        let cells = number(from, 4)?;
        let memory = number(from, 4)?;
        let slots = number(from, 2)? as u16;
        let mut slices = Vec::new();
        for _ in 0..number(from, 1)? {
            slices.push(Slice { fuel: number(from, 4)?, keys: number(from, 2)? as u16 });
        }
        Some(Case { file, keys, sheet, pending, damages, cells, memory, slots, slices })
    }
}

// What comes of a case.

/// 32-bit FNV-1a.
pub fn digest(bytes: impl IntoIterator<Item = u8>) -> u32 {
    bytes.into_iter().fold(0x811C_9DC5, |h, b| (h ^ b as u32).wrapping_mul(0x0100_0193))
}

/// The digest of a sheet.
pub fn sheet_digest(sheet: &[u16]) -> u32 {
    digest(sheet.iter().flat_map(|e| e.to_be_bytes()))
}

/// Entries or cells as they are before.
pub fn filled(count: usize) -> Vec<u16> {
    (0..count).map(|j| (7 * j + 3) as u16).collect()
}

/// A recorder's memory as it is before.
pub fn filled_bytes(count: usize) -> Vec<u8> {
    (0..count).map(|j| (7 * j + 3) as u8).collect()
}

#[derive(Clone, Debug)]
pub struct OnLabel {
    pub stop: Option<Stop>,
    pub count: u64,
    pub lost: usize,
    pub units: Vec<u16>,
}

#[derive(Clone, Debug)]
pub struct OnRecorder {
    pub stop: Stop,
    pub count: u32,
    pub written: usize,
    pub memory: u32,
}

#[derive(Clone, Debug)]
pub struct Runs {
    pub label: OnLabel,
    pub record: OnRecorder,
    pub slices: OnLabel,
}

#[derive(Clone, Debug)]
pub struct Outcome {
    pub check: Result<Pair, Refusal>,
    /// the sheet after `check`
    pub sheet: Vec<u16>,
    /// the sheet that `admit` judged
    pub judged: Vec<u16>,
    pub admit: Result<(), Refusal>,
    pub runs: Option<Runs>,
}

/// Keys some units; answers how many were refused.
pub fn key(label: &mut Label, units: &[u16]) -> usize {
    units.iter().filter(|u| label.key(**u).is_err()).count()
}

/// Does all that is done with a case.
pub fn outcome(case: &Case) -> Outcome {
    let mut sheet = filled(case.sheet as usize);
    let checked = check(&case.file, &mut sheet, case.pending as usize);
    let mut judged = sheet.clone();
    for (entry, value) in &case.damages {
        if let Some(e) = judged.get_mut(*entry as usize) {
            *e = *value;
        }
    }
    let keys = text::pairs(&case.keys);
    let answer = admit(&case.file, &judged);
    let admitted = match answer {
        Err(refusal) => {
            return Outcome { check: checked, sheet, judged, admit: Err(refusal), runs: None };
        }
        Ok(admitted) => admitted,
    };

    let mut cells = filled(case.cells as usize);
    let mut label = Label::new(case.slots as usize);
    let lost = key(&mut label, &keys);
    let (stop, count) = start(&admitted, &mut cells).go(&mut label, FUEL);
    let on_label = OnLabel { stop: Some(stop), count: count as u64, lost, units: label.shown().to_vec() };

    let mut cells = filled(case.cells as usize);
    let mut memory = filled_bytes(case.memory as usize);
    let mut recorder = Recorder::open(&mut memory, &case.keys);
    let (stop, count) = start(&admitted, &mut cells).go(&mut recorder, FUEL);
    let written = recorder.count();
    let on_recorder = OnRecorder { stop, count, written, memory: digest(memory.iter().copied()) };

    let mut cells = filled(case.cells as usize);
    let mut label = Label::new(case.slots as usize);
    let mut in_slices = OnLabel { stop: None, count: 0, lost: 0, units: vec![] };
    let mut run = start(&admitted, &mut cells);
    let mut rest = &keys[..];
    for slice in &case.slices {
        let (arrive, later) = rest.split_at(rest.len().min(slice.keys as usize));
        rest = later;
        in_slices.lost += key(&mut label, arrive);
        let (stop, count) = run.go(&mut label, slice.fuel);
        in_slices.stop = Some(stop);
        in_slices.count += count as u64;
    }
    in_slices.units = label.shown().to_vec();

    let runs = Runs { label: on_label, record: on_recorder, slices: in_slices };
    Outcome { check: checked, sheet, judged: judged.clone(), admit: Ok(()), runs: Some(runs) }
}

/// One word for a stop.
pub fn stop_word(stop: Option<Stop>) -> String {
    match stop {
        None => "none".to_string(),
        Some(stop) => text::stop_words(stop).replace(' ', ":"),
    }
}

fn hex(units: &[u16]) -> String {
    if units.is_empty() {
        return "-".to_string();
    }
    units.iter().map(|u| format!("{:04X}", u)).collect()
}

/// The line that is printed of a case, without its line feed.
pub fn line(index: usize, case: &Case) -> String {
    let outcome = outcome(case);
    let mut out = format!("{} check ", index);
    match &outcome.check {
        Ok(pair) => write!(out, "{} {}", pair.places, pair.peak).unwrap(),
        Err(r) => write!(out, "refused {} {}", r.number(), r.place).unwrap(),
    }
    write!(out, " {:08X} admit ", sheet_digest(&outcome.sheet)).unwrap();
    match &outcome.admit {
        Ok(()) => write!(out, "ok").unwrap(),
        Err(r) => write!(out, "refused {} {}", r.number(), r.place).unwrap(),
    }
    if let Some(runs) = &outcome.runs {
        let (l, r, s) = (&runs.label, &runs.record, &runs.slices);
        write!(out, " label {} {} {} {}", stop_word(l.stop), l.count, l.lost, hex(&l.units)).unwrap();
        write!(out, " record {} {} {} {:08X}", stop_word(Some(r.stop)), r.count, r.written, r.memory).unwrap();
        write!(out, " slices {} {} {} {}", stop_word(s.stop), s.count, s.lost, hex(&s.units)).unwrap();
    }
    out
}

// The run against the plain machine.

/// What the plain machine saw on the way.
#[derive(Clone, Debug, Default)]
pub struct Seen {
    /// how often each opcode was done
    pub opcodes: Vec<u64>,
    /// how often OUT was done in each mode
    pub modes: [u64; 3],
    /// the most frames at a time
    pub frames: usize,
    /// the most operands of one frame
    pub operands: usize,
    /// the highest return place
    pub return_place: usize,
}

/// Runs the case's file on a label in the given goes, and the plain machine
/// fed the same units after it; says what differs. The stops are judged by the
/// state of the plain machine. None if the file is not admitted.
pub fn agree(case: &Case, slices: &[Slice], seen: &mut Seen) -> Result<(), String> {
    seen.opcodes.resize(256, 0);
    let o = outcome(case);
    if o.admit.is_err() {
        return Ok(());
    }
    let admitted = admit(&case.file, &o.judged).unwrap();
    let keys = text::pairs(&case.keys);
    let mut cells = filled(case.cells as usize);
    let untouched = cells.clone();
    let mut label = Label::new(case.slots as usize);
    let mut run = start(&admitted, &mut cells);
    let mut plain = Plain::new(&admitted, &[]);
    let mut rest = &keys[..];
    for (j, slice) in slices.iter().enumerate() {
        let (arrive, later) = rest.split_at(rest.len().min(slice.keys as usize));
        rest = later;
        for unit in arrive {
            if label.key(*unit).is_ok() {
                plain.units.push_back(*unit);
            }
        }
        let (stop, count) = run.go(&mut label, slice.fuel);
        if !run.began() {
            let expected = if slice.fuel == 0 { Stop::Spent } else { Stop::StackFull };
            if (stop, count) != (expected, 0) || run.cells() != &untouched[..untouched.len().min(65_535)] {
                return Err(format!("slice {}: a run that never began moved", j));
            }
            continue;
        }
        for done in 0..count {
            let mode = plain.state.mode as usize;
            match plain.step() {
                Step::Done(opcode) => {
                    seen.opcodes[opcode as usize] += 1;
                    if opcode == OUT {
                        seen.modes[mode] += 1;
                    }
                    seen.frames = seen.frames.max(plain.state.frames.len());
                    let running = plain.state.frames.last().unwrap();
                    seen.operands = seen.operands.max(running.operands.len());
                    if plain.state.frames.len() > 1 {
                        seen.return_place = seen.return_place.max(running.return_place);
                    }
                }
                other => return Err(format!("slice {}: plain machine {:?} after {}", j, other, done)),
            }
        }
        if run.state().as_ref() != Some(&plain.state) {
            return Err(format!("slice {}: states differ: {:?} and {:?}", j, run.state(), plain.state));
        }
        if label.shown() != &plain.written[..] || label.waiting() != Vec::from(plain.units.clone()) {
            return Err(format!("slice {}: units differ", j));
        }
        let expected = judge(&admitted, &run, &plain, count == slice.fuel);
        if stop != expected {
            return Err(format!("slice {}: stop {:?}, expected {:?}", j, stop, expected));
        }
    }
    Ok(())
}

/// The stop that is due before the plain machine's next instruction.
fn judge(admitted: &Admitted, run: &Run, plain: &Plain, spent: bool) -> Stop {
    if let Some(end) = plain.state.end {
        return Stop::Ended(end);
    }
    if spent {
        return Stop::Spent;
    }
    let mut ahead = plain.clone();
    match ahead.step() {
        Step::Waits => return Stop::NoUnit,
        Step::Done(OUT) if ahead.written.len() > 96 => return Stop::NoRoom,
        Step::Done(INVOKEVIRTUAL) => {
            let size = |f: &Frame| 3 + f.variables.len() + f.operands.len();
            let top: usize = plain.state.frames.iter().map(size).sum();
            assert_eq!(top, run.top(), "the frames lie without gaps");
            let (callee, below) = ahead.state.frames.split_last().unwrap();
            let base: usize = below.iter().map(size).sum();
            if base + 3 + callee.variables.len() + admitted.peak(callee.method) > run.cells().len() {
                return Stop::StackFull;
            }
        }
        _ => {}
    }
    panic!("no stop is due: {:?}", plain.state);
}

#[cfg(test)]
mod tests {
    use super::*;

    #[test]
    fn digests() {
        assert_eq!(digest([]), 0x811C_9DC5);
        assert_eq!(digest(*b"a"), 0xE40C_292C);
        assert_eq!(digest(*b"foobar"), 0xBF9C_F968);
        assert_eq!(sheet_digest(&[0x666F, 0x6F62, 0x6172]), 0xBF9C_F968);
    }

    /// The line of the file of 39 bytes, on 4 cells and on 3, and of no file.
    #[test]
    fn lines() {
        let file = vec![
            0x65, 0x4A, 0x56, 0x4D, 0x10, 0x02, 0, 0, 0, 0x25, 1, 0, 0, 0, 0, 0, 0x17, 0, 0, 0, 0, 0, 0x1A, 0xF0,
            0xF1, 0xB1, 8, 0, 3, 0, 0x6D, 0, 0x61, 0, 0x69, 0, 0x6E, 0, 0x41,
        ];
        let mut case = Case {
            file,
            keys: vec![0, 0x41, 0, 0x42, 9],
            sheet: 39,
            pending: 39,
            damages: vec![],
            cells: 4,
            memory: 7,
            slots: 1,
            slices: vec![Slice { fuel: 5, keys: 0 }, Slice { fuel: 2, keys: 1 }],
        };
        let mut sheet = vec![65_535; 39];
        sheet[13] = 1;
        sheet[23] = 0;
        sheet[24] = 1;
        sheet[25] = 0;
        let s = format!("{:08X}", sheet_digest(&sheet));
        let m = format!("{:08X}", digest([1, 0, 2, 0, 0x41, 7 * 5 + 3, 7 * 6 + 3]));
        assert_eq!(
            line(3, &case),
            format!("3 check 3 1 {} admit ok label return 3 1 0041 record return 3 1 {} slices spent 2 0 0041", s, m)
        );
        case.cells = 3;
        let m = format!("{:08X}", digest([1, 0, 0, 24, 31, 38, 45]));
        assert_eq!(
            line(3, &case),
            format!("3 check 3 1 {} admit ok label deep 0 1 - record deep 0 0 {} slices deep 0 0 -", s, m)
        );
        case.damages = vec![(99, 1), (24, 2)];
        assert_eq!(line(3, &case), format!("3 check 3 1 {} admit refused 18 23", s));
        case.file.clear();
        let s = format!("{:08X}", sheet_digest(&filled(39)));
        assert_eq!(line(0, &case), format!("0 check refused 2 0 {} admit refused 2 0", s));
    }
}
