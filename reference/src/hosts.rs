//! Hosts: where units come from and go to.

use crate::{Refusal, Rule};
use std::collections::VecDeque;

pub trait Host {
    /// Takes the first waiting unit, if one waits.
    fn take(&mut self) -> Option<u16>;
    /// Writes a unit; refused (21) exactly when the room is 0.
    fn put(&mut self, unit: u16) -> Result<(), Refusal>;
    /// How many more units can be written.
    fn room(&self) -> usize;
}

/// Writes the first waiting unit back. Where the room is 0 that is refused,
/// whether or not a unit waits.
pub fn echo<H: Host>(host: &mut H) -> Result<Option<u16>, Refusal> {
    if host.room() == 0 {
        return Err(Refusal::new(Rule::NoRoom, 0));
    }
    match host.take() {
        None => Ok(None),
        Some(unit) => {
            host.put(unit)?;
            Ok(Some(unit))
        }
    }
}

/// How many units a label shows.
pub const SHOWN: usize = 96;

/// The label: units are keyed on a line of some slots, and up to 96 are shown.
#[derive(Clone, Debug)]
pub struct Label {
    slots: usize,
    line: VecDeque<u16>,
    shown: Vec<u16>,
}

impl Label {
    pub fn new(slots: usize) -> Label {
        Label { slots, line: VecDeque::with_capacity(slots), shown: Vec::with_capacity(SHOWN) }
    }

    /// Keys a unit; refused (20) exactly when every slot is in use.
    pub fn key(&mut self, unit: u16) -> Result<(), Refusal> {
        if self.line.len() == self.slots {
            return Err(Refusal::new(Rule::LineFull, 0));
        }
        self.line.push_back(unit);
        Ok(())
    }

    pub fn shown(&self) -> &[u16] {
        &self.shown
    }

    /// The units that wait.
    pub fn waiting(&self) -> Vec<u16> {
        self.line.iter().copied().collect()
    }
}

impl Host for Label {
    fn take(&mut self) -> Option<u16> {
        self.line.pop_front()
    }

    fn put(&mut self, unit: u16) -> Result<(), Refusal> {
        if self.room() == 0 {
            return Err(Refusal::new(Rule::NoRoom, 0));
        }
        self.shown.push(unit);
        Ok(())
    }

    fn room(&self) -> usize {
        SHOWN - self.shown.len()
    }
}

/// The most units that a recorder holds.
pub const RECORDED: usize = 32_767;

/// The recorder: bytes to read from, memory to write to.
pub struct Recorder<'a> {
    memory: &'a mut [u8],
    bytes: &'a [u8],
    count: usize,
}

impl<'a> Recorder<'a> {
    pub fn open(memory: &'a mut [u8], bytes: &'a [u8]) -> Recorder<'a> {
        let mut recorder = Recorder { memory, bytes, count: 0 };
        recorder.header();
        recorder
    }

    fn header(&mut self) {
        if self.memory.len() >= 3 {
            let size = (2 * self.count) as u16;
            self.memory[0] = 1;
            self.memory[1..3].copy_from_slice(&size.to_be_bytes());
        }
    }

    /// How many units are written.
    pub fn count(&self) -> usize {
        self.count
    }
}

impl Host for Recorder<'_> {
    fn take(&mut self) -> Option<u16> {
        if self.bytes.len() < 2 {
            return None;
        }
        let unit = u16::from_be_bytes([self.bytes[0], self.bytes[1]]);
        self.bytes = &self.bytes[2..];
        Some(unit)
    }

    fn put(&mut self, unit: u16) -> Result<(), Refusal> {
        if self.room() == 0 {
            return Err(Refusal::new(Rule::NoRoom, 0));
        }
        let at = 3 + 2 * self.count;
        self.memory[at..at + 2].copy_from_slice(&unit.to_be_bytes());
        self.count += 1;
        self.header();
        Ok(())
    }

    fn room(&self) -> usize {
        let most = if self.memory.len() < 3 { 0 } else { (self.memory.len() - 3) / 2 };
        most.min(RECORDED) - self.count
    }
}

#[cfg(test)]
mod tests {
    use super::*;

    /// The recorder on 7 bytes.
    #[test]
    fn recorder_example() {
        let mut memory = [9; 7];
        let mut r = Recorder::open(&mut memory, &[]);
        assert_eq!(r.room(), 2);
        r.put(65).unwrap();
        r.put(66).unwrap();
        let refused = r.put(67).unwrap_err();
        assert_eq!((refused.number(), refused.place, refused.layer()), (21, 0, crate::Layer::Host));
        assert_eq!(memory, [1, 0, 4, 0, 0x41, 0, 0x42]);
    }

    #[test]
    fn recorder_sizes() {
        for (m, room) in [(0, 0), (1, 0), (2, 0), (3, 0), (4, 0), (5, 1), (6, 1), (7, 2), (195, 96)] {
            let mut memory = vec![7; m];
            assert_eq!(Recorder::open(&mut memory, &[]).room(), room);
            let expected: Vec<u8> = (0..m).map(|i| if m < 3 || i > 2 { 7 } else { [1, 0, 0][i] }).collect();
            assert_eq!(memory, expected);
        }
        for (m, room) in [(65_536, 32_766), (65_537, 32_767), (65_538, 32_767), (65_539, 32_767), (90_000, 32_767)] {
            let mut memory = vec![7; m];
            let mut r = Recorder::open(&mut memory, &[]);
            assert_eq!(r.room(), room);
            while r.put(0x1234).is_ok() {}
            assert_eq!(r.count(), room);
            assert_eq!(memory[..3], [1, (2 * room / 256) as u8, (2 * room % 256) as u8]);
            assert!(memory[3 + 2 * room..].iter().all(|b| *b == 7));
        }
    }

    #[test]
    fn recorder_reads_pairs() {
        let mut memory = [0; 3];
        let mut r = Recorder::open(&mut memory, &[0x12, 0x34, 0xFF, 0xFE, 9]);
        assert_eq!((r.take(), r.take(), r.take()), (Some(0x1234), Some(0xFFFE), None));
    }

    #[test]
    fn label_line() {
        let mut label = Label::new(2);
        label.key(1).unwrap();
        label.key(2).unwrap();
        assert_eq!(label.key(3).unwrap_err(), Refusal::new(Rule::LineFull, 0));
        assert_eq!(label.take(), Some(1));
        label.key(4).unwrap();
        assert_eq!(label.waiting(), [2, 4]);
        assert_eq!(Label::new(0).key(1).unwrap_err().number(), 20);
        for i in 0..96 {
            assert_eq!(label.room(), 96 - i);
            label.put(i as u16).unwrap();
        }
        assert_eq!(label.put(0).unwrap_err(), Refusal::new(Rule::NoRoom, 0));
        assert_eq!(echo(&mut label).unwrap_err().number(), 21);
        assert_eq!(label.waiting(), [2, 4]);
    }

    #[test]
    fn echoes() {
        let mut label = Label::new(4);
        assert_eq!(echo(&mut label), Ok(None));
        label.key(7).unwrap();
        assert_eq!(echo(&mut label), Ok(Some(7)));
        assert_eq!(label.shown(), [7]);
    }
}
