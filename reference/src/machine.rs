//! The machine: a run on a stack of cells, and the plain machine.

use crate::format::*;
use crate::hosts::Host;
use crate::text;
use crate::verify::Admitted;
use std::collections::VecDeque;

/// How a run can end.
#[derive(Clone, Copy, Debug, PartialEq, Eq)]
pub enum End {
    Plain,
    Value(u16),
    Halt,
    Error(u8),
}

/// Why a go stops.
#[derive(Clone, Copy, Debug, PartialEq, Eq)]
pub enum Stop {
    Ended(End),
    Spent,
    NoUnit,
    NoRoom,
    StackFull,
}

/// The most cells that are used.
pub const CELLS: usize = 65_535;

/// Stands for no place and no base in main's frame.
pub const NOWHERE: u16 = 65_535;

/// A run. If main's frame did not fit it never began.
pub struct Run<'r> {
    admitted: &'r Admitted<'r>,
    cells: &'r mut [u16],
    began: bool,
    base: usize,
    top: usize,
    place: usize,
    mode: u8,
    end: Option<End>,
}

/// Lays main's frame on the cells, if it fits.
pub fn start<'r>(admitted: &'r Admitted<'r>, cells: &'r mut [u16]) -> Run<'r> {
    let used = cells.len().min(CELLS);
    let cells = &mut cells[..used];
    let reader = admitted.reader();
    let locals = reader.locals(0).unwrap();
    let began = 3 + locals + admitted.peak(0) <= used;
    let top = 3 + locals;
    if began {
        cells[0] = 0;
        cells[1] = NOWHERE;
        cells[2] = NOWHERE;
        cells[3..top].fill(0);
    }
    let place = reader.code(0).unwrap().place;
    Run { admitted, cells, began, base: 0, top, place, mode: 0, end: None }
}

/// Two bytes, the high one first.
#[inline(always)]
fn word(file: &[u8], at: usize) -> u16 {
    let pair = &file[at..at + 2];
    u16::from_be_bytes([pair[0], pair[1]])
}

/// The target of the jump at the place.
#[inline(always)]
fn target(file: &[u8], place: usize) -> usize {
    place.wrapping_add(word(file, place + 1) as i16 as isize as usize)
}

impl Run<'_> {
    /// Does instructions until a stop; answers it and their count.
    pub fn go<H: Host>(&mut self, host: &mut H, fuel: u32) -> (Stop, u32) {
        if !self.began {
            return (if fuel == 0 { Stop::Spent } else { Stop::StackFull }, 0);
        }
        if let Some(end) = self.end {
            return (Stop::Ended(end), 0);
        }

        let file = self.admitted.file();
        let sheet = self.admitted.sheet();
        let constants = self.admitted.reader().constants_at();
        let cells: &mut [u16] = self.cells;
        let mut place = self.place;
        let mut top = self.top;
        let mut base = self.base;
        let mut mode = self.mode;
        let mut count: u32 = 0;

        let stop = loop {
            if count == fuel {
                break Stop::Spent;
            }
            match file[place] {
                NOP | WIDE => place += 1,
                BIPUSH => {
                    cells[top] = word(file, place + 1);
                    top += 1;
                    place += 3;
                }
                LDC => {
                    cells[top] = word(file, constants + 2 * file[place + 1] as usize);
                    top += 1;
                    place += 2;
                }
                ILOAD => {
                    cells[top] = cells[base + 3 + file[place + 1] as usize];
                    top += 1;
                    place += 2;
                }
                ISTORE => {
                    top -= 1;
                    cells[base + 3 + file[place + 1] as usize] = cells[top];
                    place += 2;
                }
                POP => {
                    top -= 1;
                    place += 1;
                }
                DUP => {
                    cells[top] = cells[top - 1];
                    top += 1;
                    place += 1;
                }
                SWAP => {
                    cells.swap(top - 1, top - 2);
                    place += 1;
                }
                IADD => {
                    top -= 1;
                    cells[top - 1] = cells[top - 1].wrapping_add(cells[top]);
                    place += 1;
                }
                ISUB => {
                    top -= 1;
                    cells[top - 1] = cells[top - 1].wrapping_sub(cells[top]);
                    place += 1;
                }
                IAND => {
                    top -= 1;
                    cells[top - 1] &= cells[top];
                    place += 1;
                }
                IOR => {
                    top -= 1;
                    cells[top - 1] |= cells[top];
                    place += 1;
                }
                IINC => {
                    let variable = &mut cells[base + 3 + file[place + 1] as usize];
                    *variable = variable.wrapping_add(word(file, place + 2));
                    place += 4;
                }
                IFEQ => {
                    top -= 1;
                    place = if cells[top] == 0 { target(file, place) } else { place + 3 };
                }
                IFLT => {
                    top -= 1;
                    place = if cells[top] >= 32_768 { target(file, place) } else { place + 3 };
                }
                IF_ICMPEQ => {
                    top -= 2;
                    place = if cells[top] == cells[top + 1] { target(file, place) } else { place + 3 };
                }
                GOTO => place = target(file, place),
                INVOKEVIRTUAL => {
                    let method = file[place + 1];
                    let row = entry(method as usize);
                    let parameters = file[row + 4] as usize;
                    let locals = file[row + 5] as usize;
                    let callee = top - parameters;
                    if callee + 3 + parameters + locals + sheet[row] as usize > cells.len() {
                        break Stop::StackFull;
                    }
                    // the parameters move up by three cells
                    for from in (callee..top).rev() {
                        cells[from + 3] = cells[from];
                    }
                    cells[callee] = method as u16;
                    cells[callee + 1] = (place + 2) as u16;
                    cells[callee + 2] = base as u16;
                    top += 3;
                    cells[top..top + locals].fill(0);
                    top += locals;
                    base = callee;
                    // the file has at most 65,535 bytes, so the low half of
                    // the code address is all of it
                    place = word(file, row + 2) as usize;
                }
                IRETURN => {
                    let value = cells[top - 1];
                    if cells[base + 2] == NOWHERE {
                        self.end = Some(End::Value(value));
                        count += 1;
                        break Stop::Ended(End::Value(value));
                    }
                    place = cells[base + 1] as usize;
                    top = base;
                    base = cells[base + 2] as usize;
                    cells[top] = value;
                    top += 1;
                }
                RETURN => {
                    if cells[base + 2] == NOWHERE {
                        self.end = Some(End::Plain);
                        count += 1;
                        break Stop::Ended(End::Plain);
                    }
                    place = cells[base + 1] as usize;
                    top = base;
                    base = cells[base + 2] as usize;
                }
                IN => match host.take() {
                    None => break Stop::NoUnit,
                    Some(unit) => {
                        cells[top] = unit;
                        top += 1;
                        place += 1;
                    }
                },
                OUT => {
                    let text = text::text(mode, cells[top - 1]);
                    if host.room() < text.count() {
                        break Stop::NoRoom;
                    }
                    for unit in text.units() {
                        host.put(*unit).expect("there is room");
                    }
                    top -= 1;
                    place += 1;
                }
                SETOUT => {
                    mode = file[place + 1];
                    place += 2;
                }
                ERR => {
                    let end = End::Error(file[place + 1]);
                    self.end = Some(end);
                    count += 1;
                    break Stop::Ended(end);
                }
                HALT => {
                    self.end = Some(End::Halt);
                    count += 1;
                    break Stop::Ended(End::Halt);
                }
                _ => unreachable!("an admitted file has no such instruction"),
            }
            count += 1;
        };

        self.place = place;
        self.top = top;
        self.base = base;
        self.mode = mode;
        (stop, count)
    }

    /// Whether main's frame fitted.
    pub fn began(&self) -> bool {
        self.began
    }

    /// The cells that are used.
    pub fn cells(&self) -> &[u16] {
        self.cells
    }

    /// The first cell above all frames.
    pub fn top(&self) -> usize {
        self.top
    }

    /// The base of the running frame.
    pub fn base(&self) -> usize {
        self.base
    }

    /// The cells that the running frame may need: its end with all operands.
    pub fn reach(&self) -> usize {
        let method = self.cells[self.base] as usize;
        let reader = self.admitted.reader();
        let variables = reader.parameters(method).unwrap() + reader.locals(method).unwrap();
        self.base + 3 + variables + self.admitted.peak(method)
    }

    /// The state in the plain machine's form, taken from the cells; none if
    /// the run never began.
    pub fn state(&self) -> Option<State> {
        if !self.began {
            return None;
        }
        let reader = self.admitted.reader();
        let mut frames = Vec::new();
        let mut base = self.base;
        let mut top = self.top;
        loop {
            let method = self.cells[base] as usize;
            let variables = reader.parameters(method).unwrap() + reader.locals(method).unwrap();
            frames.push(Frame {
                method,
                return_place: self.cells[base + 1] as usize,
                variables: self.cells[base + 3..base + 3 + variables].to_vec(),
                operands: self.cells[base + 3 + variables..top].to_vec(),
            });
            if self.cells[base + 2] == NOWHERE {
                assert_eq!(base, 0, "main's frame lies at the bottom");
                break;
            }
            top = base;
            base = self.cells[base + 2] as usize;
        }
        frames.reverse();
        Some(State { frames, place: self.place, mode: self.mode, end: self.end })
    }
}

// The plain machine, which says what a program does. It is slow on purpose.

/// A method that was entered and has not returned.
#[derive(Clone, Debug, PartialEq, Eq)]
pub struct Frame {
    pub method: usize,
    pub return_place: usize,
    pub variables: Vec<u16>,
    pub operands: Vec<u16>,
}

/// The state of the machine; the last frame is the running one.
#[derive(Clone, Debug, PartialEq, Eq)]
pub struct State {
    pub frames: Vec<Frame>,
    pub place: usize,
    pub mode: u8,
    pub end: Option<End>,
}

/// What became of one step of the plain machine.
#[derive(Clone, Copy, Debug, PartialEq, Eq)]
pub enum Step {
    /// the instruction with this opcode was done
    Done(u8),
    /// at IN with no unit left
    Waits,
    /// the run has ended
    Over,
    /// the instruction cannot be done
    Astray,
}

/// The plain machine, fed a list of units.
#[derive(Clone, Debug)]
pub struct Plain<'a> {
    admitted: &'a Admitted<'a>,
    pub state: State,
    pub units: VecDeque<u16>,
    pub written: Vec<u16>,
    /// for each address of the file the method whose place it is
    places: Vec<Option<usize>>,
}

impl<'a> Plain<'a> {
    pub fn new(admitted: &'a Admitted<'a>, units: &[u16]) -> Plain<'a> {
        let reader = admitted.reader();
        let mut places = vec![None; admitted.file().len()];
        for k in 0..reader.methods() {
            let code = reader.code(k).unwrap();
            let mut at = 0;
            while let Some(i) = decode(&code.bytes[at..]) {
                places[code.place + at] = Some(k);
                at += i.length;
            }
        }
        let main = Frame {
            method: 0,
            return_place: 65_535,
            variables: vec![0; reader.locals(0).unwrap()],
            operands: vec![],
        };
        let state = State { frames: vec![main], place: reader.code(0).unwrap().place, mode: 0, end: None };
        Plain { admitted, state, units: units.iter().copied().collect(), written: vec![], places }
    }

    /// Does the next instruction, if that can be done.
    pub fn step(&mut self) -> Step {
        if self.state.end.is_some() {
            return Step::Over;
        }
        let file = self.admitted.file();
        let place = self.state.place;
        let method = self.state.frames.last().unwrap().method;
        if self.places.get(place).copied().flatten() != Some(method) {
            return Step::Astray;
        }
        // an admitted file keeps its sheet's numbers
        if self.state.frames.last().unwrap().operands.len() != self.admitted.sheet()[place] as usize {
            return Step::Astray;
        }
        let i = match decode(&file[place..]) {
            None => return Step::Astray,
            Some(i) => i,
        };
        if i.opcode == IN && self.units.is_empty() {
            return Step::Waits;
        }
        let before = self.state.clone_running();
        match self.instruction(place, &i) {
            None => {
                let last = self.state.frames.len() - 1;
                self.state.frames[last] = before;
                Step::Astray
            }
            Some(()) => {
                let running = self.state.frames.last().unwrap();
                if running.operands.len() > self.admitted.peak(running.method) {
                    return Step::Astray;
                }
                Step::Done(i.opcode)
            }
        }
    }

    fn instruction(&mut self, place: usize, i: &Instruction) -> Option<()> {
        let reader = self.admitted.reader();
        let frame = self.state.frames.last_mut().unwrap();
        let next = place + i.length;
        let jump = |taken: bool| {
            if taken {
                (place as i64 + i.number.unwrap() as i64) as usize
            } else {
                next
            }
        };
        let mut to = next;
        match i.opcode {
            NOP | WIDE => {}
            BIPUSH => frame.operands.push(i.number? as u16),
            LDC => {
                let bytes = reader.constant(i.index?)?.bytes;
                frame.operands.push(bytes[0] as u16 * 256 + bytes[1] as u16);
            }
            ILOAD => {
                let value = *frame.variables.get(i.index?)?;
                frame.operands.push(value);
            }
            ISTORE => {
                let value = frame.operands.pop()?;
                *frame.variables.get_mut(i.index?)? = value;
            }
            POP => {
                frame.operands.pop()?;
            }
            DUP => {
                let value = *frame.operands.last()?;
                frame.operands.push(value);
            }
            SWAP => {
                let v = frame.operands.pop()?;
                let u = frame.operands.pop()?;
                frame.operands.push(v);
                frame.operands.push(u);
            }
            IADD | ISUB | IAND | IOR => {
                let v = frame.operands.pop()? as u32;
                let u = frame.operands.pop()? as u32;
                let result = match i.opcode {
                    IADD => (u + v) % 65_536,
                    ISUB => (u + 65_536 - v) % 65_536,
                    IAND => u & v,
                    _ => u | v,
                };
                frame.operands.push(result as u16);
            }
            IINC => {
                let variable = frame.variables.get_mut(i.index?)?;
                *variable = ((*variable as i32 + i.number? as i32 + 65_536) % 65_536) as u16;
            }
            IFEQ => to = jump(frame.operands.pop()? == 0),
            IFLT => to = jump(text::signed(frame.operands.pop()?) < 0),
            IF_ICMPEQ => {
                let v = frame.operands.pop()?;
                let u = frame.operands.pop()?;
                to = jump(u == v);
            }
            GOTO => to = jump(true),
            INVOKEVIRTUAL => {
                let method = i.index?;
                let parameters = reader.parameters(method)?;
                if frame.operands.len() < parameters {
                    return None;
                }
                let mut variables = frame.operands.split_off(frame.operands.len() - parameters);
                variables.extend(vec![0; reader.locals(method)?]);
                self.state.frames.push(Frame { method, return_place: next, variables, operands: vec![] });
                to = reader.code(method)?.place;
            }
            IRETURN | RETURN => {
                let value = if i.opcode == IRETURN { Some(*frame.operands.last()?) } else { None };
                if self.state.frames.len() == 1 {
                    self.state.end = Some(match value {
                        Some(v) => End::Value(v),
                        None => End::Plain,
                    });
                    to = place;
                } else {
                    let dropped = self.state.frames.pop()?;
                    to = dropped.return_place;
                    self.state.frames.last_mut()?.operands.extend(value);
                }
            }
            IN => frame.operands.push(self.units.pop_front()?),
            OUT => {
                let value = frame.operands.pop()?;
                self.written.extend(text::written(self.state.mode, value));
            }
            SETOUT => {
                if i.index? > 2 {
                    return None;
                }
                self.state.mode = i.index? as u8;
            }
            ERR => {
                if i.index? >= reader.messages() {
                    return None;
                }
                self.state.end = Some(End::Error(i.index? as u8));
                to = place;
            }
            HALT => {
                self.state.end = Some(End::Halt);
                to = place;
            }
            _ => return None,
        }
        self.state.place = to;
        Some(())
    }
}

impl State {
    fn clone_running(&self) -> Frame {
        self.frames.last().unwrap().clone()
    }
}
