//! Program files: their layout, and the instructions in them.

use crate::{Refusal, Rule};

/// The longest file.
pub const LONGEST: usize = 65_535;

/// The size of the header.
pub const HEADER: usize = 13;

/// The place of method k's entry in the method table.
pub fn entry(k: usize) -> usize {
    HEADER + 10 * k
}

/// A byte of the file; past the end it reads as 0.
fn byte(file: &[u8], at: usize) -> usize {
    match file.get(at) {
        Some(b) => *b as usize,
        None => 0,
    }
}

/// Two bytes, the high one first.
fn two(file: &[u8], at: usize) -> usize {
    byte(file, at) * 256 + byte(file, at + 1)
}

/// Four bytes, the highest first.
fn four(file: &[u8], at: usize) -> usize {
    two(file, at) * 65_536 + two(file, at + 2)
}

/// A part of the file: its place and its bytes.
#[derive(Clone, Copy, Debug, PartialEq, Eq)]
pub struct Part<'a> {
    pub place: usize,
    pub bytes: &'a [u8],
}

/// A file that keeps the rules of the layout.
#[derive(Clone, Copy, Debug)]
pub struct Reader<'a> {
    file: &'a [u8],
    /// where the debug blocks end and the messages begin
    messages_at: usize,
}

/// Judges the layout, rules 1 to 11, each through the whole file before the
/// next one.
pub fn read(file: &[u8]) -> Result<Reader<'_>, Refusal> {
    let n = file.len();

    if n > LONGEST {
        return Err(Refusal::new(Rule::FileTooLong, 0));
    }
    if n < HEADER {
        return Err(Refusal::new(Rule::HeaderCut, n));
    }
    if file[0..4] != [0x65, 0x4A, 0x56, 0x4D] {
        return Err(Refusal::new(Rule::WrongMagic, 0));
    }
    if file[4] != 0x10 {
        return Err(Refusal::new(Rule::WrongVersion, 4));
    }
    let methods = byte(file, 10);
    let constants = byte(file, 11);
    let messages = byte(file, 12);
    if methods == 0 {
        return Err(Refusal::new(Rule::NoMethod, 10));
    }
    let tables_end = HEADER + 10 * methods + 2 * constants;
    if n < tables_end {
        return Err(Refusal::new(Rule::TablesCut, n));
    }

    // 7: variables
    for k in 0..methods {
        let parameters = byte(file, entry(k) + 4);
        let locals = byte(file, entry(k) + 5);
        if parameters + locals > 255 || (k == 0 && parameters != 0) {
            return Err(Refusal::new(Rule::BadVariables, entry(k)));
        }
    }

    // 8: code. The debug block is looked for where the entry says.
    let mut due = tables_end;
    for k in 0..methods {
        let code = four(file, entry(k));
        let block = four(file, entry(k) + 6);
        let size = two(file, block + 1);
        if block + 3 > n || size == 0 || code != due {
            return Err(Refusal::new(Rule::BadCode, entry(k)));
        }
        due += size;
    }

    // 9: debug blocks. The first is due at the end of all code.
    for k in 0..methods {
        let block = four(file, entry(k) + 6);
        let size = byte(file, block);
        if block != due || size % 2 != 0 || size == 0 || block + 3 + size > n {
            return Err(Refusal::new(Rule::BadDebugBlock, entry(k)));
        }
        due += 3 + size;
    }
    let messages_at = due;

    // 10: messages
    for _ in 0..messages {
        let size = two(file, due);
        if size % 2 != 0 || size > 254 || due + 2 + size > n {
            return Err(Refusal::new(Rule::BadMessage, due));
        }
        due += 2 + size;
    }

    // 11: the program name
    let size = byte(file, 5);
    let address = four(file, 6);
    if size % 2 != 0 || size == 0 || address != due || address + size != n {
        return Err(Refusal::new(Rule::BadProgramName, 5));
    }

    Ok(Reader { file, messages_at })
}

impl<'a> Reader<'a> {
    pub fn file(&self) -> &'a [u8] {
        self.file
    }

    pub fn methods(&self) -> usize {
        byte(self.file, 10)
    }

    pub fn constants(&self) -> usize {
        byte(self.file, 11)
    }

    pub fn messages(&self) -> usize {
        byte(self.file, 12)
    }

    /// Where the constant table begins.
    pub fn constants_at(&self) -> usize {
        entry(self.methods())
    }

    fn part(&self, place: usize, size: usize) -> Part<'a> {
        Part { place, bytes: &self.file[place..place + size] }
    }

    pub fn program_name(&self) -> Part<'a> {
        self.part(four(self.file, 6), byte(self.file, 5))
    }

    pub fn parameters(&self, k: usize) -> Option<usize> {
        if k >= self.methods() {
            return None;
        }
        Some(byte(self.file, entry(k) + 4))
    }

    pub fn locals(&self, k: usize) -> Option<usize> {
        if k >= self.methods() {
            return None;
        }
        Some(byte(self.file, entry(k) + 5))
    }

    pub fn name(&self, k: usize) -> Option<Part<'a>> {
        if k >= self.methods() {
            return None;
        }
        let block = four(self.file, entry(k) + 6);
        Some(self.part(block + 3, byte(self.file, block)))
    }

    pub fn code(&self, k: usize) -> Option<Part<'a>> {
        if k >= self.methods() {
            return None;
        }
        let block = four(self.file, entry(k) + 6);
        Some(self.part(four(self.file, entry(k)), two(self.file, block + 1)))
    }

    pub fn constant(&self, i: usize) -> Option<Part<'a>> {
        if i >= self.constants() {
            return None;
        }
        Some(self.part(self.constants_at() + 2 * i, 2))
    }

    pub fn message(&self, i: usize) -> Option<Part<'a>> {
        if i >= self.messages() {
            return None;
        }
        let mut at = self.messages_at;
        for _ in 0..i {
            at += 2 + two(self.file, at);
        }
        Some(self.part(at + 2, two(self.file, at)))
    }
}

// Instructions.

pub const NOP: u8 = 0x00;
pub const WIDE: u8 = 0xC4;
pub const BIPUSH: u8 = 0x10;
pub const LDC: u8 = 0x12;
pub const ILOAD: u8 = 0x15;
pub const ISTORE: u8 = 0x36;
pub const POP: u8 = 0x57;
pub const DUP: u8 = 0x59;
pub const SWAP: u8 = 0x5F;
pub const IADD: u8 = 0x60;
pub const ISUB: u8 = 0x64;
pub const IAND: u8 = 0x7E;
pub const IOR: u8 = 0x80;
pub const IINC: u8 = 0x84;
pub const IFEQ: u8 = 0x99;
pub const IFLT: u8 = 0x9B;
pub const IF_ICMPEQ: u8 = 0x9F;
pub const GOTO: u8 = 0xA7;
pub const IRETURN: u8 = 0xAC;
pub const RETURN: u8 = 0xB1;
pub const INVOKEVIRTUAL: u8 = 0xB6;
pub const IN: u8 = 0xF0;
pub const OUT: u8 = 0xF1;
pub const ERR: u8 = 0xF2;
pub const SETOUT: u8 = 0xFA;
pub const HALT: u8 = 0xFF;

/// Opcode, name, length in bytes, what it takes, what it leaves.
pub const INSTRUCTIONS: [(u8, &str, u8, u8, u8); 26] = [
    (NOP, "NOP", 1, 0, 0),
    (WIDE, "WIDE", 1, 0, 0),
    (BIPUSH, "BIPUSH", 3, 0, 1),
    (LDC, "LDC", 2, 0, 1),
    (ILOAD, "ILOAD", 2, 0, 1),
    (ISTORE, "ISTORE", 2, 1, 0),
    (POP, "POP", 1, 1, 0),
    (DUP, "DUP", 1, 1, 2),
    (SWAP, "SWAP", 1, 2, 2),
    (IADD, "IADD", 1, 2, 1),
    (ISUB, "ISUB", 1, 2, 1),
    (IAND, "IAND", 1, 2, 1),
    (IOR, "IOR", 1, 2, 1),
    (IINC, "IINC", 4, 0, 0),
    (IFEQ, "IFEQ", 3, 1, 0),
    (IFLT, "IFLT", 3, 1, 0),
    (IF_ICMPEQ, "IF_ICMPEQ", 3, 2, 0),
    (GOTO, "GOTO", 3, 0, 0),
    (IRETURN, "IRETURN", 1, 1, 0),
    (RETURN, "RETURN", 1, 0, 0),
    (INVOKEVIRTUAL, "INVOKEVIRTUAL", 2, 0, 0),
    (IN, "IN", 1, 0, 1),
    (OUT, "OUT", 1, 1, 0),
    (ERR, "ERR", 2, 0, 0),
    (SETOUT, "SETOUT", 2, 0, 0),
    (HALT, "HALT", 1, 0, 0),
];

const fn column(which: u8) -> [u8; 256] {
    let mut table = [0; 256];
    let mut i = 0;
    while i < INSTRUCTIONS.len() {
        let row = INSTRUCTIONS[i];
        table[row.0 as usize] = match which {
            0 => row.2,
            1 => row.3,
            _ => row.4,
        };
        i += 1;
    }
    table
}

/// For each opcode its length, 0 where it is no instruction.
pub const LENGTH: [u8; 256] = column(0);
/// What it takes; 0 for a call, where it depends on the method called.
pub const TAKES: [u8; 256] = column(1);
/// What it leaves; 0 for a call, where it depends on the method called.
pub const LEAVES: [u8; 256] = column(2);

/// The name of an opcode that is listed.
pub fn name_of(opcode: u8) -> Option<&'static str> {
    INSTRUCTIONS.iter().find(|row| row.0 == opcode).map(|row| row.1)
}

/// An instruction taken apart.
#[derive(Clone, Copy, Debug, PartialEq, Eq)]
pub struct Instruction {
    pub opcode: u8,
    pub length: usize,
    /// i
    pub index: Option<usize>,
    /// k or o
    pub number: Option<i16>,
}

/// The instruction that the bytes begin with, if there is one.
pub fn decode(bytes: &[u8]) -> Option<Instruction> {
    let opcode = *bytes.first()?;
    let length = LENGTH[opcode as usize] as usize;
    if length == 0 || bytes.len() < length {
        return None;
    }
    let (index, number) = match length {
        1 => (None, None),
        2 => (Some(bytes[1] as usize), None),
        3 => (None, Some(i16::from_be_bytes([bytes[1], bytes[2]]))),
        _ => (Some(bytes[1] as usize), Some(i16::from_be_bytes([bytes[2], bytes[3]]))),
    };
    Some(Instruction { opcode, length, index, number })
}

impl Instruction {
    pub fn is_jump(&self) -> bool {
        matches!(self.opcode, IFEQ | IFLT | IF_ICMPEQ | GOTO)
    }
}

#[cfg(test)]
mod tests {
    use super::*;

    /// The file of 39 bytes.
    pub fn example() -> Vec<u8> {
        vec![
            0x65, 0x4A, 0x56, 0x4D, 0x10, 0x02, 0, 0, 0, 0x25, 1, 0, 0, 0, 0, 0, 0x17, 0, 0, 0, 0, 0,
            0x1A, 0xF0, 0xF1, 0xB1, 8, 0, 3, 0, 0x6D, 0, 0x61, 0, 0x69, 0, 0x6E, 0, 0x41,
        ]
    }

    #[test]
    fn tables() {
        assert_eq!(INSTRUCTIONS.len(), 26);
        assert_eq!(LENGTH.iter().filter(|l| **l != 0).count(), 26);
        assert_eq!(LENGTH[0xB6], 2);
        assert_eq!((TAKES[0xB6], LEAVES[0xB6]), (0, 0));
        assert_eq!((TAKES[0x59], LEAVES[0x59]), (1, 2));
        assert_eq!(decode(&[]), None);
        assert_eq!(decode(&[0x10, 0]), None);
        assert_eq!(decode(&[0x01, 0, 0]), None);
        let i = decode(&[0x84, 7, 0xFF, 0xFE, 9]).unwrap();
        assert_eq!((i.length, i.index, i.number), (4, Some(7), Some(-2)));
    }

    #[test]
    fn parts_of_the_example() {
        let file = example();
        assert_eq!(file.len(), 39);
        let r = read(&file).unwrap();
        assert_eq!((r.methods(), r.constants(), r.messages()), (1, 0, 0));
        assert_eq!(r.program_name(), Part { place: 37, bytes: &[0, 0x41] });
        assert_eq!(r.name(0).unwrap(), Part { place: 29, bytes: &[0, 0x6D, 0, 0x61, 0, 0x69, 0, 0x6E] });
        assert_eq!(r.code(0).unwrap(), Part { place: 23, bytes: &[0xF0, 0xF1, 0xB1] });
        assert_eq!((r.parameters(0), r.locals(0)), (Some(0), Some(0)));
        assert!(r.name(1).is_none() && r.code(1).is_none() && r.parameters(1).is_none());
        assert!(r.constant(0).is_none() && r.message(0).is_none());
    }

    /// Every way to break one rule of the layout in the example.
    #[test]
    fn layout_refusals() {
        let refused = |f: &[u8]| {
            let r = read(f).unwrap_err();
            (r.number(), r.place)
        };
        let with = |at: usize, v: u8| {
            let mut f = example();
            f[at] = v;
            f
        };
        assert_eq!(refused(&vec![0; 65_536]), (1, 0));
        assert_eq!(refused(&vec![0; 70_000]), (1, 0));
        assert_eq!(refused(&vec![0; 65_535]), (3, 0));
        assert_eq!(refused(&[]), (2, 0));
        assert_eq!(refused(&example()[..12]), (2, 12));
        for at in 0..4 {
            assert_eq!(refused(&with(at, 0)), (3, 0));
        }
        assert_eq!(refused(&with(4, 0x11)), (4, 4));
        assert_eq!(refused(&with(10, 0)), (5, 10));
        assert_eq!(refused(&with(10, 3)), (6, 39));
        assert_eq!(refused(&with(11, 9)), (6, 39));
        assert_eq!(refused(&with(17, 1)), (7, 13));
        assert_eq!(refused(&with(16, 24)), (8, 13)); // code address
        assert_eq!(refused(&with(11, 1)), (8, 13)); // one constant: the code is due later
        assert_eq!(refused(&with(28, 0)), (8, 13)); // code size 0
        assert_eq!(refused(&with(22, 37)), (8, 13)); // head passes the end
        assert_eq!(refused(&with(19, 255)), (8, 13)); // head far away
        assert_eq!(refused(&with(28, 4)), (9, 13)); // the block is due later
        assert_eq!(refused(&with(22, 27)), (9, 13));
        assert_eq!(refused(&with(26, 0)), (9, 13));
        assert_eq!(refused(&with(26, 7)), (9, 13));
        assert_eq!(refused(&with(26, 12)), (9, 13));
        assert_eq!(refused(&with(12, 1)), (10, 37)); // 65 bytes of message are odd
        assert_eq!(refused(&with(26, 10)), (11, 5));
        assert_eq!(refused(&with(5, 0)), (11, 5));
        assert_eq!(refused(&with(5, 3)), (11, 5));
        assert_eq!(refused(&with(5, 4)), (11, 5));
        assert_eq!(refused(&with(9, 36)), (11, 5));
        assert_eq!(refused(&example()[..38]), (11, 5));
        let mut long = example();
        long.push(0);
        assert_eq!(refused(&long), (11, 5));
        // a message at the very end
        let mut f = with(12, 1);
        f.truncate(37);
        assert_eq!(refused(&f), (10, 37));
    }
}
