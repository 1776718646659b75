//! The verifier: `check` makes a sheet, `admit` judges one.
//!
//! Written for plainness: places and methods are noted in lists of their own,
//! and the line of places still to be followed is a `VecDeque`. Of the pending
//! memory only its length matters.

use crate::format::{self, entry, read, Instruction, Reader};
use crate::{Refusal, Rule};
use std::collections::VecDeque;

/// The blank entry.
pub const BLANK: u16 = 65_535;

/// The deepest operand stack.
pub const DEEPEST: usize = 255;

/// A method as the verifier sees it.
struct Method {
    start: usize,
    end: usize,
    parameters: usize,
    variables: usize,
    /// the addresses of its instructions, ascending
    places: Vec<usize>,
    /// it holds IRETURN
    value: bool,
}

/// The code of a file that keeps rules 13 to 16.
struct Code<'a> {
    file: &'a [u8],
    methods: Vec<Method>,
    /// for each address of the file, whether it is a place
    is_place: Vec<bool>,
}

impl<'a> Code<'a> {
    /// The instruction at a place.
    fn at(&self, place: usize, method: &Method) -> Instruction {
        format::decode(&self.file[place..method.end]).expect("a place has an instruction")
    }

    /// Whether the address is a place of the method.
    fn has(&self, method: &Method, address: i64) -> bool {
        method.start as i64 <= address && address < method.end as i64 && self.is_place[address as usize]
    }

    /// What the instruction takes and leaves.
    fn effect(&self, i: &Instruction) -> (usize, usize) {
        if i.opcode == format::INVOKEVIRTUAL {
            let called = &self.methods[i.index.unwrap()];
            (called.parameters, if called.value { 1 } else { 0 })
        } else {
            (format::TAKES[i.opcode as usize] as usize, format::LEAVES[i.opcode as usize] as usize)
        }
    }

    /// Where control can go on; addresses that may be no places.
    fn successors(&self, place: usize, i: &Instruction) -> Vec<i64> {
        let next = (place + i.length) as i64;
        match i.opcode {
            format::IRETURN | format::RETURN | format::ERR | format::HALT => vec![],
            format::GOTO => vec![target(place, i)],
            format::IFEQ | format::IFLT | format::IF_ICMPEQ => vec![target(place, i), next],
            _ => vec![next],
        }
    }
}

/// The target of a jump.
fn target(place: usize, i: &Instruction) -> i64 {
    place as i64 + i.number.unwrap() as i64
}

/// Rules 13 to 16, each through the whole file before the next.
fn code<'a>(reader: &Reader<'a>) -> Result<Code<'a>, Refusal> {
    let file = reader.file();
    let mut code = Code { file, methods: Vec::new(), is_place: vec![false; file.len()] };

    // 13: instructions
    for k in 0..reader.methods() {
        let part = reader.code(k).unwrap();
        let parameters = reader.parameters(k).unwrap();
        let mut method = Method {
            start: part.place,
            end: part.place + part.bytes.len(),
            parameters,
            variables: parameters + reader.locals(k).unwrap(),
            places: Vec::new(),
            value: false,
        };
        let mut place = method.start;
        while place < method.end {
            match format::decode(&file[place..method.end]) {
                None => return Err(Refusal::new(Rule::BadInstruction, place)),
                Some(i) => {
                    method.places.push(place);
                    code.is_place[place] = true;
                    place += i.length;
                }
            }
        }
        code.methods.push(method);
    }

    // 14: indices
    for method in &code.methods {
        for &place in &method.places {
            let i = code.at(place, method);
            let limit = match i.opcode {
                format::ILOAD | format::ISTORE | format::IINC => method.variables,
                format::LDC => reader.constants(),
                format::INVOKEVIRTUAL => reader.methods(),
                format::ERR => reader.messages(),
                format::SETOUT => 3,
                _ => continue,
            };
            if i.index.unwrap() >= limit {
                return Err(Refusal::new(Rule::BadIndex, place));
            }
        }
    }

    // 15: targets
    for method in &code.methods {
        for &place in &method.places {
            let i = code.at(place, method);
            if i.is_jump() && !code.has(method, target(place, &i)) {
                return Err(Refusal::new(Rule::BadTarget, place));
            }
        }
    }

    // 16: returns
    for k in 0..code.methods.len() {
        let method = &code.methods[k];
        let value = method.places.iter().any(|p| file[*p] == format::IRETURN);
        let plain = method.places.iter().any(|p| file[*p] == format::RETURN);
        if value == plain {
            return Err(Refusal::new(Rule::MixedReturns, method.start));
        }
        code.methods[k].value = value;
    }

    Ok(code)
}

/// What `check` answers: how many places are numbered, and the largest peak.
#[derive(Clone, Copy, Debug, PartialEq, Eq)]
pub struct Pair {
    pub places: usize,
    pub peak: usize,
}

/// Numbers the places of the method that are reached from its first. Answers
/// whether that keeps the rule; if not, the sheet is left half filled.
fn number(code: &Code, method: &Method, sheet: &mut [u16]) -> bool {
    let mut line = VecDeque::new();
    sheet[method.start] = 0;
    line.push_back(method.start);
    while let Some(place) = line.pop_front() {
        let i = code.at(place, method);
        let depth = sheet[place] as usize;
        let (takes, leaves) = code.effect(&i);
        if takes > depth || depth - takes + leaves > DEEPEST {
            return false;
        }
        let after = (depth - takes + leaves) as u16;
        for s in code.successors(place, &i) {
            if !code.has(method, s) {
                return false;
            }
            let s = s as usize;
            if sheet[s] == BLANK {
                sheet[s] = after;
                line.push_back(s);
            } else if sheet[s] != after {
                return false;
            }
        }
    }
    true
}

/// Fills the sheet. `pending` is how many entries the pending memory has.
pub fn check(file: &[u8], sheet: &mut [u16], pending: usize) -> Result<Pair, Refusal> {
    let reader = read(file)?;
    let n = file.len();
    if sheet.len() < n || pending < n {
        return Err(Refusal::new(Rule::MemoryShort, 0));
    }
    sheet[..n].fill(BLANK);
    let code = code(&reader)?;
    let mut pair = Pair { places: 0, peak: 0 };
    for (k, method) in code.methods.iter().enumerate() {
        if !number(&code, method, sheet) {
            sheet[..n].fill(BLANK);
            return Err(Refusal::new(Rule::NoNumbering, method.start));
        }
        let mut peak = 0;
        for &place in &method.places {
            if sheet[place] != BLANK {
                pair.places += 1;
                peak = peak.max(sheet[place]);
            }
        }
        sheet[entry(k)] = peak;
        pair.peak = pair.peak.max(peak as usize);
    }
    Ok(pair)
}

/// A file and a sheet that `admit` accepted; made nowhere else.
#[derive(Clone, Copy, Debug)]
pub struct Admitted<'a> {
    reader: Reader<'a>,
    sheet: &'a [u16],
}

impl<'a> Admitted<'a> {
    pub fn reader(&self) -> &Reader<'a> {
        &self.reader
    }

    pub fn file(&self) -> &'a [u8] {
        self.reader.file()
    }

    pub fn sheet(&self) -> &'a [u16] {
        self.sheet
    }

    /// The peak of method k.
    pub fn peak(&self, k: usize) -> usize {
        self.sheet[entry(k)] as usize
    }
}

/// Whether a place keeps the rule with the sheet.
fn keeps(code: &Code, method: &Method, place: usize, sheet: &[u16]) -> bool {
    let first = place == method.start;
    if sheet[place] == BLANK {
        return !first;
    }
    let depth = sheet[place] as usize;
    if depth > DEEPEST || (first && depth != 0) {
        return false;
    }
    let i = code.at(place, method);
    let (takes, leaves) = code.effect(&i);
    if takes > depth || depth - takes + leaves > DEEPEST {
        return false;
    }
    let after = (depth - takes + leaves) as u16;
    code.successors(place, &i).iter().all(|s| code.has(method, *s) && sheet[*s as usize] == after)
}

/// Judges a sheet.
pub fn admit<'a>(file: &'a [u8], sheet: &'a [u16]) -> Result<Admitted<'a>, Refusal> {
    let reader = read(file)?;
    if sheet.len() < file.len() {
        return Err(Refusal::new(Rule::MemoryShort, 0));
    }
    let code = code(&reader)?;
    for method in &code.methods {
        for &place in &method.places {
            if !keeps(&code, method, place, sheet) {
                return Err(Refusal::new(Rule::BadNumber, place));
            }
        }
    }
    for (k, method) in code.methods.iter().enumerate() {
        let peak = method.places.iter().map(|p| sheet[*p]).filter(|e| *e != BLANK).max();
        if peak != Some(sheet[entry(k)]) {
            return Err(Refusal::new(Rule::BadPeak, entry(k)));
        }
    }
    Ok(Admitted { reader, sheet })
}
