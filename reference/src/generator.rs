//! Makes cases from a seed: sound programs, damaged files, damaged sheets,
//! noise, and cases aimed at each rule and at each boundary.

use crate::cases::{Case, Slice, FUEL};
use crate::format::*;
use crate::hosts::Label;
use crate::machine::{start, Stop};
use crate::text::pairs;
use crate::verify::{admit, check, BLANK};

/// A small generator of numbers (splitmix64).
#[derive(Clone, Debug)]
pub struct Rng(u64);

impl Rng {
    pub fn new(seed: u64) -> Rng {
        Rng(seed)
    }

    pub fn next(&mut self) -> u64 {
        self.0 = self.0.wrapping_add(0x9E37_79B9_7F4A_7C15);
        let mut z = self.0;
        z = (z ^ (z >> 30)).wrapping_mul(0xBF58_476D_1CE4_E5B9);
        z = (z ^ (z >> 27)).wrapping_mul(0x94D0_49BB_1331_11EB);
        z ^ (z >> 31)
    }

    /// A number below n.
    pub fn below(&mut self, n: usize) -> usize {
        ((self.next() >> 32) as usize) % n
    }

    /// A number from a to b, both included.
    pub fn range(&mut self, a: usize, b: usize) -> usize {
        a + self.below(b - a + 1)
    }

    /// True one time in n.
    pub fn one_in(&mut self, n: usize) -> bool {
        self.below(n) == 0
    }

    pub fn pick<T: Copy>(&mut self, from: &[T]) -> T {
        from[self.below(from.len())]
    }

    pub fn byte(&mut self) -> u8 {
        self.next() as u8
    }

    /// A value of sixteen bits, often one near a boundary.
    pub fn value(&mut self) -> u16 {
        match self.below(4) {
            0 => self.pick(&[0, 1, 2, 9, 10, 99, 100, 999, 1000, 3505, 9999, 10000, 32767, 32768, 32769, 65535, 65534, 65531, 65527, 65526, 65436, 64536, 55536]),
            1 => self.below(20) as u16,
            2 => (65_536 - self.range(1, 300)) as u16,
            _ => self.next() as u16,
        }
    }
}

// Programs.

#[derive(Clone, Debug)]
pub struct Method {
    pub parameters: u8,
    pub locals: u8,
    pub name: Vec<u8>,
    pub code: Vec<u8>,
}

#[derive(Clone, Debug)]
pub struct Program {
    pub name: Vec<u8>,
    pub methods: Vec<Method>,
    pub constants: Vec<u16>,
    pub messages: Vec<Vec<u8>>,
}

/// Where the parts of an assembled file begin.
#[derive(Clone, Debug)]
pub struct Layout {
    pub code: Vec<usize>,
    pub blocks: Vec<usize>,
    pub messages: Vec<usize>,
    pub name: usize,
}

/// The file of a program. Sizes that do not fit are cut to their low bytes.
pub fn assemble(p: &Program) -> (Vec<u8>, Layout) {
    let mut at = 13 + 10 * p.methods.len() + 2 * p.constants.len();
    let mut layout = Layout { code: vec![], blocks: vec![], messages: vec![], name: 0 };
    for m in &p.methods {
        layout.code.push(at);
        at += m.code.len();
    }
    for m in &p.methods {
        layout.blocks.push(at);
        at += 3 + m.name.len();
    }
    for m in &p.messages {
        layout.messages.push(at);
        at += 2 + m.len();
    }
    layout.name = at;

    let mut file = vec![0x65, 0x4A, 0x56, 0x4D, 0x10, p.name.len() as u8];
    file.extend((layout.name as u32).to_be_bytes());
    file.extend([p.methods.len() as u8, p.constants.len() as u8, p.messages.len() as u8]);
    for (k, m) in p.methods.iter().enumerate() {
        file.extend((layout.code[k] as u32).to_be_bytes());
        file.extend([m.parameters, m.locals]);
        file.extend((layout.blocks[k] as u32).to_be_bytes());
    }
    for c in &p.constants {
        file.extend(c.to_be_bytes());
    }
    for m in &p.methods {
        file.extend(&m.code);
    }
    for m in &p.methods {
        file.push(m.name.len() as u8);
        file.extend((m.code.len() as u16).to_be_bytes());
        file.extend(&m.name);
    }
    for m in &p.messages {
        file.extend((m.len() as u16).to_be_bytes());
        file.extend(m);
    }
    file.extend(&p.name);
    (file, layout)
}

/// The addresses of the instructions in a method's code, as far as they can be
/// taken apart.
fn places(code: &[u8]) -> Vec<(usize, Instruction)> {
    let mut out = vec![];
    let mut at = 0;
    while let Some(i) = decode(&code[at..]) {
        out.push((at, i));
        at += i.length;
    }
    out
}

/// A method's outside.
#[derive(Clone, Copy, Debug)]
pub struct Sign {
    pub parameters: usize,
    pub locals: usize,
    pub value: bool,
}

/// A forward target that is not yet placed.
struct Target {
    depth: usize,
    jumps: Vec<usize>,
}

/// Writes the code of one method, with the depth of the operand stack known.
struct Writer<'a> {
    rng: &'a mut Rng,
    signs: &'a [Sign],
    me: usize,
    constants: usize,
    messages: usize,
    /// the highest depth that is used
    most: usize,
    code: Vec<u8>,
    /// places that are reached, with their depths
    live: Vec<(usize, usize)>,
    targets: Vec<Target>,
    /// none where the next place is not reached
    depth: Option<usize>,
    returned: bool,
}

impl Writer<'_> {
    fn variables(&self) -> usize {
        self.signs[self.me].parameters + self.signs[self.me].locals
    }

    /// Writes an instruction.
    fn op(&mut self, opcode: u8, arguments: &[u8]) {
        let at = self.code.len();
        self.code.push(opcode);
        self.code.extend(arguments);
        if matches!(opcode, RETURN | IRETURN) {
            self.returned = true;
        }
        if let Some(d) = self.depth {
            self.live.push((at, d));
            let (takes, leaves) = if opcode == INVOKEVIRTUAL {
                let s = self.signs[arguments[0] as usize];
                (s.parameters, s.value as usize)
            } else {
                (TAKES[opcode as usize] as usize, LEAVES[opcode as usize] as usize)
            };
            assert!(takes <= d && d - takes + leaves <= 255);
            self.depth = match opcode {
                GOTO | RETURN | IRETURN | ERR | HALT => None,
                _ => Some(d - takes + leaves),
            };
        }
    }

    fn push(&mut self, value: u16) {
        self.op(BIPUSH, &value.to_be_bytes());
    }

    /// A jump to a place that is there.
    fn back(&mut self, opcode: u8, to: usize) {
        let distance = to as i64 - self.code.len() as i64;
        self.op(opcode, &(distance as i16).to_be_bytes());
    }

    /// A jump to a target that is not yet placed; its number, or a new one.
    fn forward(&mut self, opcode: u8, to: Option<usize>) -> usize {
        let at = self.code.len();
        let before = self.depth.unwrap();
        self.op(opcode, &[0, 0]);
        let depth = before - TAKES[opcode as usize] as usize;
        match to {
            Some(t) => {
                assert_eq!(self.targets[t].depth, depth);
                self.targets[t].jumps.push(at);
                t
            }
            None => {
                self.targets.push(Target { depth, jumps: vec![at] });
                self.targets.len() - 1
            }
        }
    }

    /// Places a target here.
    fn bind(&mut self, t: usize) {
        let target = self.targets.remove(t);
        for at in target.jumps {
            let distance = (self.code.len() - at) as u16;
            self.code[at + 1..at + 3].copy_from_slice(&distance.to_be_bytes());
        }
        match self.depth {
            None => self.depth = Some(target.depth),
            Some(d) => assert_eq!(d, target.depth),
        }
    }

    /// Pushes or pops until the depth is d.
    fn level(&mut self, d: usize) {
        while self.depth.unwrap() < d {
            let v = self.rng.value();
            self.push(v);
        }
        while self.depth.unwrap() > d {
            self.op(POP, &[]);
        }
    }

    /// One instruction that goes on to the next.
    fn simple(&mut self) {
        let d = self.depth.unwrap();
        let variables = self.variables();
        loop {
            let opcode = self.rng.pick(&[
                NOP, WIDE, BIPUSH, BIPUSH, LDC, LDC, ILOAD, ILOAD, ISTORE, POP, DUP, DUP, SWAP, IADD, ISUB, IAND, IOR,
                IINC, IN, OUT, OUT, SETOUT,
            ]);
            let takes = TAKES[opcode as usize] as usize;
            let leaves = LEAVES[opcode as usize] as usize;
            if takes > d || d - takes + leaves > self.most {
                continue;
            }
            match opcode {
                BIPUSH => {
                    let v = self.rng.value();
                    self.push(v);
                }
                LDC => {
                    if self.constants == 0 {
                        continue;
                    }
                    let i = self.rng.below(self.constants) as u8;
                    self.op(LDC, &[i]);
                }
                ILOAD | ISTORE | IINC => {
                    if variables == 0 {
                        continue;
                    }
                    let i = self.rng.below(variables) as u8;
                    if opcode == IINC {
                        let k = self.rng.value().to_be_bytes();
                        self.op(IINC, &[i, k[0], k[1]]);
                    } else {
                        self.op(opcode, &[i]);
                    }
                }
                SETOUT => {
                    let mode = self.rng.below(3) as u8;
                    self.op(SETOUT, &[mode]);
                }
                _ => self.op(opcode, &[]),
            }
            return;
        }
    }

    /// Enough operands for a conditional jump, and one; answers its opcode.
    fn condition(&mut self) -> u8 {
        let opcode = self.rng.pick(&[IFEQ, IFEQ, IFLT, IF_ICMPEQ]);
        let takes = TAKES[opcode as usize] as usize;
        while self.depth.unwrap() < takes {
            self.simple_push();
        }
        if self.rng.one_in(3) && self.depth.unwrap() < self.most {
            self.simple_push();
        }
        opcode
    }

    fn simple_push(&mut self) {
        let variables = self.variables();
        if variables > 0 && self.rng.one_in(2) {
            let i = self.rng.below(variables) as u8;
            self.op(ILOAD, &[i]);
        } else {
            let v = self.rng.value();
            self.push(v);
        }
    }

    /// The number of a target with this depth, if there is one.
    fn target_of(&mut self, depth: usize) -> Option<usize> {
        let all: Vec<usize> = (0..self.targets.len()).filter(|t| self.targets[*t].depth == depth).collect();
        if all.is_empty() {
            None
        } else {
            Some(self.rng.pick(&all))
        }
    }

    /// A return of the method's kind.
    fn ret(&mut self) {
        if self.signs[self.me].value {
            if self.depth == Some(0) {
                self.simple_push();
            }
            self.op(IRETURN, &[]);
        } else {
            self.op(RETURN, &[]);
        }
    }

    /// A call, if its parameters fit on the operand stack.
    fn call(&mut self) {
        let count = self.signs.len();
        let method = if self.me + 1 < count && !self.rng.one_in(6) {
            self.rng.range(self.me + 1, count - 1)
        } else if self.rng.one_in(3) {
            self.rng.below(count)
        } else {
            return;
        };
        let sign = self.signs[method];
        let d = self.depth.unwrap();
        if d + sign.parameters + 1 > self.most {
            return;
        }
        if d < sign.parameters || self.rng.one_in(2) {
            for _ in 0..sign.parameters {
                if self.rng.one_in(2) {
                    let small = self.rng.below(12) as u16;
                    self.push(small);
                } else {
                    self.simple_push();
                }
            }
        }
        self.op(INVOKEVIRTUAL, &[method as u8]);
    }

    /// A loop that counts a variable down to 0.
    fn counted(&mut self) {
        let variables = self.variables();
        let d = self.depth.unwrap();
        if variables == 0 || d + 1 > self.most {
            return;
        }
        let v = self.rng.below(variables) as u8;
        let n = self.rng.range(1, 30) as u16;
        self.push(n);
        self.op(ISTORE, &[v]);
        let head = self.code.len();
        for _ in 0..self.rng.range(1, 8) {
            if self.rng.one_in(6) {
                self.call();
            } else {
                self.simple();
            }
        }
        self.level(d);
        self.op(IINC, &[v, 0xFF, 0xFF]);
        self.op(ILOAD, &[v]);
        let out = self.forward(IFEQ, None);
        self.back(GOTO, head);
        self.bind(out);
    }

    /// An instruction that is not reached. It has valid indices and targets.
    fn dead(&mut self) {
        assert!(self.depth.is_none());
        let (constants, messages, variables) = (self.constants, self.messages, self.variables());
        let opcode = self.rng.pick(&INSTRUCTIONS).0;
        match opcode {
            LDC if constants == 0 => {}
            ERR if messages == 0 => {}
            ILOAD | ISTORE | IINC if variables == 0 => {}
            LDC => {
                let i = self.rng.below(constants) as u8;
                self.op(LDC, &[i]);
            }
            ERR => {
                let i = self.rng.below(messages) as u8;
                self.op(ERR, &[i]);
            }
            ILOAD | ISTORE => {
                let i = self.rng.below(variables) as u8;
                self.op(opcode, &[i]);
            }
            IINC => {
                let i = self.rng.below(variables) as u8;
                self.op(IINC, &[i, 1, 2]);
            }
            INVOKEVIRTUAL => {
                let i = self.rng.below(self.signs.len()) as u8;
                self.op(INVOKEVIRTUAL, &[i]);
            }
            SETOUT => {
                let i = self.rng.below(3) as u8;
                self.op(SETOUT, &[i]);
            }
            BIPUSH => self.push(77),
            IFEQ | IFLT | IF_ICMPEQ | GOTO => {
                if !self.live.is_empty() {
                    let to = self.rng.pick(&self.live.clone()).0;
                    self.back(opcode, to);
                }
            }
            RETURN | IRETURN => {
                let right = if self.signs[self.me].value { IRETURN } else { RETURN };
                self.op(right, &[]);
            }
            _ => self.op(opcode, &[]),
        }
    }

    /// A part of the method; false if nothing more can be reached.
    fn step(&mut self) -> bool {
        let d = match self.depth {
            None => {
                if self.targets.is_empty() {
                    return false;
                }
                while self.rng.one_in(5) {
                    self.dead();
                }
                let t = self.rng.below(self.targets.len());
                self.bind(t);
                return true;
            }
            Some(d) => d,
        };
        if self.rng.one_in(3) {
            if let Some(t) = self.target_of(d) {
                self.bind(t);
            }
        }
        match self.rng.below(100) {
            0..=54 => self.simple(),
            55..=64 => {
                let opcode = self.condition();
                let after = self.depth.unwrap() - TAKES[opcode as usize] as usize;
                let to = self.target_of(after);
                let to = if self.rng.one_in(2) { to } else { None };
                self.forward(opcode, to);
            }
            65..=68 => {
                let opcode = self.condition();
                let after = self.depth.unwrap() - TAKES[opcode as usize] as usize;
                let fit: Vec<usize> = self.live.iter().filter(|p| p.1 == after).map(|p| p.0).collect();
                if fit.is_empty() {
                    self.forward(opcode, None);
                } else {
                    let to = self.rng.pick(&fit);
                    self.back(opcode, to);
                }
            }
            69..=72 => {
                self.forward(GOTO, None);
            }
            73..=74 => {
                let opcode = self.condition();
                self.forward(opcode, None);
                let now = self.depth.unwrap();
                let fit: Vec<usize> = self.live.iter().filter(|p| p.1 == now).map(|p| p.0).collect();
                if !fit.is_empty() {
                    let to = self.rng.pick(&fit);
                    self.back(GOTO, to);
                }
            }
            75..=83 => self.call(),
            84..=86 => {
                let opcode = self.condition();
                self.forward(opcode, None);
                match self.rng.below(5) {
                    0 => self.op(HALT, &[]),
                    1 if self.messages > 0 => {
                        let i = self.rng.below(self.messages) as u8;
                        self.op(ERR, &[i]);
                    }
                    _ => self.ret(),
                }
            }
            87..=92 => self.counted(),
            93..=95 => {
                if !self.targets.is_empty() {
                    let t = self.rng.below(self.targets.len());
                    let depth = self.targets[t].depth;
                    self.level(depth);
                    self.bind(t);
                }
            }
            _ => {
                if d < self.most {
                    let mode = self.rng.below(3) as u8;
                    self.op(SETOUT, &[mode]);
                    self.simple_push();
                    self.op(OUT, &[]);
                }
            }
        }
        true
    }

    /// A method that calls itself with its first parameter less one, until
    /// that is 0.
    fn recursion(&mut self) {
        let sign = self.signs[self.me];
        self.op(ILOAD, &[0]);
        let base = self.forward(IFEQ, None);
        for _ in 0..self.rng.below(4) {
            self.simple();
        }
        let d = self.depth.unwrap();
        if d + sign.parameters + 2 <= self.most {
            self.op(ILOAD, &[0]);
            self.push(1);
            self.op(ISUB, &[]);
            for _ in 1..sign.parameters {
                self.simple_push();
            }
            self.op(INVOKEVIRTUAL, &[self.me as u8]);
        }
        if self.rng.one_in(2) {
            self.ret();
            self.bind(base);
        }
    }

    fn body(&mut self, size: usize) {
        if self.signs[self.me].parameters > 0 && self.rng.one_in(3) {
            self.recursion();
        }
        while self.code.len() < size {
            if !self.step() {
                break;
            }
        }
        self.close();
    }

    /// Brings every way to an end.
    fn close(&mut self) {
        loop {
            if self.depth.is_some() {
                for _ in 0..self.rng.below(3) {
                    self.simple();
                }
                if self.returned && self.rng.one_in(8) {
                    if self.messages > 0 && self.rng.one_in(2) {
                        let i = self.rng.below(self.messages) as u8;
                        self.op(ERR, &[i]);
                    } else {
                        self.op(HALT, &[]);
                    }
                } else {
                    self.ret();
                }
            } else if self.targets.is_empty() {
                break;
            } else {
                let t = self.rng.below(self.targets.len());
                self.bind(t);
            }
        }
        if !self.returned {
            let right = if self.signs[self.me].value { IRETURN } else { RETURN };
            self.op(right, &[]);
        }
        if self.rng.one_in(4) {
            for _ in 0..self.rng.range(1, 4) {
                self.dead();
            }
        }
    }
}

/// Text in units, mostly printable.
fn units(rng: &mut Rng, count: usize) -> Vec<u8> {
    let mut out = vec![];
    for _ in 0..count {
        let unit = match rng.below(12) {
            0 => rng.next() as u16,
            1 => rng.pick(&[0x5C, 0x0A, 0x1F, 0x20, 0x7E, 0x7F, 0x80, 0x2041, 0xD800, 0xFFFF]),
            _ => rng.range(0x21, 0x7E) as u16,
        };
        out.extend(unit.to_be_bytes());
    }
    out
}

fn name(rng: &mut Rng) -> Vec<u8> {
    let count = if rng.one_in(40) { 127 } else { rng.range(1, 6) };
    units(rng, count)
}

/// The outsides of some methods. The first is main.
fn signs(rng: &mut Rng, count: usize) -> Vec<Sign> {
    (0..count)
        .map(|k| {
            let parameters = match rng.below(30) {
                _ if k == 0 => 0,
                0 => rng.below(256),
                1..=8 => 0,
                _ => rng.range(1, 4),
            };
            let room = 255 - parameters;
            let locals = match rng.below(30) {
                0 => rng.below(room + 1),
                1 => room,
                2..=7 => 0,
                _ => rng.below(6).min(room),
            };
            Sign { parameters, locals, value: rng.one_in(2) }
        })
        .collect()
}

fn write_method<'a>(rng: &'a mut Rng, signs: &'a [Sign], me: usize, constants: usize, messages: usize) -> Writer<'a> {
    let most = match rng.below(12) {
        0 => 255,
        1 => rng.range(20, 255),
        _ => rng.range(4, 12),
    };
    Writer {
        rng,
        signs,
        me,
        constants,
        messages,
        most,
        code: vec![],
        live: vec![],
        targets: vec![],
        depth: Some(0),
        returned: false,
    }
}

/// A sound program.
pub fn sound(rng: &mut Rng) -> Program {
    let count = match rng.below(40) {
        0 => 255,
        1 => rng.range(10, 60),
        2..=12 => 1,
        _ => rng.range(2, 7),
    };
    let signs = signs(rng, count);
    let constants = match rng.below(20) {
        0 => 255,
        1..=6 => 0,
        _ => rng.range(1, 6),
    };
    let messages = match rng.below(60) {
        0 => 255,
        1..=20 => 0,
        _ => rng.range(1, 5),
    };
    let mut methods = vec![];
    for k in 0..count {
        let size = match rng.below(20) {
            0..=2 => rng.below(8),
            3 => rng.range(200, 700),
            _ => rng.range(10, 90),
        };
        let size = if count > 100 { size.min(12) } else { size };
        let mut writer = write_method(rng, &signs, k, constants, messages);
        writer.body(size);
        let code = writer.code;
        methods.push(Method {
            parameters: signs[k].parameters as u8,
            locals: signs[k].locals as u8,
            name: name(rng),
            code,
        });
    }
    Program {
        name: name(rng),
        methods,
        constants: (0..constants).map(|_| rng.value()).collect(),
        messages: (0..messages)
            .map(|_| {
                let size = match rng.below(60) {
                    0 => 127,
                    1 => 126,
                    2..=10 => 0,
                    _ => rng.range(1, 8),
                };
                units(rng, size)
            })
            .collect(),
    }
}

/// A program of one or more methods with given code.
fn given(methods: Vec<(u8, u8, Vec<u8>)>) -> Program {
    Program {
        name: vec![0, 0x41],
        methods: methods
            .into_iter()
            .map(|(parameters, locals, code)| Method { parameters, locals, name: vec![0, 0x6D, 0, 0x6E], code })
            .collect(),
        constants: vec![0x8000, 0x7FFF],
        messages: vec![vec![0, 0x65, 0, 0x72], vec![]],
    }
}

// Cases.

fn keys(rng: &mut Rng) -> Vec<u8> {
    let size = match rng.below(16) {
        0..=1 => 0,
        2 => 1,
        3 => rng.range(509, 516),
        4 => rng.range(60, 700),
        _ => rng.range(2, 60),
    };
    if rng.one_in(3) {
        (0..size).map(|_| rng.byte()).collect()
    } else {
        let mut out = vec![];
        while out.len() < size {
            out.extend(rng.value().to_be_bytes());
        }
        out.truncate(size);
        out
    }
}

/// A case with a file, and the rest as it comes.
fn case_of(rng: &mut Rng, file: Vec<u8>) -> Case {
    let n = file.len();
    let keys = keys(rng);
    let sheet = if rng.one_in(6) { n + rng.range(1, 20) } else { n };
    let pending = if rng.one_in(6) { n + rng.range(1, 20) } else { n };
    let cells = match rng.below(14) {
        0 => rng.below(9),
        1 => rng.range(3, 80),
        2 => rng.range(80, 1000),
        3 => rng.range(65_530, 65_540),
        4 => rng.range(60_000, 80_000),
        5..=8 => need(rng, &file, &keys),
        _ => 2_048,
    };
    let memory = match rng.below(14) {
        0..=1 => rng.below(12),
        2..=3 => rng.below(200),
        4 => rng.range(65_530, 65_545),
        5 => rng.range(200, 80_000),
        _ => 195,
    };
    let slots = match rng.below(10) {
        0..=2 => rng.below(9),
        3 => rng.range(9, 256),
        _ => 256,
    };
    let mut slices = vec![];
    for _ in 0..rng.range(1, 7) {
        let fuel = match rng.below(8) {
            0 => 0,
            1 => 1,
            2 => rng.range(2, 9),
            3 => 10_000,
            4 => rng.range(1_000, 12_000),
            _ => rng.range(10, 300),
        };
        let arrive = match rng.below(4) {
            0 => 0,
            1 => rng.range(1, 3),
            2 => rng.range(3, 30),
            _ => 400,
        };
        slices.push(Slice { fuel: fuel as u32, keys: arrive as u16 });
    }
    let mut case = Case {
        file,
        keys,
        sheet: sheet as u32,
        pending: pending as u32,
        damages: vec![],
        cells: cells as u32,
        memory: memory as u32,
        slots: slots as u16,
        slices,
    };
    boundary_fuels(rng, &mut case);
    case
}

/// Where the run stops by itself, some slices get the exact fuel, and the last
/// one sometimes the largest fuel that there is.
fn boundary_fuels(rng: &mut Rng, case: &mut Case) {
    let units = pairs(&case.keys);
    if units.len() > case.slots as usize || !rng.one_in(3) {
        return;
    }
    let mut sheet = vec![0; case.file.len()];
    if check(&case.file, &mut sheet, case.file.len()).is_err() {
        return;
    }
    let admitted = admit(&case.file, &sheet).unwrap();
    let mut label = Label::new(case.slots as usize);
    for unit in &units {
        label.key(*unit).unwrap();
    }
    let mut cells = vec![0; case.cells as usize];
    let (stop, count) = start(&admitted, &mut cells).go(&mut label, FUEL);
    if stop == Stop::Spent {
        return;
    }
    let last = case.slices.len() - 1;
    case.slices[last].fuel = match rng.below(4) {
        0 => count,
        1 => count.saturating_sub(1),
        2 => count + 1,
        _ => u32::MAX,
    };
}

/// A number of cells near what the program needs, if it is sound.
fn need(rng: &mut Rng, file: &[u8], keys: &[u8]) -> usize {
    let mut sheet = vec![0; file.len()];
    if check(file, &mut sheet, file.len()).is_err() {
        return rng.range(0, 100);
    }
    let admitted = admit(file, &sheet).unwrap();
    let mut label = Label::new(1_000);
    for unit in pairs(keys) {
        let _ = label.key(unit);
    }
    let mut cells = vec![0; 65_535];
    let mut run = start(&admitted, &mut cells);
    let mut most = run.reach();
    for _ in 0..FUEL {
        let (_, count) = run.go(&mut label, 1);
        if count == 0 {
            break;
        }
        most = most.max(run.reach());
    }
    (most + rng.pick(&[0, 0, 1, 2])).saturating_sub(rng.pick(&[0, 1, 1, 2, 3]))
}

/// Changes a file a little.
fn damage(rng: &mut Rng, file: &mut Vec<u8>) {
    for _ in 0..rng.pick(&[1, 1, 1, 2, 3]) {
        if file.is_empty() {
            file.push(rng.byte());
        }
        let n = file.len();
        let at = match rng.below(5) {
            0 => rng.below(n.min(13)),
            1 => rng.below(n.min(60)),
            2 => n - 1 - rng.below(n.min(40)),
            _ => rng.below(n),
        };
        match rng.below(10) {
            0..=1 => file[at] = rng.byte(),
            2 => file[at] ^= 1 << rng.below(8),
            3 => file[at] = file[at].wrapping_add(1),
            4 => file[at] = file[at].wrapping_sub(1),
            5 => file[at] = rng.pick(&INSTRUCTIONS).0,
            6 => file.insert(at, rng.byte()),
            7 => {
                file.remove(at);
            }
            8 => file.truncate(at),
            _ => {
                for _ in 0..rng.range(1, 4) {
                    file.push(rng.byte());
                }
            }
        }
    }
}

/// Damages the sheet that check makes of an accepted file.
fn damage_sheet(rng: &mut Rng, case: &mut Case) {
    let n = case.file.len();
    let mut sheet = vec![0; n];
    if check(&case.file, &mut sheet, n).is_err() {
        return;
    }
    let reader = read(&case.file).unwrap();
    let k = rng.below(reader.methods());
    let code = reader.code(k).unwrap();
    let mut all: Vec<usize> = vec![];
    for m in 0..reader.methods() {
        let c = reader.code(m).unwrap();
        all.extend(places(c.bytes).iter().map(|p| c.place + p.0));
    }
    let damages = &mut case.damages;
    match rng.below(11) {
        // all numbers of a method one higher, its first place's too
        10 => {
            let numbered: Vec<usize> =
                places(code.bytes).iter().map(|p| code.place + p.0).filter(|p| sheet[*p] != BLANK).collect();
            if numbered.len() < 100 {
                for p in numbered {
                    damages.push((p as u32, sheet[p] + 1));
                }
                damages.push((entry(k) as u32, sheet[entry(k)] + 1));
            }
        }
        // a place
        0..=2 => {
            let p = rng.pick(&all);
            let old = sheet[p];
            let new = match rng.below(6) {
                0 => old.wrapping_add(1),
                1 => old.wrapping_sub(1),
                2 => BLANK,
                3 => rng.pick(&[255, 256, 257, 65_534, 32_768]),
                _ => rng.below(256) as u16,
            };
            damages.push((p as u32, new));
        }
        // a method's first place
        3 => damages.push((code.place as u32, rng.pick(&[1, 255, 256, 65_534, BLANK]))),
        // a peak
        4..=5 => {
            let e = entry(k);
            let old = sheet[e];
            let new = rng.pick(&[old.wrapping_add(1), old.wrapping_sub(1), 0, 255, 256, BLANK]);
            damages.push((e as u32, new));
        }
        // an entry that is neither
        6 => {
            let others: Vec<usize> =
                (0..n).filter(|a| !all.contains(a) && !(*a >= 13 && *a < entry(reader.methods()) && (a - 13) % 10 == 0)).collect();
            damages.push((rng.pick(&others) as u32, rng.value()));
        }
        // places that are not reached, mostly with the peak that is right then
        _ => {
            let dead: Vec<(usize, Instruction)> = places(code.bytes)
                .into_iter()
                .map(|(at, i)| (code.place + at, i))
                .filter(|(p, _)| sheet[*p] == BLANK)
                .collect();
            let ends: Vec<usize> = dead
                .iter()
                .filter(|(_, i)| matches!(i.opcode, RETURN | IRETURN | ERR | HALT))
                .map(|p| p.0)
                .collect();
            if ends.is_empty() {
                if dead.is_empty() {
                    damages.push((entry(k) as u32, 256));
                } else {
                    damages.push((rng.pick(&dead).0 as u32, rng.below(257) as u16));
                }
                return;
            }
            let p = rng.pick(&ends);
            let number = rng.pick(&[0, 1, 2, 5, 20, 100, 254, 255, 256, 65_534]);
            damages.push((p as u32, number));
            if !rng.one_in(4) {
                let old = sheet[entry(k)];
                damages.push((entry(k) as u32, old.max(number)));
            }
        }
    }
}

/// A case that most often breaks the rule of this number, 1 to 19.
fn aimed(rng: &mut Rng, number: usize) -> Case {
    let mut program = sound(rng);
    if number <= 11 || number >= 18 {
        // few methods keep these cases short
        while program.methods.len() > 20 {
            program = sound(rng);
        }
    }
    let k = rng.below(program.methods.len());
    let (mut file, layout) = assemble(&program);
    match number {
        1 => {
            let over = rng.pick(&[1, 1, 2, 3, 100, 4_000]);
            let pad = 65_535 + over - file.len();
            program.methods[0].code.extend(vec![NOP; pad]);
            file = assemble(&program).0;
        }
        2 => file.truncate(rng.below(13)),
        3 => file[rng.below(4)] ^= 1 << rng.below(8),
        4 => file[4] ^= 1 << rng.below(8),
        5 => file[10] = 0,
        6 => {
            let end = 13 + 10 * program.methods.len() + 2 * program.constants.len();
            if rng.one_in(2) {
                file.truncate(rng.range(13, end - 1));
            } else {
                file[10] = 255;
                file.truncate(2_562.min(file.len()));
            }
        }
        7 => {
            let e = entry(k);
            if rng.one_in(3) {
                file[17] = rng.range(1, 255) as u8;
            } else {
                let p = if k == 0 { 0 } else { rng.range(1, 255) };
                file[e + 4] = p as u8;
                file[e + 5] = (256 - p).min(255) as u8;
                if k == 0 {
                    file[17] = 1;
                }
            }
        }
        8 => {
            let e = entry(k);
            match rng.below(5) {
                0 => {
                    let b = layout.blocks[k];
                    file[b + 1] = 0;
                    file[b + 2] = 0;
                }
                1 => file[e + 3] ^= 1 << rng.below(8),
                2 => file[e] = rng.range(1, 255) as u8,
                _ => {
                    let far = file.len() as u32 - rng.pick(&[0, 1, 2, 2, 2, 3]);
                    file[e + 6..e + 10].copy_from_slice(&far.to_be_bytes());
                    if rng.one_in(4) {
                        file[e + 6] = 255;
                        file[e + 7] = 255;
                        file[e + 8] = 255;
                        file[e + 9] = 255;
                    }
                }
            }
        }
        9 => match rng.below(4) {
            0 => file[layout.blocks[k]] |= 1,
            1 => file[layout.blocks[k]] = 0,
            2 => {
                let last = program.methods.len() - 1;
                program.messages.clear();
                let (f, l) = assemble(&program);
                file = f;
                file.truncate(l.blocks[last] + 3 + program.methods[last].name.len() - rng.range(1, 2));
            }
            _ => {
                // the size of the last method's code, so that all blocks are due elsewhere
                let b = layout.blocks[program.methods.len() - 1];
                let size = program.methods[program.methods.len() - 1].code.len() as u16;
                file[b + 1..b + 3].copy_from_slice(&(size + 1).to_be_bytes());
            }
        },
        10 => {
            if program.messages.is_empty() {
                program.messages.push(units(rng, 3));
            }
            if program.messages.len() < 250 && rng.one_in(2) {
                let size = rng.pick(&[0, 2, 252, 254]);
                program.messages.push(vec![0x30; size]);
            }
            let m = rng.below(program.messages.len());
            match rng.below(4) {
                0 => program.messages[m].push(0),
                1 => {
                    let size = rng.pick(&[255, 256, 257, 512]);
                    program.messages[m] = vec![0; size];
                }
                _ => {}
            }
            let (f, l) = assemble(&program);
            file = f;
            match rng.below(4) {
                0 => {
                    let to = l.messages[m] + rng.below(3 + program.messages[m].len());
                    file.truncate(to);
                }
                1 => file[l.messages[m]] = 255,
                _ => file[l.messages[m] + 1] ^= 1,
            }
        }
        11 => match rng.below(5) {
            0 => file[5] = 0,
            1 => file[5] |= 1,
            2 => file[5] = file[5].wrapping_add(2),
            3 => file[9] = file[9].wrapping_add(1),
            _ => file.push(0),
        },
        13 => {
            let all = places(&program.methods[k].code);
            let (at, _) = rng.pick(&all);
            if rng.one_in(2) {
                let mut bad = rng.byte();
                while LENGTH[bad as usize] != 0 {
                    bad = rng.byte();
                }
                program.methods[k].code[at] = bad;
            } else {
                program.methods[k].code.push(rng.pick(&[BIPUSH, LDC, IINC, GOTO, ERR, INVOKEVIRTUAL]));
                if rng.one_in(3) {
                    let last = program.methods[k].code.len() - 1;
                    program.methods[k].code[last] = IINC;
                    program.methods[k].code.extend([0, 0]);
                }
            }
            file = assemble(&program).0;
        }
        14 => {
            let variables = program.methods[k].parameters as usize + program.methods[k].locals as usize;
            let limit = |opcode: u8| match opcode {
                LDC => program.constants.len(),
                INVOKEVIRTUAL => program.methods.len(),
                ERR => program.messages.len(),
                SETOUT => 3,
                _ => variables,
            };
            let mut bad: Vec<u8> = [LDC, INVOKEVIRTUAL, ERR, SETOUT, ILOAD, ISTORE, IINC].to_vec();
            bad.retain(|o| limit(*o) < 256);
            let opcode = rng.pick(&bad);
            let index = if rng.one_in(2) { limit(opcode) } else { rng.range(limit(opcode), 255) };
            let code = &mut program.methods[k].code;
            let at = if rng.one_in(2) { 0 } else { code.len() };
            let mut new = vec![opcode, index as u8];
            if opcode == IINC {
                new.extend([0, 1]);
            }
            code.splice(at..at, new);
            file = assemble(&program).0;
        }
        15 => {
            let code = &mut program.methods[k].code;
            let jumps: Vec<usize> = places(code).iter().filter(|p| p.1.is_jump()).map(|p| p.0).collect();
            let at = if jumps.is_empty() || rng.one_in(4) {
                let opcode = rng.pick(&[IFEQ, IFLT, IF_ICMPEQ, GOTO]);
                code.extend([opcode, 0, 0]);
                code.len() - 3
            } else {
                rng.pick(&jumps)
            };
            let end = code.len() as i64 - at as i64;
            let distance = match rng.below(8) {
                0 => end,
                1 => -(at as i64) - 1,
                2 => 1,
                3 => 2,
                4 => -32_768,
                5 => 32_767,
                6 => end - 1,
                _ => rng.value() as i16 as i64,
            };
            code[at + 1..at + 3].copy_from_slice(&(distance as i16).to_be_bytes());
            file = assemble(&program).0;
        }
        16 => {
            let code = &mut program.methods[k].code;
            match rng.below(3) {
                0 => {
                    let other = if places(code).iter().any(|p| p.1.opcode == RETURN) { IRETURN } else { RETURN };
                    code.push(other);
                }
                1 => {
                    for (at, i) in places(code) {
                        if matches!(i.opcode, RETURN | IRETURN) {
                            code[at] = HALT;
                        }
                    }
                }
                _ => *code = vec![GOTO, 0, 0],
            }
            file = assemble(&program).0;
        }
        17 => {
            let code = &mut program.methods[k].code;
            match rng.below(5) {
                // another effect
                0..=1 => {
                    let one: Vec<usize> = places(code)
                        .iter()
                        .filter(|p| p.1.length == 1 && !matches!(p.1.opcode, RETURN | IRETURN | HALT))
                        .map(|p| p.0)
                        .collect();
                    if !one.is_empty() {
                        code[rng.pick(&one)] = rng.pick(&[POP, DUP, IADD, IN, OUT, SWAP]);
                    } else {
                        code.insert(0, POP);
                    }
                }
                // reaches the end of its code
                2 => {
                    let at = places(code).last().unwrap().0;
                    code.truncate(at);
                    code.splice(0..0, [BIPUSH, 0, 0, IFEQ, 0, 4, RETURN]);
                    let value = places(code).iter().any(|p| p.1.opcode == IRETURN);
                    if value {
                        code[6] = IRETURN;
                    }
                    if code.len() == 7 {
                        code.push(NOP);
                    }
                }
                // two depths at one place
                3 => {
                    let mut new = vec![IN, IFEQ, 0, 6, BIPUSH, 0, 1];
                    new.append(code);
                    *code = new;
                    code[2..4].copy_from_slice(&6u16.to_be_bytes());
                }
                // pops what is not there
                _ => code.insert(0, rng.pick(&[POP, OUT, IADD, SWAP, DUP])),
            }
            file = assemble(&program).0;
        }
        _ => {}
    }
    let mut case = case_of(rng, file);
    if number == 12 {
        let n = case.file.len();
        let less = n - rng.pick(&[1, 1, 2, n / 2, n]);
        match rng.below(3) {
            0 => case.sheet = less as u32,
            1 => case.pending = less as u32,
            _ => {
                case.sheet = less as u32;
                case.pending = less as u32;
            }
        }
    }
    if number >= 18 {
        damage_sheet(rng, &mut case);
    }
    case
}

/// How many kinds of boundary there are.
const BOUNDARIES: usize = 18;

/// A case at a boundary of some kind; `round` counts those of the kind.
fn boundary(rng: &mut Rng, which: usize, round: usize) -> Case {
    let bytes = |v: u16| v.to_be_bytes();
    match which {
        // an operand stack of 253 to 257 values
        0 => {
            let n = rng.range(253, 257);
            let first = rng.pick(&[IN, BIPUSH]);
            let mut code = if first == IN { vec![IN] } else { vec![BIPUSH, 0, 7] };
            for _ in 1..n {
                code.extend(if rng.one_in(2) { vec![DUP] } else { vec![BIPUSH, 0, 9] });
            }
            for _ in 0..rng.below(40) {
                code.push(rng.pick(&[SWAP, IADD, OUT, NOP]));
            }
            code.push(rng.pick(&[RETURN, IRETURN]));
            let file = assemble(&given(vec![(0, 0, code)])).0;
            case_of(rng, file)
        }
        // calls at the highest depth
        1 => {
            let n = rng.range(253, 255);
            let p = rng.below(3) as u8;
            let mut code = vec![BIPUSH, 0, 7];
            code.extend(vec![DUP; n - 1]);
            code.extend([INVOKEVIRTUAL, 1, OUT, RETURN]);
            let callee = if rng.one_in(3) { vec![RETURN] } else { vec![BIPUSH, 0, 1, IRETURN] };
            let file = assemble(&given(vec![(0, 0, code), (p, rng.below(4) as u8, callee)])).0;
            case_of(rng, file)
        }
        // 254 to 256 variables
        2 => {
            let all = rng.pick(&[254, 255, 255, 256]);
            let p = rng.pick(&[0, 1, 100, 255, 255]).min(all);
            let l = (all - p).min(255);
            let last = (all - 1).min(255) as u8;
            let mut code = vec![];
            for _ in 0..p {
                code.extend([BIPUSH]);
                code.extend(bytes(rng.value()));
            }
            code.extend([INVOKEVIRTUAL, 1, RETURN]);
            let callee = vec![ILOAD, 0, OUT, IINC, last, 0, 5, ILOAD, last, OUT, RETURN];
            let file = assemble(&given(vec![(0, 255, code), (p as u8, l as u8, callee)])).0;
            case_of(rng, file)
        }
        // long files, from 65,530 to 65,537 bytes
        3 => {
            let mut program = sound(rng);
            let n = rng.pick(&[65_530, 65_534, 65_534, 65_535, 65_535, 65_535, 65_536, 65_537]);
            let pad = n - assemble(&program).0.len();
            // the padding is never reached, or jumped over, or run through
            match rng.below(4) {
                0 => program.methods[0].code.extend(vec![NOP; pad]),
                1 => {
                    let k = program.methods.len() - 1;
                    program.methods[k].code.extend(vec![WIDE; pad]);
                }
                2 => {
                    let mut front = vec![NOP; pad];
                    let mut at = 0;
                    while pad - at > 3 {
                        let far = (pad - at).min(rng.pick(&[32_767, 32_766, 20_000]));
                        front[at] = GOTO;
                        front[at + 1..at + 3].copy_from_slice(&bytes(far as u16));
                        at += far;
                    }
                    program.methods[0].code.splice(0..0, front);
                }
                _ => {
                    // main stays in front; padding in an uncalled last method
                    program.methods.truncate(254);
                    let mut last = vec![RETURN];
                    let now = assemble(&program).0.len();
                    last.extend(vec![NOP; n - now - 10 - 5 - 1]);
                    program.methods.push(Method { parameters: 0, locals: 0, name: vec![0, 1], code: last });
                }
            }
            let file = assemble(&program).0;
            case_of(rng, file)
        }
        // short files
        4 => {
            let file = assemble(&sound(rng)).0;
            let n = (11 + round) % 36;
            let n = n.min(file.len());
            let file = file[..n].to_vec();
            case_of(rng, file)
        }
        // recursion to a given depth on a stack that may be too small
        5 => {
            let p = rng.range(1, 4);
            let l = rng.below(4);
            let depth = rng.pick(&[1, 2, 5, 20, 100, 400, 2_000]) as u16 + rng.below(5) as u16;
            let value = rng.one_in(2);
            let ret = if value { IRETURN } else { RETURN };
            let mut code = vec![];
            for j in 0..p {
                code.push(BIPUSH);
                code.extend(bytes(if j == 0 { depth } else { rng.value() }));
            }
            code.extend([INVOKEVIRTUAL, 1]);
            if value {
                code.extend([SETOUT, 1, OUT]);
            }
            code.push(RETURN);
            // if the first is 0 return, else call with the first less one
            let mut callee = vec![ILOAD, 0, IFEQ];
            let mut call = vec![ILOAD, 0, BIPUSH, 0, 1, ISUB];
            for j in 1..p {
                call.extend([ILOAD, j as u8]);
            }
            call.extend([INVOKEVIRTUAL, 1]);
            if value {
                call.extend([BIPUSH, 0, 1, IADD]);
            }
            call.push(ret);
            callee.extend(bytes(3 + call.len() as u16));
            callee.extend(call);
            callee.extend([ILOAD, (p - 1) as u8, ret]);
            let file = assemble(&given(vec![(0, 0, code), (p as u8, l as u8, callee)])).0;
            let mut case = case_of(rng, file);
            if rng.one_in(3) {
                case.cells = 65_530 + rng.below(12) as u32;
            }
            case
        }
        // frames without operands that fill just 65,535 cells
        6 if round % 2 == 0 => {
            let l = rng.pick(&[12, 14, 48, 82, 252, 254]);
            let file = assemble(&given(vec![(0, l, vec![INVOKEVIRTUAL, 0, RETURN])])).0;
            let mut case = case_of(rng, file);
            case.cells = rng.pick(&[65_534, 65_535, 65_536, 65_537, 70_000]);
            case
        }
        // recursion without end, also of main, on stacks of many sizes
        6 => {
            let l = rng.pick(&[0, 1, 2, 10, 30, 200]);
            let code = match rng.below(3) {
                0 => vec![INVOKEVIRTUAL, 0, RETURN],
                1 => vec![IINC, 0, 0, 1, ILOAD, 0, OUT, INVOKEVIRTUAL, 0, RETURN],
                _ => vec![BIPUSH, 0, 1, BIPUSH, 0, 2, INVOKEVIRTUAL, 0, RETURN],
            };
            let file = assemble(&given(vec![(0, l.max(1), code)])).0;
            let mut case = case_of(rng, file);
            case.cells = if rng.one_in(2) {
                rng.pick(&[5, 6, 7, 8, 9, 10, 11, 12, 64, 65, 66, 2_048])
            } else {
                rng.pick(&[65_534, 65_535, 65_536, 70_000])
            };
            case
        }
        // a label that fills up, in each mode, with numbers of each length
        7 => {
            let mode = rng.below(3) as u8;
            let mut code = vec![SETOUT, mode];
            // some single units first
            for _ in 0..rng.below(7) {
                code.extend([BIPUSH, 0, 5, OUT]);
            }
            let head = code.len();
            let long = rng.one_in(3);
            for _ in 0..rng.pick(&[1, 2, 3, 5, 60]) {
                let v = rng.pick(&[7, 42, 777, 4_242, 12_345, 65_535, 65_500, 65_000, 60_000, 40_000]);
                code.push(BIPUSH);
                code.extend(bytes(if long { 40_000 } else { v }));
                code.push(OUT);
            }
            let back = head as i64 - code.len() as i64;
            code.push(GOTO);
            code.extend(bytes(back as u16));
            code.push(RETURN);
            let file = assemble(&given(vec![(0, 0, code)])).0;
            let mut case = case_of(rng, file);
            case.memory = match rng.below(3) {
                0 => rng.pick(&[0, 2, 3, 4, 5, 6, 7, 8, 9, 14, 195, 196]),
                1 => rng.pick(&[1_000, 20_003, 65_536, 65_537, 65_538, 70_000]),
                _ => rng.range(0, 400) as u32,
            };
            case
        }
        // echo: what comes is written
        8 => {
            let mode = rng.below(3) as u8;
            let code = vec![SETOUT, mode, IN, OUT, GOTO, 0xFF, 0xFE, RETURN];
            let file = assemble(&given(vec![(0, 0, code)])).0;
            case_of(rng, file)
        }
        // main's frame fits just so
        9 => {
            let l = rng.below(6);
            let peak = rng.below(5);
            let mut code = vec![];
            for _ in 0..peak {
                code.extend([BIPUSH, 0, 33]);
            }
            for _ in 0..peak {
                code.push(OUT);
            }
            code.push(rng.pick(&[RETURN, HALT]));
            code.push(RETURN);
            let file = assemble(&given(vec![(0, l as u8, code)])).0;
            let mut case = case_of(rng, file);
            case.cells = (3 + l + peak + rng.below(3)) as u32 - 1;
            case
        }
        // each end
        10 => {
            let code = match rng.below(6) {
                0 => vec![RETURN],
                1 => {
                    let mut c = vec![BIPUSH];
                    c.extend(bytes(rng.value()));
                    c.push(IRETURN);
                    c
                }
                2 => vec![HALT, RETURN],
                3 => vec![ERR, rng.below(2) as u8, RETURN],
                4 => vec![INVOKEVIRTUAL, 1, RETURN],
                _ => vec![IN, IN, IN, IRETURN],
            };
            let callee = match rng.below(3) {
                0 => vec![HALT, RETURN],
                1 => vec![ERR, 1, RETURN],
                _ => vec![BIPUSH, 0, 1, BIPUSH, 0, 2, RETURN],
            };
            let file = assemble(&given(vec![(0, 1, code), (0, 2, callee)])).0;
            case_of(rng, file)
        }
        // conditions on values at boundaries
        11 => {
            let mut code = vec![SETOUT, 1];
            for _ in 0..rng.range(1, 12) {
                let v = rng.value();
                let u = if rng.one_in(3) { v } else { rng.value() };
                let opcode = rng.pick(&[IFEQ, IFLT, IF_ICMPEQ]);
                let op = rng.pick(&[IADD, ISUB, IAND, IOR]);
                code.push(BIPUSH);
                code.extend(bytes(u));
                code.push(BIPUSH);
                code.extend(bytes(v));
                if opcode == IF_ICMPEQ {
                    code.extend([IF_ICMPEQ, 0, 7, BIPUSH, 0, 1, OUT]);
                } else {
                    code.extend([op, DUP, OUT, opcode, 0, 7, BIPUSH, 0, 2, OUT]);
                }
            }
            code.push(RETURN);
            let file = assemble(&given(vec![(0, 0, code)])).0;
            case_of(rng, file)
        }
        // jumps as far as they go, both ways
        12 => {
            let far = rng.pick(&[32_766, 32_767, 32_767, 32_768, 32_769]);
            // GOTO over the padding, and from there back to the place after it
            let mut code = vec![GOTO];
            code.extend(bytes(far as u16));
            code.extend([BIPUSH, 0, 65, OUT, RETURN]);
            while code.len() < far {
                code.push(NOP);
            }
            let back = 3 - far as i64;
            let back = if rng.one_in(2) { back } else { back + rng.below(5) as i64 - 2 };
            code.push(GOTO);
            code.extend(bytes(back as u16));
            let file = assemble(&given(vec![(0, 0, code)])).0;
            case_of(rng, file)
        }
        // code that is not reached, and reached code that runs off its end
        13 => {
            let code = match rng.below(7) {
                5 => vec![GOTO, 0, 0, RETURN],
                6 => vec![BIPUSH, 0, 0, IFEQ, 0, 0, RETURN],
                0 => vec![RETURN, NOP],
                1 => vec![RETURN, POP, IADD, OUT],
                2 => vec![BIPUSH, 0, 0, IFEQ, 0, 4, RETURN, NOP],
                3 => vec![GOTO, 0, 4, NOP, RETURN, GOTO, 0xFF, 0xFE],
                _ => vec![RETURN, IFEQ, 0xFF, 0xFF, INVOKEVIRTUAL, 0],
            };
            let file = assemble(&given(vec![(0, 0, code)])).0;
            case_of(rng, file)
        }
        // parameters in the order in which they are pushed, and fresh locals
        14 => {
            let p = rng.range(1, 9);
            let l = rng.range(1, 5);
            let mut code = vec![SETOUT, 1];
            for _ in 0..3 {
                for _ in 0..p {
                    code.push(BIPUSH);
                    code.extend(bytes(rng.value()));
                }
                code.extend([INVOKEVIRTUAL, 1]);
            }
            code.push(RETURN);
            let mut callee = vec![];
            for j in 0..p + l {
                callee.extend([ILOAD, j as u8, OUT, BIPUSH, 0, 32, SETOUT, 0, OUT, SETOUT, 1]);
            }
            for j in 0..p + l {
                callee.extend([BIPUSH, 0x77, 0x77, ISTORE, j as u8]);
            }
            callee.push(RETURN);
            let file = assemble(&given(vec![(0, 0, code), (p as u8, l as u8, callee)])).0;
            case_of(rng, file)
        }
        // high numbers at places that are not reached
        15 if round % 2 == 0 => {
            let d: u16 = rng.pick(&[1, 254, 255, 255, 256, 256, 65_533]);
            let (dead, after) = match rng.below(3) {
                0 => (vec![BIPUSH, 0, 0], d + 1),
                1 => (vec![POP], d - 1),
                _ => (vec![NOP], d),
            };
            let mut code = vec![RETURN];
            code.extend(&dead);
            code.push(RETURN);
            let (file, layout) = assemble(&given(vec![(0, 0, code)]));
            let mut case = case_of(rng, file);
            let first = layout.code[0] as u32 + 1;
            let peak = if rng.one_in(4) { d } else { d.max(after) };
            case.damages = vec![(first, d), (first + dead.len() as u32, after), (13, peak)];
            case
        }
        // a sheet with a higher peak than check's
        15 => {
            let code = vec![INVOKEVIRTUAL, 1, INVOKEVIRTUAL, 1, RETURN];
            let callee = vec![BIPUSH, 0, 65, OUT, RETURN, RETURN];
            let program = given(vec![(0, 0, code), (0, 1, callee)]);
            let (file, layout) = assemble(&program);
            let mut case = case_of(rng, file);
            let higher = rng.pick(&[2, 3, 10, 255]);
            case.damages = vec![(layout.code[1] as u32 + 5, higher), (entry(1) as u32, higher)];
            case.cells = 3 + 3 + 1 + rng.pick(&[1, 2, 3, 9, 10, 11, 254, 255, 256]);
            case
        }
        // six units at a time, after some single ones
        16 => {
            let before = round % 6;
            let mut code = vec![SETOUT, 1];
            for _ in 0..before {
                code.extend([BIPUSH, 0, 5, OUT]);
            }
            code.extend([BIPUSH, 0x80, 0, OUT, GOTO, 0xFF, 0xFC, RETURN]);
            let file = assemble(&given(vec![(0, 0, code)])).0;
            let mut case = case_of(rng, file);
            let room = before + 6 * rng.below(40) + rng.below(6);
            case.memory = (3 + 2 * room + rng.below(2)) as u32;
            case.cells = 2_048;
            case
        }
        // many keys on a short line
        _ => {
            let code = vec![IN, OUT, IN, POP, GOTO, 0xFF, 0xFC, RETURN];
            let file = assemble(&given(vec![(0, 0, code)])).0;
            let mut case = case_of(rng, file);
            case.keys = (0..rng.range(0, 1_400)).map(|_| rng.byte()).collect();
            case.slots = rng.pick(&[0, 1, 2, 3, 7, 255, 256, 257, 600]);
            case.slices = (0..rng.range(1, 12))
                .map(|_| Slice { fuel: rng.pick(&[0, 1, 2, 3, 4, 5, 17, 1_000]), keys: rng.pick(&[0, 1, 2, 3, 8, 300]) })
                .collect();
            case
        }
    }
}

/// Noise, sometimes behind a sound header.
fn noise(rng: &mut Rng) -> Vec<u8> {
    let size = match rng.below(12) {
        0 => rng.range(65_000, 66_000),
        _ => rng.below(300),
    };
    let mut file: Vec<u8> = (0..size).map(|_| rng.byte()).collect();
    if size >= 5 && !rng.one_in(3) {
        file[..5].copy_from_slice(&[0x65, 0x4A, 0x56, 0x4D, 0x10]);
    }
    if size >= 60 && rng.one_in(2) {
        file[10..13].copy_from_slice(&[1, 0, 0]);
        file[13..23].copy_from_slice(&[0, 0, 0, 23, 0, 1, 0, 0, 0, 40]);
        file[41] = 0;
        file[42] = rng.pick(&[17, 17, 16, 0]);
    }
    file
}

/// A sound file whose code is noise among the instructions.
fn noisy_code(rng: &mut Rng) -> Vec<u8> {
    let size = rng.range(1, 14);
    let mut code = vec![];
    while code.len() < size {
        let row = rng.pick(&INSTRUCTIONS);
        code.push(row.0);
        for j in 1..row.2 {
            code.push(if j == 1 && row.2 == 3 { rng.pick(&[0, 0, 0xFF]) } else { rng.pick(&[0, 0, 1, 2, 3, 4, 255, 254]) });
        }
    }
    if rng.one_in(2) {
        code.push(RETURN);
    }
    let locals = rng.below(3) as u8;
    assemble(&given(vec![(0, locals, code), (1, 0, vec![ILOAD, 0, IRETURN])])).0
}

/// The kinds of cases.
pub const KINDS: [&str; 7] = ["sound", "damaged", "sheet", "noise", "noisy code", "aimed", "boundary"];

/// Case number `index` of a seed, and its kind. Each case has numbers of its
/// own, so it does not depend on those before it.
pub fn case(seed: u64, index: usize) -> (Case, usize) {
    let mut rng = Rng::new(seed);
    let mut rng = Rng::new(rng.next() ^ (index as u64).wrapping_mul(0xD134_2543_DE82_EF95));
    rng.next();
    let rng = &mut rng;
    match index % 16 {
        0..=4 => {
            let file = assemble(&sound(rng)).0;
            (case_of(rng, file), 0)
        }
        5..=7 => {
            let mut file = assemble(&sound(rng)).0;
            damage(rng, &mut file);
            (case_of(rng, file), 1)
        }
        8..=9 => {
            let file = assemble(&sound(rng)).0;
            let mut case = case_of(rng, file);
            damage_sheet(rng, &mut case);
            (case, 2)
        }
        10 => {
            if rng.one_in(3) {
                let file = noise(rng);
                (case_of(rng, file), 3)
            } else {
                let file = noisy_code(rng);
                (case_of(rng, file), 4)
            }
        }
        11..=13 => {
            // each rule in turn
            let number = 1 + (index / 16 * 3 + index % 16 - 11) % 19;
            // the long files of number 1 are seldom wanted
            let number = if number == 1 && !rng.one_in(3) { 17 } else { number };
            (aimed(rng, number), 5)
        }
        _ => {
            // each kind in turn; of the long files every second
            let turn = index / 16 * 2 + index % 16 - 14;
            let which = turn % BOUNDARIES;
            let which = if matches!(which, 3 | 12) && turn / BOUNDARIES % 2 == 1 { 7 } else { which };
            (boundary(rng, which, turn / BOUNDARIES), 6)
        }
    }
}

#[cfg(test)]
mod tests {
    use super::*;

    #[test]
    fn sound_programs_are_accepted() {
        let mut rng = Rng::new(7);
        for _ in 0..2_000 {
            let file = assemble(&sound(&mut rng)).0;
            if file.len() > 65_535 {
                continue;
            }
            let mut sheet = vec![0; file.len()];
            check(&file, &mut sheet, file.len()).unwrap();
            admit(&file, &sheet).unwrap();
        }
    }
}
