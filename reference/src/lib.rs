//! A second, independent engine for `.ejvm` program files, written from the
//! documents alone. Plain safe Rust, no dependencies.
//!
//! - `format`: program files and instructions (`read`, `Reader`, `decode`)
//! - `verify`: `check` and `admit`
//! - `hosts`: the trait `Host`, the label and the recorder
//! - `machine`: the run on a stack (`start`, `go`), and the plain machine
//! - `text`: what OUT writes, the listing, and what the programs print
//! - `files`: reading files and printing, for the programs
//! - `cases`: the stored form of cases and what comes of them
//! - `generator`: makes cases from a seed
//! - `reached`: what a case reaches
//!
//! What can be refused, and where, stands here.

pub mod cases;
pub mod files;
pub mod format;
pub mod generator;
pub mod hosts;
pub mod machine;
pub mod reached;
pub mod text;
pub mod verify;

/// The part of the engine that a rule belongs to.
#[derive(Clone, Copy, Debug, PartialEq, Eq)]
pub enum Layer {
    File,
    Code,
    Host,
}

/// The rules, with their numbers.
#[derive(Clone, Copy, Debug, PartialEq, Eq)]
pub enum Rule {
    FileTooLong = 1,
    HeaderCut = 2,
    WrongMagic = 3,
    WrongVersion = 4,
    NoMethod = 5,
    TablesCut = 6,
    BadVariables = 7,
    BadCode = 8,
    BadDebugBlock = 9,
    BadMessage = 10,
    BadProgramName = 11,
    MemoryShort = 12,
    BadInstruction = 13,
    BadIndex = 14,
    BadTarget = 15,
    MixedReturns = 16,
    NoNumbering = 17,
    BadNumber = 18,
    BadPeak = 19,
    LineFull = 20,
    NoRoom = 21,
}

impl Rule {
    pub fn number(self) -> usize {
        self as usize
    }

    pub fn layer(self) -> Layer {
        match self.number() {
            1..=11 => Layer::File,
            12..=19 => Layer::Code,
            _ => Layer::Host,
        }
    }

    /// What is wrong, in words (the second line of a refused listing).
    pub fn words(self) -> &'static str {
        match self {
            Rule::FileTooLong => "the file has more than 65535 bytes",
            Rule::HeaderCut => "the file ends within its header",
            Rule::WrongMagic => "the file does not begin with eJVM",
            Rule::WrongVersion => "the version is not 1.0",
            Rule::NoMethod => "there is no method",
            Rule::TablesCut => "the file ends within its tables",
            Rule::BadVariables => "a method has too many variables, or main has parameters",
            Rule::BadCode => "the code of a method is empty or not where it is due",
            Rule::BadDebugBlock => "a debug block is not where it is due, or its name is wrong",
            Rule::BadMessage => "a message has a wrong size or passes the end of the file",
            Rule::BadProgramName => "the program name has a wrong size or is not where it is due",
            Rule::MemoryShort => "the memory lent is too short",
            Rule::BadInstruction => "an instruction is unknown or cut",
            Rule::BadIndex => "an index leads nowhere",
            Rule::BadTarget => "a jump leads to no instruction of its method",
            Rule::MixedReturns => "a method has both kinds of return or neither",
            Rule::NoNumbering => "the operand stack of a method has no fixed depths",
            Rule::BadNumber => "the sheet has a wrong number at an instruction",
            Rule::BadPeak => "the sheet has a wrong peak for a method",
            Rule::LineFull => "the line is full",
            Rule::NoRoom => "there is no room",
        }
    }
}

/// A broken rule and where it is broken.
#[derive(Clone, Copy, Debug, PartialEq, Eq)]
pub struct Refusal {
    pub rule: Rule,
    pub place: usize,
}

impl Refusal {
    pub fn new(rule: Rule, place: usize) -> Refusal {
        Refusal { rule, place }
    }

    pub fn number(&self) -> usize {
        self.rule.number()
    }

    pub fn layer(&self) -> Layer {
        self.rule.layer()
    }
}
