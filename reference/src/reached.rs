//! What a case reaches: refusals, stops, instructions and boundaries, counted.

use crate::cases::{self, agree, outcome, Case, Seen, Slice, FUEL};
use crate::format::{self, read, INSTRUCTIONS};
use crate::generator::KINDS;
use crate::hosts::{echo, Host, Label, Recorder};
use crate::machine::{start, End, Stop};
use crate::verify::{admit, BLANK};
use std::collections::BTreeMap;

/// Counts under a heading, in the order of the words.
#[derive(Default)]
pub struct Counts(pub BTreeMap<String, BTreeMap<String, u64>>);

impl Counts {
    pub fn add(&mut self, heading: &str, word: impl ToString, count: u64) {
        *self.0.entry(heading.to_string()).or_default().entry(word.to_string()).or_default() += count;
    }

    pub fn one(&mut self, heading: &str, word: impl ToString) {
        self.add(heading, word, 1);
    }

    /// Counts if the thing holds, and shows it with 0 otherwise.
    fn when(&mut self, heading: &str, word: &str, holds: bool) {
        self.add(heading, word, holds as u64);
    }

    /// Adds other counts.
    pub fn join(&mut self, other: &Counts) {
        for (heading, words) in &other.0 {
            for (word, count) in words {
                self.add(heading, word, *count);
            }
        }
    }

    /// The headings and words that were reached.
    pub fn reached(&self) -> Vec<(String, String)> {
        let pairs = self.0.iter().flat_map(|(h, words)| words.iter().map(move |(w, n)| (h, w, n)));
        pairs.filter(|(_, _, n)| **n > 0).map(|(h, w, _)| (h.clone(), w.clone())).collect()
    }

    /// Prints the counts, each under its heading, by the given way of printing
    /// a line. The words that were never reached are the answer.
    pub fn print(&self, line: fn(&str)) -> Vec<String> {
        let mut never = vec![];
        for (heading, words) in &self.0 {
            line(heading);
            for (word, count) in words {
                line(&format!("    {:<60} {:>10}", word, count));
                if *count == 0 {
                    never.push(format!("{}: {}", heading, word));
                }
            }
        }
        never
    }
}

pub fn kind_of(stop: Option<Stop>) -> &'static str {
    match stop {
        None => "none",
        Some(Stop::Ended(End::Plain)) => "return",
        Some(Stop::Ended(End::Value(_))) => "value",
        Some(Stop::Ended(End::Halt)) => "halt",
        Some(Stop::Ended(End::Error(_))) => "error",
        Some(Stop::Spent) => "spent",
        Some(Stop::NoUnit) => "waiting",
        Some(Stop::NoRoom) => "full",
        Some(Stop::StackFull) => "deep",
    }
}

/// The hosts' refusals and their boundaries, by the calls themselves.
fn hosts(c: &mut Counts, case: &Case, o: &cases::Outcome) {
    let admitted = match admit(&case.file, &o.judged) {
        Ok(admitted) => admitted,
        Err(_) => return,
    };
    let keys = crate::text::pairs(&case.keys);
    let mut label = Label::new(case.slots as usize);
    for unit in &keys {
        if let Err(r) = label.key(*unit) {
            c.one("refused by key", r.number());
        }
    }
    let mut cells = cases::filled(case.cells as usize);
    let mut run = start(&admitted, &mut cells);
    let (stop, _) = run.go(&mut label, FUEL);
    if stop == Stop::NoRoom {
        c.one("room left where the label was full", label.room());
    }
    if label.room() == 0 {
        let before = label.clone();
        if let Err(r) = label.put(1) {
            c.one("refused by put (label)", r.number());
        }
        if let Err(r) = echo(&mut label) {
            c.one("refused by echo", r.number());
        }
        assert_eq!((before.shown(), before.waiting()), (label.shown(), label.waiting()));
    }

    let mut cells = cases::filled(case.cells as usize);
    let mut memory = cases::filled_bytes(case.memory as usize);
    let mut recorder = Recorder::open(&mut memory, &case.keys);
    let (stop, _) = start(&admitted, &mut cells).go(&mut recorder, FUEL);
    if stop == Stop::NoRoom {
        c.one("room left where the recorder was full", recorder.room());
    }
    if recorder.room() == 0 {
        if let Err(r) = recorder.put(1) {
            c.one("refused by put (recorder)", r.number());
        }
    }
}

fn boundaries(c: &mut Counts, case: &Case, o: &cases::Outcome) {
    let h = "boundaries";
    let n = case.file.len();
    for size in [0, 12, 13, 14, 65_534, 65_535, 65_536] {
        c.when(h, &format!("file of {} bytes", size), n == size);
    }
    c.when(h, "file over 65,536 bytes", n > 65_536);
    c.when(h, "file of 65,535 bytes accepted", n == 65_535 && o.check.is_ok());
    c.when(h, "sheet longer than the file, check accepts", case.sheet as usize > n && o.check.is_ok());
    let code_refusal = matches!(&o.check, Err(r) if r.number() >= 13);
    c.when(h, "sheet longer than the file, check refuses by 13 to 17", case.sheet as usize > n && code_refusal);
    let short = matches!(&o.check, Err(r) if r.number() == 12);
    c.when(h, "only the sheet is short", short && (case.pending as usize) >= n);
    c.when(h, "only the pending memory is short", short && (case.sheet as usize) >= n);

    if let Ok(reader) = read(&case.file) {
        c.when(h, "255 methods", reader.methods() == 255);
        c.when(h, "255 constants", reader.constants() == 255);
        c.when(h, "255 messages", reader.messages() == 255);
        let ks = 0..reader.methods();
        let both = |k: usize| reader.parameters(k).unwrap() + reader.locals(k).unwrap();
        c.when(h, "255 variables", ks.clone().any(|k| both(k) == 255));
        c.when(h, "255 parameters", ks.clone().any(|k| reader.parameters(k) == Some(255)));
        c.when(h, "a name of 254 bytes", ks.clone().any(|k| reader.name(k).unwrap().bytes.len() == 254));
        c.when(h, "a message of 254 bytes", (0..reader.messages()).any(|i| reader.message(i).unwrap().bytes.len() == 254));
        c.when(h, "an empty message", (0..reader.messages()).any(|i| reader.message(i).unwrap().bytes.is_empty()));
    }
    if let Ok(pair) = &o.check {
        c.when(h, "peak 255", pair.peak == 255);
        c.when(h, "peak 0", pair.peak == 0);
        let reader = read(&case.file).unwrap();
        let mut jumps = vec![];
        let mut blank = false;
        for k in 0..reader.methods() {
            let code = reader.code(k).unwrap();
            let mut at = 0;
            while at < code.bytes.len() {
                let i = format::decode(&code.bytes[at..]).unwrap();
                if i.is_jump() {
                    jumps.push(i.number.unwrap());
                }
                blank |= o.sheet[code.place + at] == BLANK;
                at += i.length;
            }
        }
        c.when(h, "a place that is not reached", blank);
        c.when(h, "a jump by 32,767", jumps.contains(&32_767));
        c.when(h, "a jump by less than -32,760", jumps.iter().any(|j| *j < -32_760));
        c.when(h, "a jump to itself", jumps.contains(&0));
    }
    if o.admit.is_ok() && o.check.is_ok() {
        let reader = read(&case.file).unwrap();
        c.when(h, "admitted with another sheet than check's", o.sheet != o.judged);
        let higher = (0..reader.methods()).any(|k| o.judged[format::entry(k)] > o.sheet[format::entry(k)]);
        c.when(h, "admitted with a higher peak than check's", higher);
        let need = 3 + reader.locals(0).unwrap() + o.judged[13] as usize;
        c.when(h, "main's frame lacks one cell", need == case.cells as usize + 1);
        c.when(h, "main's frame has just its cells", need == case.cells as usize);
        c.when(h, "more than 65,535 cells", case.cells > 65_535);
    }
    if let Some(runs) = &o.runs {
        c.when(h, "units lost on the label", runs.label.lost > 0);
        c.when(h, "all keys kept, more than slots in slices", runs.slices.lost == 0 && runs.label.lost > 0);
        c.when(h, "a label shows 96 units", runs.label.units.len() == 96);
        c.when(h, "recorder memory below 3 bytes", case.memory < 3);
        c.when(h, "recorder memory over 65,537 bytes", case.memory > 65_537);
        c.when(h, "recorder wrote over 20,000 units", runs.record.written > 20_000);
        c.when(h, "ended before the last slice", {
            matches!(runs.slices.stop, Some(Stop::Ended(_))) && case.slices.len() > 1
        });
        c.when(h, "a slice of the largest fuel", case.slices.iter().any(|s| s.fuel == u32::MAX));
        let deep = runs.label.stop == Some(Stop::StackFull);
        c.when(h, "deep in one go with 65,535 cells", deep && case.cells >= 65_535);
        c.when(h, "deep in one go with 65,534 cells", deep && case.cells == 65_534);
        let negative = matches!(runs.label.stop, Some(Stop::Ended(End::Value(v))) if v > 32_767);
        c.when(h, "ended with a value below 0", negative);
    }
}

/// Nothing reached yet: what is to be reached, with 0.
pub fn nothing() -> Counts {
    let mut c = Counts::default();
    for n in 1..=17 {
        c.add("refused by check", format!("{:2}", n), 0);
    }
    for n in (1..=16).chain(18..=19) {
        c.add("refused by admit", format!("{:2}", n), 0);
    }
    for h in ["label", "record", "slices (last)"] {
        for s in ["return", "value", "halt", "error", "spent", "waiting", "full", "deep"] {
            c.add(&format!("stops, {}", h), s, 0);
        }
    }
    for (h, w) in [("refused by key", 20), ("refused by put (label)", 21), ("refused by put (recorder)", 21), ("refused by echo", 21)] {
        c.add(h, w, 0);
    }
    for room in 0..=5 {
        c.add("room left where the label was full", room, 0);
        c.add("room left where the recorder was full", room, 0);
    }
    c
}

/// What one case of a kind reaches. It is run beside the plain machine, and
/// the answer says where the two differ.
pub fn of(case: &Case, kind: usize) -> Result<(Counts, Seen), String> {
    let mut c = Counts::default();
    let mut bytes = vec![];
    case.store(&mut bytes);
    assert_eq!(cases::Case::load(&mut &bytes[..]).as_ref(), Some(case), "the stored form gives the case back");
    let o = outcome(case);
    c.one("kinds of cases", KINDS[kind]);
    match &o.check {
        Ok(_) => c.one("refused by check", "accepted"),
        Err(r) => c.one("refused by check", format!("{:2}", r.number())),
    }
    match &o.admit {
        Ok(_) => c.one("refused by admit", "accepted"),
        Err(r) => c.one("refused by admit", format!("{:2}", r.number())),
    }
    if let Some(runs) = &o.runs {
        c.one("stops, label", kind_of(runs.label.stop));
        c.one("stops, record", kind_of(Some(runs.record.stop)));
        c.one("stops, slices (last)", kind_of(runs.slices.stop));
    }
    boundaries(&mut c, case, &o);
    hosts(&mut c, case, &o);

    // beside the plain machine
    let mut seen = Seen { opcodes: vec![0; 256], ..Seen::default() };
    let one = [Slice { fuel: FUEL, keys: 65_535 }];
    for slices in [&one[..], &case.slices[..]] {
        agree(case, slices, &mut seen)?;
    }
    for (limit, word) in [(1, "1"), (2, "2 or more"), (10, "10 or more"), (100, "100 or more"), (1_000, "1000 or more")] {
        c.when("cases by the most frames at a time", word, seen.frames >= limit);
    }
    for row in INSTRUCTIONS {
        c.add("instructions done", row.1, seen.opcodes[row.0 as usize]);
    }
    for m in 0..3 {
        c.add("OUT in mode", m, seen.modes[m]);
    }
    Ok((c, seen))
}
