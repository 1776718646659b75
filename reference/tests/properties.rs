//! What the documents say holds, on made cases.

use reference::cases::{agree, filled, outcome, Seen, Slice, FUEL};
use reference::format::{decode, entry, read};
use reference::generator::{case, Rng};
use reference::hosts::Label;
use reference::machine::{start, Stop};
use reference::verify::{admit, check, BLANK};

const COUNT: usize = 3_000;

/// The run follows the plain machine, in one go, in the case's slices and
/// instruction by instruction.
#[test]
fn runs_follow_the_plain_machine() {
    let mut seen = Seen::default();
    for index in 0..COUNT {
        let (case, _) = case(11, index);
        let one = [Slice { fuel: FUEL, keys: 65_535 }];
        let mut single = vec![Slice { fuel: 1, keys: 1 }; 300];
        single.push(Slice { fuel: 7, keys: 300 });
        for slices in [&one[..], &case.slices[..], &single[..]] {
            if let Err(e) = agree(&case, slices, &mut seen) {
                panic!("case {}: {}", index, e);
            }
        }
    }
}

/// What a refusal of check leaves in the sheet, and what an acceptance does.
#[test]
fn sheets_after_check() {
    for index in 0..COUNT {
        let (case, _) = case(12, index);
        let o = outcome(&case);
        let n = case.file.len();
        let before = filled(case.sheet as usize);
        match &o.check {
            Err(r) if r.number() <= 12 => assert_eq!(o.sheet, before),
            Err(r) => {
                assert!((13..=17).contains(&r.number()));
                assert!(o.sheet[..n].iter().all(|e| *e == BLANK));
                assert_eq!(o.sheet[n..], before[n..]);
            }
            Ok(pair) => {
                assert_eq!(o.sheet[n..], before[n..]);
                // what check accepts, admit accepts
                assert!(admit(&case.file, &o.sheet).is_ok());
                // the sheet holds numbers at places and at peaks only
                let reader = read(&case.file).unwrap();
                let mut places = 0;
                let mut peaks = vec![];
                let mut rest = o.sheet[..n].to_vec();
                for k in 0..reader.methods() {
                    let code = reader.code(k).unwrap();
                    let mut at = 0;
                    let mut peak = 0;
                    while at < code.bytes.len() {
                        let e = rest[code.place + at];
                        if e != BLANK {
                            places += 1;
                            peak = peak.max(e);
                        }
                        rest[code.place + at] = BLANK;
                        at += decode(&code.bytes[at..]).unwrap().length;
                    }
                    assert_eq!(rest[entry(k)], peak);
                    rest[entry(k)] = BLANK;
                    peaks.push(peak);
                }
                assert!(rest.iter().all(|e| *e == BLANK));
                assert_eq!((pair.places, pair.peak), (places, *peaks.iter().max().unwrap() as usize));
                // what admit accepts gives every reached place check's number
                if o.admit.is_ok() {
                    for k in 0..reader.methods() {
                        let code = reader.code(k).unwrap();
                        let mut at = 0;
                        while at < code.bytes.len() {
                            let p = code.place + at;
                            assert!(o.sheet[p] == BLANK || o.judged[p] == o.sheet[p]);
                            at += decode(&code.bytes[at..]).unwrap().length;
                        }
                    }
                }
            }
        }
        // the calls agree on the rules that they share
        if let Err(r) = &o.check {
            if r.number() <= 16 && r.number() != 12 {
                assert_eq!(o.admit, Err(*r));
            }
        }
    }
}

/// No numbering by another way: every numbering of a short method with depths
/// from 0 to 3 or blank is tried.
#[test]
fn number_17_means_that_no_sheet_is_admitted() {
    let ops: [&[u8]; 9] =
        [&[0x10, 0, 0], &[0x57], &[0x59], &[0x60], &[0x99, 0, 3], &[0x99, 0, 4], &[0xA7, 0, 4], &[0xB1], &[0xFF]];
    let mut rng = Rng::new(3);
    let mut refused = 0;
    let mut accepted = 0;
    for _ in 0..3_000 {
        let mut code = vec![];
        let count = rng.range(1, 4);
        for _ in 0..count {
            code.extend(ops[rng.below(ops.len())]);
        }
        code.push(0xB1);
        let mut file = vec![0x65, 0x4A, 0x56, 0x4D, 0x10, 2];
        file.extend((28 + code.len() as u32).to_be_bytes());
        file.extend([1, 0, 0, 0, 0, 0, 23, 0, 0]);
        file.extend((23 + code.len() as u32).to_be_bytes());
        file.extend(&code);
        file.push(2);
        file.extend((code.len() as u16).to_be_bytes());
        file.extend([0, 0x6D, 0, 0x41]);
        let mut sheet = vec![0; file.len()];
        let answer = check(&file, &mut sheet, file.len());
        match &answer {
            Err(r) if r.number() != 17 => continue,
            _ => {}
        }
        let mut places = vec![];
        let mut at = 0;
        while at < code.len() {
            places.push(23 + at);
            at += decode(&code[at..]).unwrap().length;
        }
        let mut any = false;
        for pick in 0..6usize.pow(places.len() as u32) {
            let mut judged = vec![BLANK; file.len()];
            let mut rest = pick;
            let mut peak = 0;
            for p in &places {
                let d = (rest % 6) as u16;
                rest /= 6;
                if d < 5 {
                    judged[*p] = d;
                    peak = peak.max(d);
                }
            }
            judged[13] = peak;
            any |= admit(&file, &judged).is_ok();
        }
        assert_eq!(any, answer.is_ok());
        refused += answer.is_err() as usize;
        accepted += answer.is_ok() as usize;
    }
    assert!(refused > 100 && accepted > 100);
}

/// Two goes of fuel p and q leave what one of p + q does.
#[test]
fn goes_add_up() {
    let mut rng = Rng::new(4);
    for index in 0..COUNT {
        let (case, _) = case(13, index);
        let o = outcome(&case);
        if o.admit.is_err() {
            continue;
        }
        let admitted = admit(&case.file, &o.judged).unwrap();
        let keys = reference::text::pairs(&case.keys);
        let p = rng.below(400) as u32;
        let q = rng.below(400) as u32;
        let mut answers = vec![];
        for fuels in [vec![p, q], vec![p + q]] {
            let mut cells = filled(case.cells as usize);
            let mut label = Label::new(case.slots as usize);
            for unit in &keys {
                let _ = label.key(*unit);
            }
            let mut run = start(&admitted, &mut cells);
            let mut sum = 0;
            let mut stop = Stop::Spent;
            for fuel in fuels {
                let (s, count) = run.go(&mut label, fuel);
                stop = s;
                sum += count;
            }
            answers.push((run.state(), label.shown().to_vec(), label.waiting(), sum, stop));
        }
        if q == 0 {
            answers[0].4 = answers[1].4;
        }
        assert_eq!(answers[0], answers[1], "case {}", index);
    }
}
