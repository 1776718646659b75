//! The worked examples of the documents.

use reference::format::read;
use reference::hosts::{Host, Label};
use reference::machine::{start, End, Stop};
use reference::text;
use reference::verify::{admit, check, Pair};

/// The whole file of 39 bytes.
fn example() -> Vec<u8> {
    vec![
        0x65, 0x4A, 0x56, 0x4D, 0x10, 0x02, 0, 0, 0, 0x25, 1, 0, 0, 0, 0, 0, 0x17, 0, 0, 0, 0, 0, 0x1A, 0xF0, 0xF1,
        0xB1, 8, 0, 3, 0, 0x6D, 0, 0x61, 0, 0x69, 0, 0x6E, 0, 0x41,
    ]
}

#[test]
fn the_file_is_accepted_and_numbered() {
    let file = example();
    assert!(read(&file).is_ok());
    let mut sheet = vec![5; 45];
    assert_eq!(check(&file, &mut sheet, 39), Ok(Pair { places: 3, peak: 1 }));
    for j in 0..45 {
        let expected = match j {
            13 => 1,
            23 => 0,
            24 => 1,
            25 => 0,
            39.. => 5,
            _ => 65_535,
        };
        assert_eq!(sheet[j], expected, "entry {}", j);
    }
    assert!(admit(&file, &sheet).is_ok());
}

#[test]
fn it_runs_on_4_cells_and_never_begins_on_3() {
    let file = example();
    let mut sheet = vec![0; 39];
    check(&file, &mut sheet, 39).unwrap();
    let admitted = admit(&file, &sheet).unwrap();

    let mut cells = [9; 4];
    let mut label = Label::new(4);
    let mut run = start(&admitted, &mut cells);
    assert_eq!(run.cells()[..3], [0, 65_535, 65_535]);
    assert_eq!(run.go(&mut label, 10), (Stop::NoUnit, 0));
    label.key(0x41).unwrap();
    assert_eq!(run.go(&mut label, 0), (Stop::Spent, 0));
    assert_eq!(run.go(&mut label, 1), (Stop::Spent, 1));
    assert_eq!((run.top(), run.cells()), (4, &[0, 65_535, 65_535, 0x41][..]));
    assert_eq!(run.go(&mut label, 2), (Stop::Ended(End::Plain), 2));
    assert_eq!(run.go(&mut label, 0), (Stop::Ended(End::Plain), 0));
    assert_eq!(run.go(&mut label, 10), (Stop::Ended(End::Plain), 0));
    assert_eq!(label.shown(), [0x41]);

    let mut cells = [9; 3];
    let mut label = Label::new(4);
    label.key(0x41).unwrap();
    let mut run = start(&admitted, &mut cells);
    assert!(run.state().is_none());
    assert_eq!(run.go(&mut label, 0), (Stop::Spent, 0));
    assert_eq!(run.go(&mut label, 1), (Stop::StackFull, 0));
    assert_eq!(run.cells(), [9, 9, 9]);
    assert_eq!((label.waiting(), label.room()), (vec![0x41], 96));
}

#[test]
fn what_ejvm_prints() {
    assert_eq!(text::ejvm(&example(), &[0, 0x41]), "ejvm 1\nstop return\ncount 3\nunits 0041\n");
    assert_eq!(text::ejvm(&example(), &[]), "ejvm 1\nstop waiting\ncount 0\nunits\n");
    assert_eq!(text::ejvm(&[], &[0, 0x41]), "ejvm 1\nrefused 2 0\n");
    assert_eq!(text::ejvm(&vec![0; 8_193], &[]), "large\n");
    assert_eq!(text::ejvm(&vec![0; 8_192], &[]), "ejvm 1\nrefused 3 0\n");
}

#[test]
fn what_record_prints() {
    let printed = text::record(&example(), &[0, 0x41]);
    let expected = format!("ejvm 1\nstop return\ncount 3\nmemory 01 00 02 00 41{}\n", " 00".repeat(190));
    assert_eq!(printed, expected);
    assert_eq!(text::record(&[], &[]), "ejvm 1\nrefused 2 0\n");
    assert_eq!(text::record(&vec![0; 8_193], &[]), "large\n");
}

#[test]
fn what_list_prints() {
    let expected = "program A\n\
                    method 0 main parameters 0 locals 0 code 23 size 3 peak 1\n\
                    place 23 number 0 IN\n\
                    place 24 number 1 OUT\n\
                    place 25 number 0 RETURN\n";
    assert_eq!(text::listing(&example()), expected);
    let refused = text::listing(&[]);
    assert!(refused.starts_with("refused 2 0\n"));
    assert_eq!(refused.lines().count(), 2);
}

/// The jumps alone of the cost table: 21,666 jumps to the next instruction and
/// a RETURN; and straight code of 64,998 NOP and a RETURN.
#[test]
fn the_two_long_files() {
    for code in [
        [0xA7, 0, 3].repeat(21_666).into_iter().chain([0xB1]).collect::<Vec<u8>>(),
        [0].repeat(64_998).into_iter().chain([0xB1]).collect::<Vec<u8>>(),
    ] {
        let mut file = vec![0x65, 0x4A, 0x56, 0x4D, 0x10, 2];
        file.extend((23 + code.len() as u32 + 5).to_be_bytes());
        file.extend([1, 0, 0, 0, 0, 0, 23, 0, 0]);
        file.extend((23 + code.len() as u32).to_be_bytes());
        file.extend(&code);
        file.push(2);
        file.extend((code.len() as u16).to_be_bytes());
        file.extend([0, 0x6D, 0, 0x41]);
        assert!(file.len() <= 65_032);
        let mut sheet = vec![0; file.len()];
        let pair = check(&file, &mut sheet, file.len()).unwrap();
        assert_eq!(pair.peak, 0);
        assert!(pair.places == 21_667 || pair.places == 64_999);
        admit(&file, &sheet).unwrap();
    }
}

/// A listing with every kind of line.
#[test]
fn a_listing_with_every_kind_of_line() {
    use reference::generator::{assemble, Method, Program};
    let text = |s: &str| s.encode_utf16().flat_map(|u| u.to_be_bytes()).collect::<Vec<u8>>();
    let program = Program {
        name: text("a b\\"),
        methods: vec![
            Method {
                parameters: 0,
                locals: 1,
                name: text("main"),
                // BIPUSH -2, INVOKEVIRTUAL 1, IFLT +5, ERR 1, IINC 0 -300, RETURN, GOTO -1
                code: vec![0x10, 0xFF, 0xFE, 0xB6, 1, 0x9B, 0, 5, 0xF2, 1, 0x84, 0, 0xFE, 0xD4, 0xB1, 0xA7, 0xFF, 0xFF],
            },
            Method { parameters: 1, locals: 2, name: text("é"), code: vec![0x12, 1, 0xFA, 2, 0xAC] },
        ],
        constants: vec![0x7FFF, 0x8000],
        messages: vec![vec![], text("no\n~")],
    };
    let expected = "program a b\\u005C\n\
                    method 0 main parameters 0 locals 1 code 37 size 18 peak 1\n\
                    place 37 number 0 BIPUSH -2\n\
                    place 40 number 1 INVOKEVIRTUAL 1\n\
                    place 42 number 1 IFLT 5\n\
                    place 45 number 0 ERR 1\n\
                    place 47 number 0 IINC 0 -300\n\
                    place 51 number 0 RETURN\n\
                    place 52 blank GOTO -1\n\
                    method 1 \\u00E9 parameters 1 locals 2 code 55 size 5 peak 1\n\
                    place 55 number 0 LDC 1\n\
                    place 57 number 1 SETOUT 2\n\
                    place 59 number 1 IRETURN\n\
                    constant 0 32767\n\
                    constant 1 -32768\n\
                    message 0 \n\
                    message 1 no\\u000A~\n";
    assert_eq!(text::listing(&assemble(&program).0), expected);
}
