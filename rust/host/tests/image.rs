//! Program files written in their one form (02, R-6): loaded from wherever their parts lie, written, loaded again and compared by
//! contents, and written again.

mod common;

use std::fs;
use std::path::Path;

use common::{random_assembly, Chance};
use host::assemble::{statement, Assembly};
use host::{
    Definition, Function, Handover, LoadError, Machine, Refusal, RunOutcome, CELLS, IMAGE,
    SAVED_STORE,
};

/// The bytes of a record of each part, in the header's order.
const SIZES: [usize; 6] = [8, 8, 8, 36, 1, 4];
const FIELDS: usize = 2;
const FUNCTIONS: usize = 3;
const STRINGS: usize = 4;
const STARTING_CELLS: usize = 5;
const HEADER: usize = 60;

/// What stands in an output buffer before.
const FILL: u8 = 238;

const TOO_SHORT: Refusal = Refusal::new(34);

fn lent(program: Vec<u8>) -> Machine {
    Machine::new(program, vec![0; CELLS], vec![0; SAVED_STORE])
}

fn loaded(program: Vec<u8>) -> Machine {
    let mut machine = lent(program);
    machine.load().unwrap();
    machine
}

fn number(bytes: &[u8], at: usize) -> usize {
    u32::from_le_bytes(bytes[at..at + 4].try_into().unwrap()) as usize
}

fn set_number(bytes: &mut [u8], at: usize, number: usize) {
    bytes[at..at + 4].copy_from_slice(&(number as u32).to_le_bytes());
}

/// Where the header has a part's offset; its count stands behind it.
fn in_header(part: usize) -> usize {
    8 + 8 * part
}

fn set_part(file: &mut [u8], part: usize, offset: usize, count: usize) {
    set_number(file, in_header(part), offset);
    set_number(file, in_header(part) + 4, count);
}

fn part_bytes(file: &[u8], part: usize) -> &[u8] {
    let place = in_header(part);
    let (offset, count) = (number(file, place), number(file, place + 4));
    match count {
        // which may lie past the end
        0 => &[],
        _ => &file[offset..offset + SIZES[part] * count],
    }
}

/// The one form of a file, by the words of R-6.
fn in_form(file: &[u8]) -> Vec<u8> {
    let mut written = file[..HEADER].to_vec();
    for (part, size) in SIZES.into_iter().enumerate() {
        let mut bytes = part_bytes(file, part).to_vec();
        let (offset, count) = (written.len(), bytes.len() / size);
        set_part(&mut written, part, offset, count);
        if part == FUNCTIONS {
            for function in bytes.chunks_mut(size) {
                set_number(function, 12, 0);
            }
        }
        written.extend(bytes);
    }
    written
}

/// What a file says, by the crate's readers, and the cells that its load gives.
#[derive(Debug, PartialEq)]
struct Contents {
    statements: Vec<[i16; 4]>,
    definitions: Vec<Definition>,
    fields: Vec<Definition>,
    functions: Vec<Function>,
    strings: Vec<u8>,
    cells: Vec<u32>,
    entity_cells: usize,
}

/// Text after text, and the zero byte that ends each but the last, which may have none.
fn strings(machine: &Machine) -> Vec<u8> {
    let mut strings = Vec::new();
    while let Some(text) = machine.text(strings.len() as i64) {
        strings.extend(text);
        if strings.len() < machine.context().file.strings.count {
            strings.push(0);
        }
    }
    strings
}

fn contents(program: &[u8]) -> Contents {
    let machine = loaded(program.to_vec());
    let (records, file) = (machine.records(), machine.context().file);
    let found = Contents {
        statements: (0..).map_while(|at| records.statement(at)).collect(),
        definitions: (0..).map_while(|at| records.definition(at)).collect(),
        fields: (0..).map_while(|at| records.field(at)).collect(),
        functions: (0..).map_while(|at| records.function(at)).collect(),
        strings: strings(&machine),
        cells: machine.cells()[..file.globals.count].to_vec(),
        entity_cells: machine.entity_cells(),
    };
    // The readers have given every record that the header names.
    assert_eq!(found.statements.len(), file.statements.count);
    assert_eq!(found.definitions.len(), file.globaldefs.count);
    assert_eq!(found.fields.len(), file.fielddefs.count);
    assert_eq!(found.functions.len(), file.functions.count);
    assert_eq!(found.strings.len(), file.strings.count);
    found
}

/// Writes a file that a load accepts, in a buffer that is longer than it needs and in one that isn't; looks at the rest, and
/// gives what was written.
fn written(program: &[u8]) -> Vec<u8> {
    let machine = loaded(program.to_vec());
    let image = machine.image().unwrap();
    assert_eq!(image, in_form(program));
    for more in [0, 1, 100] {
        let mut output = vec![FILL; image.len() + more];
        assert_eq!(machine.write_image(&mut output), Ok(image.len()));
        assert_eq!(output[..image.len()], image);
        assert_eq!(output[image.len()..], vec![FILL; more]);
    }
    assert_eq!(contents(&image), contents(program));
    assert_eq!(loaded(image.clone()).image().unwrap(), image);
    image
}

/// A file of everything: statements, definitions of both kinds, functions with names and sizes, texts, cells.
fn whole() -> Assembly {
    let mut file = Assembly::default();
    let (name, source) = (file.text("StartFrame"), file.text("rules.qc"));
    file.strings.extend(b"no zero after this");
    let mut function = Function {
        first: 1,
        local: 40,
        locals: 2,
        name,
        source,
        arguments: 1,
        sizes: [1, 2, 3, 4, 5, 6, 7, 8],
    };
    file.functions = vec![Function::default(), function];
    (function.first, function.arguments) = (-7, -1);
    file.functions.push(function);
    file.statements = vec![
        statement("Done", 0, 0, 0),
        statement("AddF", 28, 29, 30),
        statement("Goto", -1, 0, 0),
    ];
    file.definitions = vec![(0x8002, 40, name), (3, 41, source), (0, 41, 0)];
    file.fields = vec![(4, 3, source), (7, 104, 0)];
    file.cells = vec![(0, 1), (28, 0x3fc0_0000), (63, 0xffff_fffe)];
    file.entity_cells = 117;
    file
}

/// The parts of a file in another order, with gaps before, between and after them, and profile numbers. What no part has are
/// chance bytes.
fn scattered(chance: &mut Chance, program: &[u8]) -> Vec<u8> {
    let mut file = program[..HEADER].to_vec();
    let mut parts: Vec<usize> = (0..SIZES.len()).collect();
    while !parts.is_empty() {
        let part = parts.remove(chance.below(parts.len() as u64) as usize);
        for _ in 0..chance.below(9) {
            file.push(chance.draw() as u8);
        }
        let mut bytes = part_bytes(program, part).to_vec();
        if part == FUNCTIONS {
            for function in bytes.chunks_mut(SIZES[part]) {
                set_number(function, 12, chance.draw() as usize);
            }
        }
        let (offset, count) = (file.len(), bytes.len() / SIZES[part]);
        set_part(&mut file, part, offset, count);
        file.extend(bytes);
    }
    for _ in 0..chance.below(9) {
        file.push(chance.draw() as u8);
    }
    file
}

#[test]
fn a_file_in_form_is_written_as_it_is() {
    let program = whole().bytes();
    assert_eq!(written(&program), program);
    let nothing = Assembly::default().bytes();
    assert_eq!(written(&nothing), nothing);
}

/// Byte for byte, by hand: a file with a gap and one function, its strings before that.
#[test]
fn by_hand() {
    let header = |functions: [u32; 2], strings: u32, cells: [u32; 2]| {
        [
            [6, 5927],
            [60, 0],
            [60, 0],
            [60, 0],
            functions,
            [strings, 1],
            cells,
        ]
        .concat()
    };
    let bytes = |numbers: &[u32]| -> Vec<u8> {
        numbers
            .iter()
            .flat_map(|number| number.to_le_bytes())
            .collect()
    };
    let mut numbers = header([64, 1], 63, [100, 64]);
    numbers.push(105);
    let function = [3, 28, 1, 99, 0, 0, 1, 0x0403_0201, 0x0807_0605];
    let cells: Vec<u32> = (1000..1064).collect();
    let program = [
        bytes(&numbers),
        b"gap\0".to_vec(),
        bytes(&function),
        bytes(&cells),
    ]
    .concat();
    let mut wanted = header([60, 1], 96, [97, 64]);
    wanted.push(105);
    let mut function = function;
    function[3] = 0;
    let wanted = [bytes(&wanted), bytes(&function), vec![0], bytes(&cells)].concat();
    assert_eq!(wanted.len(), 60 + 36 + 1 + 256);
    assert_eq!(written(&program), wanted);
}

/// One file for many: any order, gaps, profile numbers.
#[test]
fn files_that_say_the_same_are_written_alike() {
    let mut chance = Chance::new(6);
    let program = whole().bytes();
    for _ in 0..100 {
        let other = scattered(&mut chance, &program);
        assert_ne!(other, program);
        assert_eq!(written(&other), program);
    }
}

#[test]
fn files_made_by_chance() {
    let mut chance = Chance::new(66);
    for _ in 0..200 {
        let program = random_assembly(&mut chance).bytes();
        let other = scattered(&mut chance, &program);
        assert_eq!(written(&other), program);
    }
}

/// The strings and the cells lie over other parts, the header and each other, by chance; the names are all text 0.
#[test]
fn parts_over_each_other() {
    let mut chance = Chance::new(666);
    let mut longer = 0;
    for _ in 0..200 {
        let program = random_assembly(&mut chance).bytes();
        let mut file = scattered(&mut chance, &program);
        file.resize(file.len().max(400), 7);
        let strings = chance.below(file.len() as u64) as usize;
        let length = 1 + chance.below((file.len() - strings) as u64) as usize;
        let cells = chance.below((file.len() - 4 * 64) as u64) as usize;
        let most = (file.len() - cells) / 4;
        set_part(&mut file, STRINGS, strings, length);
        set_part(
            &mut file,
            STARTING_CELLS,
            cells,
            64 + chance.below((most - 63) as u64) as usize,
        );
        longer += usize::from(written(&file).len() > file.len());
    }
    assert!(longer > 100, "{longer}");
}

/// Every part begins in the header, so that the version is an opcode, a type and a first statement. 5927 is the name of a
/// definition, and so the strings are longer.
#[test]
fn parts_in_the_header() {
    let mut file = Assembly {
        strings: vec![b'x'; 6000],
        ..Assembly::default()
    }
    .bytes();
    let length = file.len();
    for (part, count) in [2, 1, 1, 1, length, 64].into_iter().enumerate() {
        set_part(&mut file, part, 0, count);
    }
    let image = written(&file);
    assert_eq!(image.len(), HEADER + 16 + 8 + 8 + 36 + length + 4 * 64);
    let found = contents(&image);
    assert_eq!(found.statements, [[6, 0, 5927, 0], [0, 0, 2, 0]]);
    assert_eq!(
        (found.definitions[0].kind, found.definitions[0].name),
        (6, 5927)
    );
    assert_eq!(
        (found.functions[0].first, found.functions[0].local),
        (6, 5927)
    );
    // The cells and the strings are the header as it was, not the one that was written.
    assert_eq!(found.strings, file);
    assert_eq!(found.cells[2], 0);
    assert_eq!(found.cells[7], 1);
}

/// Two kinds of definitions, one behind the other's first, and functions within the cells.
#[test]
fn parts_that_share_records() {
    let mut program = whole();
    program.definitions = vec![(2, 40, 0), (3, 41, 1), (4, 42, 2)];
    let mut file = program.bytes();
    let definitions = number(&file, in_header(1));
    set_part(&mut file, FIELDS, definitions + 8, 2);
    let cells = number(&file, in_header(STARTING_CELLS));
    set_part(&mut file, FUNCTIONS, cells + 4, 3);
    program.fields = program.definitions[1..].to_vec();
    let image = written(&file);
    assert_eq!(contents(&image).fields, contents(&program.bytes()).fields);
    assert_eq!(part_bytes(&image, FUNCTIONS).len(), 108);
}

/// Parts without records, at any offset that isn't negative, past the end of the file too, are written at the running one.
#[test]
fn empty_parts_far_away() {
    let mut program = Assembly {
        strings: Vec::new(),
        ..Assembly::default()
    }
    .bytes();
    let mut file = program.clone();
    file.resize(1000, 255);
    for offset in [0, 3, 60, 999, 1000, 1001, 1 << 20, i32::MAX as usize] {
        for part in 0..=STRINGS {
            set_part(&mut file, part, offset, 0);
        }
        assert_eq!(written(&file), program);
    }
    // Cells per entity stand behind the parts' numbers.
    for bytes in [&mut file, &mut program] {
        set_number(bytes, HEADER - 4, i32::MAX as usize);
    }
    assert_eq!(written(&file), program);
    set_part(&mut file, STRINGS, 1 << 31, 0);
    let refused = LoadError::Refused(Refusal::new(4));
    assert_eq!(lent(file).load(), Err(refused));
}

fn rule_files() -> Vec<(String, Vec<u8>)> {
    let folder = Path::new(env!("CARGO_MANIFEST_DIR")).join("../../tests/rules");
    let paths = fs::read_dir(folder)
        .unwrap()
        .map(|entry| entry.unwrap().path());
    let files = paths.filter(|path| path.extension().is_some_and(|word| word == "dat"));
    files
        .map(|path| (path.display().to_string(), fs::read(path).unwrap()))
        .collect()
}

#[test]
fn compiled_rule_files() {
    let mut chance = Chance::new(11);
    let files = rule_files();
    assert!(files.len() >= 11);
    for (name, program) in files {
        let image = written(&program);
        assert_eq!(written(&scattered(&mut chance, &program)), image, "{name}");
    }
}

/// In a function, its locals saved, cells written by the rules and by the host; and at a statement that is handed over.
#[test]
fn in_the_middle_of_a_run() {
    let files = rule_files();
    let (_, program) = files
        .iter()
        .find(|(name, _)| name.ends_with("toss.dat"))
        .unwrap();
    let mut machine = loaded(program.clone());
    let image = machine.image().unwrap();
    let toss = machine.find_function_by_name("toss").unwrap();
    machine.enter(toss).unwrap();
    let run = machine.run(0, 99_999);
    assert!(matches!(
        run.outcome,
        RunOutcome::HandedOver(Handover::Builtin(_))
    ));
    for cell in 1..machine.context().file.globals.count as i64 {
        machine.write(cell, 0xdead_beef).unwrap();
    }
    assert_eq!(machine.depth(), 1);
    let before = machine.clone();
    assert_eq!(machine.image().unwrap(), image);
    assert_eq!(machine.context(), before.context());
    assert_eq!(machine.cells(), before.cells());
    assert_eq!(machine.saved(), before.saved());
    assert_eq!(machine.program(), before.program());
    // A load takes the file's own cells again.
    machine.load().unwrap();
    assert_ne!(machine.cells(), before.cells());
    assert_eq!(machine.image().unwrap(), image);
}

/// Every length below the file's: refused, and nothing of the header or of a part is there.
#[test]
fn a_buffer_that_is_too_short() {
    let program = whole().bytes();
    let machine = loaded(scattered(&mut Chance::new(3), &program));
    for length in 0..program.len() {
        let mut output = vec![FILL; length];
        assert_eq!(machine.write_image(&mut output), Err(TOO_SHORT));
        assert_eq!(output, vec![FILL; length]);
    }
    let mut output = vec![FILL; program.len()];
    assert_eq!(machine.write_image(&mut output), Ok(program.len()));
    assert_eq!(output, program);
}

/// Five parts over the same zero bytes, with so many strings.
fn over_zeros(strings: usize) -> Vec<u8> {
    let mut file = Assembly {
        strings: vec![0; 300_000],
        ..Assembly::default()
    }
    .bytes();
    let counts = [25_000, 25_000, 25_000, 5_000, strings, 64];
    for (part, count) in counts.into_iter().enumerate() {
        set_part(&mut file, part, HEADER, count);
    }
    file
}

/// 60 bytes, three times 8 by 25,000, 36 by 5,000, 4 by 64, and the strings.
#[test]
fn the_longest_file() {
    let strings = IMAGE - 60 - 600_000 - 180_000 - 256;
    assert_eq!(written(&over_zeros(strings)).len(), IMAGE);
    let machine = loaded(over_zeros(strings + 1));
    assert_eq!(machine.image(), Err(TOO_SHORT));
    let mut output = vec![FILL; 2 * IMAGE];
    assert_eq!(machine.write_image(&mut output), Err(TOO_SHORT));
    assert_eq!(output, vec![FILL; 2 * IMAGE]);
}

/// What is lent doesn't belong together: 13, whatever the output buffer.
#[test]
fn states_that_are_refused() {
    let program = whole().bytes();
    let refuses = |machine: &Machine| {
        assert_eq!(machine.image(), Err(Refusal::STATE));
        for length in [0, 59, program.len(), 1000] {
            let mut output = vec![FILL; length];
            assert_eq!(machine.write_image(&mut output), Err(Refusal::STATE));
            assert_eq!(output, vec![FILL; length]);
        }
    };
    refuses(&lent(program.clone()));
    let sound = loaded(program.clone());
    let mut machine = sound.clone();
    machine.cells_mut().truncate(63);
    refuses(&machine);
    let mut machine = sound.clone();
    machine.saved_mut().truncate(SAVED_STORE - 1);
    refuses(&machine);
    let mut machine = sound.clone();
    machine.program_mut().push(0);
    refuses(&machine);
    let mut machine = sound.clone();
    machine.program_mut()[12] ^= 1;
    refuses(&machine);
    let mut context = *sound.context();
    context.depth = 32;
    let mut machine = sound;
    machine.set_context(context);
    refuses(&machine);
}

/// Bytes that changed since the load, in a part and not in the header, are written as they are.
#[test]
fn bytes_that_changed_after_the_load() {
    let program = whole().bytes();
    let mut machine = loaded(program.clone());
    let last = program.len() - 1;
    machine.program_mut()[last] ^= 1;
    let image = machine.image().unwrap();
    assert_eq!(image, machine.program());
    assert_ne!(image, program);
}
