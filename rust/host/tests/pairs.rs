//! Settings written together: all the pairs or none, as document 02's R-9 says.

use host::assemble::{statement, Assembly, Function};
use host::{Machine, Refusal, PAIRS, SAVED_STORE};

/// Lent are 66 cells to a file of 64.
const LENT: usize = 66;

const BAD: Result<(), Refusal> = Err(Refusal::new(15));

/// A loaded machine, each cell of which has its own number.
fn machine() -> Machine {
    let program = Assembly {
        cells: (0..64).map(|cell| (cell, cell as u32)).collect(),
        statements: vec![statement("Done", 0, 0, 0)],
        functions: vec![
            Function::default(),
            Function {
                local: 30,
                locals: 1,
                ..Function::default()
            },
        ],
        ..Assembly::default()
    };
    let lent = vec![u32::MAX; LENT];
    let mut machine = Machine::new(program.bytes(), lent, vec![5; SAVED_STORE]);
    machine.load().unwrap();
    machine
}

/// The state and the buffers, all that an operation may change.
fn everything(machine: &Machine) -> (host::Context, Vec<u32>, Vec<u32>) {
    let (cells, saved) = (machine.cells().to_vec(), machine.saved().to_vec());
    (*machine.context(), cells, saved)
}

/// `n` pairs, of the addresses from 0 on, and again from 0 on after 63, and the values from 1000 on.
fn pairs(n: usize) -> Vec<(i64, u32)> {
    (0..n).map(|i| (i as i64 % 64, 1000 + i as u32)).collect()
}

#[track_caller]
fn refused(machine: &mut Machine, pairs: &[(i64, u32)]) {
    let before = everything(machine);
    assert_eq!(machine.write_all(pairs), BAD, "{pairs:?}");
    assert!(everything(machine) == before, "{pairs:?} changed something");
}

#[test]
fn up_to_64_pairs() {
    for n in 0..=PAIRS {
        let mut machine = machine();
        let (context, mut cells, saved) = everything(&machine);
        machine.write_all(&pairs(n)).unwrap();
        for (address, value) in pairs(n) {
            cells[address as usize] = value;
        }
        assert!(everything(&machine) == (context, cells, saved), "{n} pairs");
    }
}

#[test]
fn more_are_refused() {
    let mut machine = machine();
    for n in [65, 66, 128, 129, 1000, 100_000] {
        refused(&mut machine, &pairs(n));
    }
}

#[test]
fn an_unpaired_number_is_refused() {
    let mut machine = machine();
    let before = everything(&machine);
    let numbers: Vec<i64> = pairs(65)
        .iter()
        .flat_map(|&(address, value)| [address, value.into()])
        .collect();
    for length in (1..numbers.len()).step_by(2) {
        assert_eq!(machine.write_numbers(&numbers[..length]), BAD, "{length}");
    }
    assert_eq!(machine.write_numbers(&numbers), BAD);
    assert!(everything(&machine) == before);
    machine.write_numbers(&numbers[..128]).unwrap();
    assert_eq!(machine.cells()[63], 1063);
}

#[test]
fn a_bad_pair_is_refused_wherever_it_stands() {
    let mut machine = machine();
    for bad in [-1, 64, 65, 66, 32_768, 1 << 32, i64::MIN, i64::MAX] {
        for at in [0, 1, 31, 62, 63] {
            let mut list = pairs(PAIRS);
            list[at].0 = bad;
            refused(&mut machine, &list);
        }
        refused(&mut machine, &[(bad, 7)]);
        refused(&mut machine, &[(bad, 7), (30, 7)]);
        refused(&mut machine, &[(30, 7), (bad, 7), (31, 7)]);
        refused(&mut machine, &[(30, 7), (31, 7), (bad, 7)]);
    }
}

#[test]
fn a_value_is_of_32_bits() {
    let mut machine = machine();
    let before = everything(&machine);
    for value in [-1, 1 << 32, i64::MIN, i64::MAX] {
        for numbers in [[40, value, 41, 7], [41, 7, 40, value]] {
            assert_eq!(machine.write_numbers(&numbers), BAD, "{value}");
        }
    }
    assert!(everything(&machine) == before);
    machine.write_numbers(&[40, 0xffff_ffff, 41, 0]).unwrap();
    assert_eq!(machine.cells()[40..42], [u32::MAX, 0]);
}

#[test]
fn of_two_pairs_with_one_address_the_later_holds() {
    let mut machine = machine();
    machine.write_all(&[(30, 7), (30, 8)]).unwrap();
    assert_eq!(machine.cells()[30], 8);
    machine
        .write_all(&[(29, 1), (30, 9), (31, 2), (30, 7), (32, 3)])
        .unwrap();
    assert_eq!(machine.cells()[29..33], [1, 7, 2, 3]);
    let again: Vec<_> = (0..64).map(|value| (30, value)).collect();
    machine.write_all(&again).unwrap();
    assert_eq!(machine.cells()[30], 63);
}

#[test]
fn one_pair_is_the_raw_write() {
    let addresses = [i64::MIN, -1, 0, 1, 30, 63, 64, 65, 66, 1 << 32, i64::MAX];
    for address in addresses {
        for value in [0, 1, 0x7fc0_0000, u32::MAX] {
            let (mut one, mut other) = (machine(), machine());
            assert_eq!(
                one.write_all(&[(address, value)]),
                other.write(address, value)
            );
            assert!(everything(&one) == everything(&other), "{address} {value}");
        }
    }
}

#[test]
fn a_state_that_does_not_belong_is_refused_13_first() {
    let lists: [&[i64]; 5] = [&[], &[30, 7], &[64, 7], &[30], &[30; 130]];
    let mut short = machine();
    short.cells_mut().truncate(63);
    let mut unloaded = Machine::new(machine().program().to_vec(), vec![0; 64], vec![0; 2048]);
    let mut deep = machine();
    let mut context = *deep.context();
    context.depth = 32;
    deep.set_context(context);
    for machine in [&mut short, &mut unloaded, &mut deep] {
        let before = everything(machine);
        for numbers in lists {
            assert_eq!(machine.write_numbers(numbers), Err(Refusal::STATE));
        }
        assert!(everything(machine) == before);
    }
}

#[test]
fn in_a_function_locals_are_written_and_given_back() {
    let mut machine = machine();
    machine.enter(1).unwrap();
    machine.write_all(&[(30, 7), (31, 8)]).unwrap();
    refused(&mut machine, &[(30, 9), (31, 9), (64, 9)]);
    assert_eq!(machine.cells()[30..32], [7, 8]);
    machine.abandon(0).unwrap();
    assert_eq!(machine.cells()[30..32], [30, 8]);
}
