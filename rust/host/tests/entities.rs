//! Entity cells by hand: what a load takes, what statements read and write, and a host's own access to fields.

use host::assemble::{statement, Assembly, Function};
use host::{
    Cause, FieldError, Handover, Machine, Outcome, Program, Refusal, RunOutcome, Settings, CELLS,
    ENTITIES, SAVED_STORE,
};

const PER_ENTITY: usize = 105;

const STRING: u16 = 1;
const FLOAT: u16 = 2;
const VECTOR: u16 = 3;
const ENTITY: u16 = 4;
const FIELD: u16 = 5;
const FUNCTION: u16 = 6;

/// Cells of the program: an entity's number, two field places, a pointer, values.
const SELF: i16 = 40;
const FRAGS: i16 = 41;
const ORIGIN: i16 = 42;
const POINTER: i16 = 43;
const ONE: i16 = 44;
const VALUE: i16 = 45;

/// The place of `frags` in an entity; `origin` takes the last three cells.
const FRAGS_PLACE: usize = 50;
const ORIGIN_PLACE: usize = PER_ENTITY - 3;

/// The field definitions: type, place and name.
const FIELDS: [(u16, usize, &str); 9] = [
    (FLOAT, FRAGS_PLACE, "frags"),
    (VECTOR, ORIGIN_PLACE, "origin"),
    (STRING, 51, "netname"),
    (ENTITY, 52, "enemy"),
    (FUNCTION, 53, "think"),
    (FIELD, 54, "best"),
    (FLOAT, PER_ENTITY, "past_the_end"),
    (VECTOR, PER_ENTITY - 2, "half_outside"),
    (0, 55, "nothing"),
];

fn functions() -> Vec<Function> {
    let from = |first| Function {
        first,
        ..Function::default()
    };
    let counts = Function {
        local: VALUE.into(),
        locals: 1,
        ..from(1)
    };
    let builtin = Function {
        arguments: -1,
        ..from(-7)
    };
    vec![from(0), counts, from(6), builtin]
}

/// Function 1: `self.frags = self.frags + 1`, and the new value is returned. Function 2 asks the host, builtin 7.
fn program() -> Assembly {
    let mut program = Assembly {
        statements: vec![
            statement("Done", 0, 0, 0),
            statement("LoadF", SELF, FRAGS, VALUE),
            statement("AddF", VALUE, ONE, VALUE),
            statement("Address", SELF, FRAGS, POINTER),
            statement("StorePF", VALUE, POINTER, 0),
            statement("Return", VALUE, 0, 0),
            statement("Call0", 46, 0, 0),
            statement("LoadV", SELF, ORIGIN, 50),
            statement("Return", 50, 0, 0),
        ],
        functions: functions(),
        cells: vec![
            (SELF as usize, 1),
            (FRAGS as usize, FRAGS_PLACE as u32),
            (ORIGIN as usize, ORIGIN_PLACE as u32),
            (ONE as usize, 1.0_f32.to_bits()),
            (46, 3),
        ],
        ..Assembly::default()
    };
    for (kind, place, name) in FIELDS {
        let name = program.text(name);
        program.fields.push((kind, place as u16, name));
    }
    program.text("red flag");
    program
}

/// Entity cells, each with a number of its own, and some past the last entity.
fn numbered(entities: usize) -> Vec<u32> {
    (0..(entities * PER_ENTITY + 3) as u32)
        .map(|i| 0x4000_0000 + i)
        .collect()
}

/// A machine that isn't loaded, with entity cells for so many entities and three more.
fn lent(entities: usize) -> Machine {
    Machine::with_entities(
        program().bytes(),
        vec![0; CELLS],
        vec![0; SAVED_STORE],
        numbered(entities),
    )
}

fn load(machine: &mut Machine, entities: i64) -> Result<(), u32> {
    let loaded = machine.load_with(Settings {
        entities,
        ..Settings::default()
    });
    loaded.map_err(|error| error.refusal().unwrap().number())
}

fn loaded(entities: usize) -> Machine {
    let mut machine = lent(entities);
    load(&mut machine, entities as i64).unwrap();
    machine
}

fn no_host(handover: Handover, _: &mut host::Caller<'_>) -> Result<(), Handover> {
    Err(handover)
}

#[test]
fn a_load_takes_the_number_of_entities() {
    let mut machine = lent(3);
    assert_eq!((machine.entity_count(), machine.entity_cells()), (0, 0));
    for entities in [0, 1, 3] {
        assert_eq!(load(&mut machine, entities), Ok(()));
        assert_eq!(machine.entity_count(), entities as usize);
        assert_eq!(machine.context().entity_count, entities as usize);
        assert_eq!(machine.entity_cells(), PER_ENTITY);
        assert_eq!(machine.entities(), numbered(3));
    }
    assert_eq!(Program::new(machine.program()).entity_cells(), PER_ENTITY);
    machine.load().unwrap();
    assert_eq!(machine.entity_count(), 0);
    assert_eq!(Settings::default().entities, 0);
}

/// More than are lent, more than 600, or a negative number: 13, and what was loaded before stands.
#[test]
fn a_load_refuses_entities() {
    let mut machine = loaded(3);
    let before = machine.clone();
    for entities in [4, 601, -1, i64::MIN, i64::MAX, 1 << 32, 1 << 62] {
        assert_eq!(load(&mut machine, entities), Err(13), "{entities}");
        assert_eq!(machine.context(), before.context());
        assert_eq!(machine.cells(), before.cells());
        assert_eq!(machine.entities(), before.entities());
    }
    let mut machine = lent(ENTITIES + 1);
    assert_eq!(load(&mut machine, ENTITIES as i64), Ok(()));
    assert_eq!(load(&mut machine, ENTITIES as i64 + 1), Err(13));
    // one cell short
    machine.entities_mut().truncate(ENTITIES * PER_ENTITY - 1);
    assert_eq!(load(&mut machine, ENTITIES as i64), Err(13));
    assert_eq!(load(&mut machine, ENTITIES as i64 - 1), Ok(()));
    // 12 comes first
    machine.saved_mut().clear();
    assert_eq!(load(&mut machine, -1), Err(12));
}

/// A file may have more cells per entity, and then its entities need more.
#[test]
fn more_cells_per_entity() {
    let program = Assembly {
        entity_cells: 1_000,
        ..program()
    };
    let entities = vec![0; 2_999];
    let mut machine = Machine::with_entities(
        program.bytes(),
        vec![0; CELLS],
        vec![0; SAVED_STORE],
        entities,
    );
    assert_eq!(load(&mut machine, 3), Err(13));
    assert_eq!(load(&mut machine, 2), Ok(()));
    assert_eq!(machine.entity_cells(), 1_000);
    machine
        .field_mut(1, "past_the_end")
        .unwrap()
        .set_float(2.0)
        .unwrap();
    assert_eq!(machine.entities()[1_000 + PER_ENTITY], 2.0_f32.to_bits());
}

#[test]
fn a_run_writes_the_field_and_nothing_else() {
    let mut machine = loaded(3);
    let place = PER_ENTITY + FRAGS_PLACE;
    machine.entities_mut()[place] = 6.0_f32.to_bits();
    let mut expected = machine.entities().to_vec();
    assert_eq!(machine.call(1, 100, no_host), Ok(5));
    assert_eq!(machine.read_float(1), Ok(7.0));
    expected[place] = 7.0_f32.to_bits();
    assert_eq!(machine.entities(), expected);
    // (entity times cells per entity, plus field) times 4
    assert_eq!(machine.read(POINTER.into()), Ok(4 * place as u32));
    // a Return restored the local cell, and no entity cell
    assert_eq!(machine.read(VALUE.into()), Ok(0));
    // what was written last stays where a call is given up
    machine.write_float(ONE.into(), 10.0).unwrap();
    let error = machine.call(1, 4, no_host).unwrap_err();
    assert_eq!((error.cause, error.count), (Cause::Spent, 4));
    assert_eq!(machine.depth(), 0);
    expected[place] = 17.0_f32.to_bits();
    assert_eq!(machine.entities(), expected);
}

#[test]
fn statements_are_refused() {
    let mut machine = loaded(3);
    let before = machine.entities().to_vec();
    let place = |field: usize| (PER_ENTITY + field) as u32;
    // the position of the statement, a cell and what is written there before, and the refusal
    let cases = [
        (1, SELF, 3, 30),
        (1, SELF, u32::MAX, 17),
        (1, FRAGS, PER_ENTITY as u32, 31),
        (3, SELF, 3, 30),
        (4, POINTER, 4 * place(FRAGS_PLACE) + 2, 32),
        (4, POINTER, 4 * 3 * PER_ENTITY as u32, 32),
        (4, POINTER, u32::MAX - 3, 32),
        // a float through a pointer to a string
        (4, POINTER, 4 * place(51), 16),
    ];
    for (position, cell, value, number) in cases {
        machine
            .load_with(Settings {
                entities: 3,
                ..Settings::default()
            })
            .unwrap();
        machine.enter(1).unwrap();
        machine.write(cell.into(), value).unwrap();
        let mut context = *machine.context();
        context.pc = position;
        machine.set_context(context);
        let refused = Outcome::Refused(Refusal::new(number));
        assert_eq!(machine.statement(), refused, "{position} {value}");
        let outcome = RunOutcome::Refused(Refusal::new(number));
        assert_eq!(machine.run(0, 10).outcome, outcome);
        assert_eq!(machine.entities(), before);
        assert_eq!(machine.context(), &context);
    }
}

/// Entity cells that are too few for the state, in each operation; and those of another host.
#[test]
fn entity_cells_lent_anew() {
    let mut machine = loaded(3);
    machine.enter(1).unwrap();
    machine.entities_mut().truncate(3 * PER_ENTITY - 1);
    let before = machine.clone();
    assert_eq!(machine.statement(), Outcome::Refused(Refusal::STATE));
    let refused = RunOutcome::Refused(Refusal::STATE);
    assert_eq!(machine.run(0, 10).outcome, refused);
    for answer in [
        machine.enter(1),
        machine.carry_on(),
        machine.abandon(0),
        machine.write(50, 1),
        machine.read(50).map(drop),
    ] {
        assert_eq!(answer, Err(Refusal::STATE));
    }
    let error = FieldError::Refused(Refusal::STATE);
    assert_eq!(machine.field(0, "frags").err(), Some(error));
    assert_eq!(machine.field_mut(0, "frags").err(), Some(error));
    assert_eq!(machine.context(), before.context());
    assert_eq!(machine.entities(), before.entities());
    *machine.entities_mut() = vec![0; 3 * PER_ENTITY];
    assert_eq!(machine.run(0, 10).outcome, RunOutcome::Ended);
    assert_eq!(machine.field(1, "frags").unwrap().float(), Ok(1.0));
}

/// Sets each field of entity 2, and gives the entity cells that must come out.
fn set_all(machine: &mut Machine, origin: [f32; 3], flag: i64) -> Result<Vec<u32>, FieldError> {
    let mut expected = machine.entities().to_vec();
    let at = |place: usize| 2 * PER_ENTITY + place;
    machine.field_mut(2, "frags")?.set_float(-0.5)?;
    machine.field_mut(2, "origin")?.set_vector(origin)?;
    machine.field_mut(2, "netname")?.set_text(flag)?;
    machine.field_mut(2, "enemy")?.set_entity(1)?;
    machine.field_mut(2, "think")?.set_function(3)?;
    expected[at(FRAGS_PLACE)] = (-0.5_f32).to_bits();
    expected[at(51)..at(54)].copy_from_slice(&[flag as u32, 1, 3]);
    expected[at(ORIGIN_PLACE)..at(PER_ENTITY)].copy_from_slice(&origin.map(f32::to_bits));
    Ok(expected)
}

#[test]
fn fields_by_name() -> Result<(), FieldError> {
    let mut machine = loaded(3);
    let flag = machine.find_text("red flag").unwrap();
    let origin = [1.0, f32::INFINITY, -0.0];
    let expected = set_all(&mut machine, origin, flag)?;
    assert_eq!(machine.entities(), expected);
    assert_eq!(machine.field(2, "frags")?.float(), Ok(-0.5));
    assert_eq!(machine.field(2, "origin")?.vector(), Ok(origin));
    assert_eq!(machine.field(2, "netname")?.text(), Ok(flag));
    assert_eq!(machine.text(flag), Some(&b"red flag"[..]));
    assert_eq!(machine.field(2, "enemy")?.entity(), Ok(1));
    assert_eq!(machine.field(2, "think")?.function(), Ok(3));
    // the last cells of entity 1 are its own
    let last = machine.field(1, "origin")?;
    let bits = [0, 1, 2].map(|i| f32::from_bits(numbered(3)[PER_ENTITY + ORIGIN_PLACE + i]));
    assert_eq!(last.vector(), Ok(bits));
    assert_eq!(usize::from(last.definition().cell), ORIGIN_PLACE);
    // a negative number stands as it is
    machine.entities_mut()[2 * PER_ENTITY + 53] = u32::MAX;
    assert_eq!(machine.field(2, "think")?.function(), Ok(-1));
    Ok(())
}

/// A field that is looked up once, for all entities.
#[test]
fn fields_by_definition() {
    let mut machine = loaded(3);
    let frags = machine.find_field_by_name("frags").unwrap();
    for entity in 0..3 {
        let value = entity as f32;
        let mut field = machine.field_mut_of(entity, frags).unwrap();
        field.set_float(value).unwrap();
        let field = machine.field_of(entity, frags).unwrap();
        assert_eq!(field.float(), Ok(value));
        assert_eq!(machine.field(entity, "frags").unwrap().float(), Ok(value));
    }
}

#[test]
fn fields_that_are_not_there() {
    let mut machine = loaded(3);
    let before = machine.clone();
    for name in ["goals", "frag", "fragsx", "", "red flag"] {
        assert_eq!(
            machine.field(0, name).err(),
            Some(FieldError::NoField),
            "{name}"
        );
        assert_eq!(machine.field_mut(0, name).err(), Some(FieldError::NoField));
    }
    for entity in [3, -1, i64::MIN, i64::MAX, 600, 1 << 32] {
        let error = FieldError::NoEntity { entity, count: 3 };
        assert_eq!(machine.field(entity, "frags").err(), Some(error));
        assert_eq!(machine.field_mut(entity, "frags").err(), Some(error));
    }
    let outside = FieldError::OutsideEntity {
        cell: PER_ENTITY,
        cells: PER_ENTITY,
    };
    // past the last entity, and where another one follows
    for entity in [2, 0] {
        let field = machine.field(entity, "past_the_end").unwrap();
        assert_eq!(field.float(), Err(outside));
        let field = machine.field(entity, "half_outside").unwrap();
        assert_eq!(field.vector(), Err(outside));
        let mut field = machine.field_mut(entity, "past_the_end").unwrap();
        assert_eq!(field.set_float(1.0), Err(outside));
        let mut field = machine.field_mut(entity, "half_outside").unwrap();
        assert_eq!(field.set_vector([1.0; 3]), Err(outside));
    }
    assert_eq!(machine.entities(), before.entities());
    let error = "the field has cell 105 of an entity of 105 cells";
    assert_eq!(outside.to_string(), error);
    machine.load().unwrap();
    let error = machine.field(0, "frags").unwrap_err().to_string();
    assert_eq!(error, "there is no entity 0: the entities are 0");
}

/// Definitions of each type, by type and name, and the number of their cells that a host may set.
const TYPES: [(u16, &str, usize); 7] = [
    (STRING, "netname", 1),
    (FLOAT, "frags", 1),
    (VECTOR, "origin", 3),
    (ENTITY, "enemy", 1),
    (FUNCTION, "think", 1),
    (FIELD, "best", 0),
    (0, "nothing", 0),
];

/// Only the definition's own type is taken.
fn assert_other_type(defined: u16, answers: [(u16, Option<FieldError>); 5]) {
    for (asked, error) in answers {
        let other = FieldError::OtherType { asked, defined };
        assert_eq!(error, (asked != defined).then_some(other), "{defined}");
    }
}

#[test]
fn fields_read_as_another_type() {
    let machine = loaded(1);
    for (defined, name, _) in TYPES {
        let field = machine.field(0, name).unwrap();
        let read = [
            (STRING, field.text().err()),
            (FLOAT, field.float().err()),
            (VECTOR, field.vector().err()),
            (ENTITY, field.entity().err()),
            (FUNCTION, field.function().err()),
        ];
        assert_other_type(defined, read);
    }
    let error = machine.field(0, "best").unwrap().vector().unwrap_err();
    assert_eq!(error.to_string(), "the field's type is field, not vector");
}

#[test]
fn fields_set_as_another_type() {
    for (defined, name, cells) in TYPES {
        let mut machine = loaded(1);
        let before = machine.entities().to_vec();
        let mut field = machine.field_mut(0, name).unwrap();
        let set = [
            (STRING, field.set_text(1).err()),
            (FLOAT, field.set_float(1.0).err()),
            (VECTOR, field.set_vector([1.0; 3]).err()),
            (ENTITY, field.set_entity(1).err()),
            (FUNCTION, field.set_function(1).err()),
        ];
        assert_other_type(defined, set);
        let pairs = machine.entities().iter().zip(&before);
        let changed = pairs.filter(|(now, before)| now != before).count();
        assert_eq!(changed, cells, "{name}");
    }
}

#[test]
fn numbers_that_no_cell_holds() {
    let mut machine = loaded(1);
    let before = machine.entities().to_vec();
    for number in [-1, i64::MIN, 1 << 31, 1 << 32, i64::MAX] {
        let error = Err(FieldError::Number(number));
        assert_eq!(
            machine.field_mut(0, "netname").unwrap().set_text(number),
            error
        );
        assert_eq!(
            machine.field_mut(0, "enemy").unwrap().set_entity(number),
            error
        );
        assert_eq!(
            machine.field_mut(0, "think").unwrap().set_function(number),
            error
        );
    }
    assert_eq!(machine.entities(), before);
    let most = i64::from(i32::MAX);
    machine
        .field_mut(0, "netname")
        .unwrap()
        .set_text(most)
        .unwrap();
    assert_eq!(machine.field(0, "netname").unwrap().text(), Ok(most));
}

/// Before a load, and with a context that a host made up: nothing is read past the lent cells.
#[test]
fn fields_without_a_state() {
    let mut machine = lent(3);
    let refused = Some(FieldError::Refused(Refusal::STATE));
    assert_eq!(machine.field(0, "frags").err(), refused);
    load(&mut machine, 3).unwrap();
    let kept = *machine.context();
    let mut made_up = [kept; 4];
    made_up[0].entity_count = 4;
    made_up[1].entity_count = usize::MAX;
    made_up[2].file.entityfields = 200;
    made_up[3].file.entityfields = usize::MAX;
    for context in made_up {
        machine.set_context(context);
        assert_eq!(machine.field(3, "frags").err(), refused);
        assert_eq!(machine.field_mut(0, "frags").err(), refused);
        assert_eq!(machine.read(0), Err(Refusal::STATE));
    }
    let mut fewer = kept;
    fewer.entity_count = 2;
    machine.set_context(fewer);
    let error = FieldError::NoEntity {
        entity: 2,
        count: 2,
    };
    assert_eq!(machine.field(2, "frags").err(), Some(error));
    machine.set_context(kept);
    assert!(machine.field(2, "frags").is_ok());
}

/// A builtin that reads and sets fields of the entity that called it.
#[test]
fn a_builtin_sets_a_field() {
    let mut machine = loaded(3);
    let origin = [3.0, 4.0, 0.5];
    let called = machine.call(2, 100, |handover, machine| {
        assert_eq!(handover, Handover::Builtin(7));
        assert_eq!(
            (machine.entity_count(), machine.entity_cells()),
            (3, PER_ENTITY)
        );
        let entity = i64::from(machine.read(SELF.into())?);
        machine.field_mut(entity, "frags")?.set_float(9.0)?;
        machine.field_mut(entity, "origin")?.set_vector(origin)?;
        let definition = machine.find_field_by_name("frags").unwrap();
        assert_eq!(machine.field_of(entity, definition)?.float(), Ok(9.0));
        machine.field_mut_of(entity, definition)?.set_float(8.0)?;
        assert_eq!(machine.field(entity, "frags")?.float(), Ok(8.0));
        Ok::<(), FieldError>(())
    });
    // Call0, LoadV, Return
    assert_eq!(called, Ok(3));
    assert_eq!(machine.read_vector(1), Ok(origin));
    let called = machine.call(2, 100, |_, machine| {
        machine.field_mut(7, "frags")?.set_float(9.0)
    });
    let error = FieldError::NoEntity {
        entity: 7,
        count: 3,
    };
    assert_eq!(called.unwrap_err().cause, Cause::Host(error));
}
