//! The machine: lent buffers, the context, and the operations.

use crate::context::{Context, StackFrame};
use crate::engine::{Engine, Unpacked};
use crate::float_mode::check_float_mode;
use crate::library::{self, Answer, Reply};
use crate::refusal::{LoadError, Refusal};
use crate::settings::Settings;

/// The most cells that a file may have; so many are enough to lend to any file.
pub const CELLS: usize = 32_768;

/// The least length of the saved store; no operation writes past it.
pub const SAVED_STORE: usize = 2_048;

/// The most entities that a load takes.
pub const ENTITIES: usize = 600;

/// The most bytes that a written program file has; an output buffer of so many is long enough for any.
pub const IMAGE: usize = 1_048_576;

/// The most pairs of address and value that [`Machine::write_all`] takes.
pub const PAIRS: usize = 64;

/// What is handed to the host, with its number.
///
/// After [`Machine::run`] or [`Machine::statement`] the position stays at the statement until [`Machine::carry_on`].
/// [`Machine::call`] has carried on before it asks the host.
#[derive(Clone, Copy, Debug, PartialEq, Eq, Hash)]
pub enum Handover {
    /// A Call of a builtin: 1 to 78, but for 36, 37, 38 and 43 (rint, floor, ceil, fabs), which the machine does
    /// itself. Its arguments are in the cells from 4 on, three to each; its result goes to cells 1 to 3.
    Builtin(u32),
    /// The one opcode that the host carries out: 60, State.
    Opcode(u32),
}

/// What one statement answers.
#[derive(Clone, Copy, Debug, PartialEq, Eq, Hash)]
pub enum Outcome {
    /// It was carried out.
    Completed,
    /// It was refused and changed nothing.
    Refused(Refusal),
    /// It is the host's to carry out; nothing changed.
    HandedOver(Handover),
}

/// How a run ends.
#[derive(Clone, Copy, Debug, PartialEq, Eq, Hash)]
pub enum RunOutcome {
    /// The call depth is the target.
    Ended,
    /// As many statements as the limit were completed, and the target isn't reached.
    Spent,
    /// A statement was refused; those before it stand.
    Refused(Refusal),
    /// A statement is the host's to carry out; those before it stand.
    HandedOver(Handover),
}

/// What a run answers, and where it stopped. It prints as the sentence of [`Run::sentence`].
#[derive(Clone, Copy, Debug, PartialEq, Eq, Hash)]
pub struct Run {
    /// How it ended.
    pub outcome: RunOutcome,
    /// How many statements were completed.
    pub count: u32,
    /// The position after it.
    pub position: i64,
    /// The function that is being executed after it.
    pub function: usize,
}

/// A program's bytes, the cells, the saved store and the entity cells that are lent to the library, and the context
/// between calls.
///
/// The statements are unpacked at a load, into a buffer of the machine's own, from which runs go ([`Engine`]).
///
/// Before a load is accepted the context is of zeros, and every operation on it is refused 13.
///
/// ```
/// use host::assemble::Assembly;
/// use host::{Machine, Refusal, CELLS, SAVED_STORE};
///
/// let mut machine = Machine::new(Assembly::default().bytes(), vec![0; CELLS], vec![0; SAVED_STORE]);
/// assert_eq!(machine.read(0), Err(Refusal::STATE));
/// machine.load()?;
/// machine.write(40, 7)?;
/// assert_eq!(machine.read(40), Ok(7));
/// assert_eq!(machine.read(64), Err(Refusal::new(15)));
/// # Ok::<(), Box<dyn std::error::Error>>(())
/// ```
#[derive(Clone, Debug)]
pub struct Machine {
    program: Vec<u8>,
    cells: Vec<u32>,
    saved: Vec<u32>,
    entities: Vec<u32>,
    unpacked: Unpacked,
    engine: Engine,
    /// The context, with the answer to the operation that it comes from.
    reply: Reply,
}

impl Machine {
    /// A machine over a program file's bytes, cells and a saved store, without entity cells. Nothing is loaded yet.
    ///
    /// A load asks for as many cells as the file has, and for a saved store of [`SAVED_STORE`] or more.
    pub fn new(program: Vec<u8>, cells: Vec<u32>, saved: Vec<u32>) -> Machine {
        Machine::with_entities(program, cells, saved, Vec::new())
    }

    /// The same with entity cells: those of entity 0 first, the file's cells per entity for each. A load takes what
    /// stands in them as it is.
    ///
    /// ```
    /// use host::assemble::Assembly;
    /// use host::{Machine, Program, Settings, CELLS, SAVED_STORE};
    ///
    /// let program = Assembly::default().bytes();
    /// let cells = 33 * Program::new(&program).entity_cells();
    /// let mut machine =
    ///     Machine::with_entities(program, vec![0; CELLS], vec![0; SAVED_STORE], vec![0; cells]);
    /// machine.load_with(Settings { entities: 33, ..Settings::default() })?;
    /// assert_eq!((machine.entity_count(), machine.entity_cells()), (33, 105));
    /// # Ok::<(), host::LoadError>(())
    /// ```
    pub fn with_entities(
        program: Vec<u8>,
        cells: Vec<u32>,
        saved: Vec<u32>,
        entities: Vec<u32>,
    ) -> Machine {
        Machine {
            program,
            cells,
            saved,
            entities,
            unpacked: Unpacked::default(),
            engine: Engine::default(),
            reply: Reply::default(),
        }
    }

    // ---- the operations

    /// [`Machine::load_with`] the default settings: document 01's, and no entities.
    pub fn load(&mut self) -> Result<(), LoadError> {
        self.load_with(Settings::default())
    }

    /// Checks the file, fills the cells with the file's own, unpacks the statements, and starts at the beginning.
    ///
    /// Cells past the file's count stay as they are, and so do the saved store and all entity cells. A load that isn't
    /// accepted changes nothing: what an earlier one made stands. Settings out of range are refused 36, before the file is
    /// looked at ([`Settings::check`] says which); entities that are negative, over [`ENTITIES`] or more than the lent
    /// entity cells hold are refused 13. Beside the file it checks what it stands on: the library that is linked, and
    /// this thread's floating-point mode.
    pub fn load_with(&mut self, settings: Settings) -> Result<(), LoadError> {
        library::layout().map_err(|error| LoadError::Library(error.clone()))?;
        check_float_mode().map_err(LoadError::FloatMode)?;
        let reply = library::load(
            settings.held(),
            &self.program,
            settings.entities,
            &mut self.cells,
            &self.saved,
            &self.entities,
        );
        accepted(reply.answer).map_err(LoadError::Refused)?;
        self.reply = reply;
        self.unpack().map_err(LoadError::Refused)
    }

    /// Enters a function by its number, to go back to the present position at its return.
    ///
    /// Its arguments are copied from the cells from 4 on, three to each, to its local cells. As many functions as the
    /// settings' depth can be entered and not left (22), and their local cells are at most as many as its saved count (23).
    pub fn enter(&mut self, function: i64) -> Result<(), Refusal> {
        library::enter(
            &mut self.reply,
            &self.program,
            function,
            &mut self.cells,
            &mut self.saved,
            &self.entities,
        );
        accepted(self.reply.answer)
    }

    /// Carries out the statement at the position.
    pub fn statement(&mut self) -> Outcome {
        library::statement(
            &mut self.reply,
            &self.program,
            &mut self.cells,
            &mut self.saved,
            &mut self.entities,
        );
        let Answer { word, detail, .. } = self.reply.answer;
        match word {
            library::ACCEPTED => Outcome::Completed,
            library::BUILTIN => Outcome::HandedOver(Handover::Builtin(detail)),
            library::OPCODE => Outcome::HandedOver(Handover::Opcode(detail)),
            _ => Outcome::Refused(Refusal::new(detail)),
        }
    }

    /// Carries out statements until the call depth is `target`, at most `limit` of them, 1 to [`Settings::limit`]; another
    /// limit is refused 28. The target is below the present depth, so that something must be entered before.
    ///
    /// After a hand-over the host carries the statement out and calls [`Machine::carry_on`]; [`Machine::call`] does
    /// both. After a refusal, or where the limit is spent, the functions that were entered still are:
    /// [`Machine::abandon`] leaves them.
    ///
    /// It is the second engine's run, unless [`Machine::set_engine`] asked for the first. The answer is the same.
    pub fn run(&mut self, target: i64, limit: i64) -> Run {
        match self.engine {
            Engine::First => library::run(
                &mut self.reply,
                &self.program,
                target,
                limit,
                &mut self.cells,
                &mut self.saved,
                &mut self.entities,
            ),
            Engine::Second => self.run_unpacked(target, limit),
        }
        let Answer {
            word,
            detail,
            count,
        } = self.reply.answer;
        let outcome = match word {
            library::ENDED => RunOutcome::Ended,
            library::SPENT => RunOutcome::Spent,
            library::BUILTIN => RunOutcome::HandedOver(Handover::Builtin(detail)),
            library::OPCODE => RunOutcome::HandedOver(Handover::Opcode(detail)),
            _ => RunOutcome::Refused(Refusal::new(detail)),
        };
        Run {
            outcome,
            count,
            position: self.position(),
            function: self.function(),
        }
    }

    /// A run of the second engine, from what is unpacked of the program's bytes as they are. Where the unpacking is refused, so is
    /// the run: both are for check 13.
    fn run_unpacked(&mut self, target: i64, limit: i64) {
        if !self.unpacked.is_current() {
            self.unpack().ok();
        }
        library::run_unpacked(
            &mut self.reply,
            &self.program,
            self.unpacked.numbers(),
            target,
            limit,
            &mut self.cells,
            &mut self.saved,
            &mut self.entities,
        );
    }

    /// Unpacks the program's statements for the second engine.
    ///
    /// A load does, and so does the first run after [`Machine::program_mut`]. A host that wants this time to be spent before the
    /// run calls it itself. Refused 13 as every operation.
    ///
    /// ```
    /// use host::assemble::{Assembly, Function};
    /// use host::{Machine, RunOutcome, CELLS, SAVED_STORE};
    ///
    /// // Function 1 returns cell 28.
    /// let program = Assembly {
    ///     statements: vec![[43, 28, 0, 0]],
    ///     functions: vec![Function::default(); 2],
    ///     cells: vec![(28, 7), (29, 8)],
    ///     ..Assembly::default()
    /// };
    /// let mut machine = Machine::new(program.bytes(), vec![0; CELLS], vec![0; SAVED_STORE]);
    /// machine.load()?;
    /// // The operand of the Return becomes 29. A run unpacks again by itself; here it finds that done.
    /// let place = machine.context().file.statements.offset + 2;
    /// machine.program_mut()[place] = 29;
    /// machine.unpack()?;
    /// machine.enter(1)?;
    /// assert_eq!(machine.run(0, 10).outcome, RunOutcome::Ended);
    /// assert_eq!(machine.read(1)?, 8);
    /// # Ok::<(), Box<dyn std::error::Error>>(())
    /// ```
    pub fn unpack(&mut self) -> Result<(), Refusal> {
        let context = &self.reply.context;
        self.unpacked
            .unpack(context.file.statements.count, &self.program, |buffer| {
                accepted(library::unpack(
                    context,
                    &self.program,
                    buffer,
                    &self.cells,
                    &self.saved,
                    &self.entities,
                ))
            })
    }

    /// The engine that runs go by.
    pub fn engine(&self) -> Engine {
        self.engine
    }

    /// Asks for an engine. It may be changed between any two operations: what one left, the other goes on with.
    ///
    /// ```
    /// use host::{load_file, Engine, Machine, CELLS, SAVED_STORE};
    ///
    /// let mut machine = Machine::new(load_file(1, 1_000)?, vec![0; CELLS], vec![0; SAVED_STORE]);
    /// machine.load()?;
    /// machine.enter(1)?;
    /// let mut other = machine.clone();
    /// assert_eq!(machine.engine(), Engine::Second);
    /// other.set_engine(Engine::First);
    /// assert_eq!(machine.run(0, 2_000), other.run(0, 2_000));
    /// assert_eq!((machine.context(), machine.cells()), (other.context(), other.cells()));
    /// # Ok::<(), Box<dyn std::error::Error>>(())
    /// ```
    pub fn set_engine(&mut self, engine: Engine) {
        self.engine = engine;
    }

    /// Goes past the statement that was handed over. Where the one at the position would not be handed over, with the
    /// cells as they now are, it is refused 27: a host that writes a builtin's result first may have overwritten the
    /// cell that named the builtin.
    pub fn carry_on(&mut self) -> Result<(), Refusal> {
        library::carry_on(
            &mut self.reply,
            &self.program,
            &self.cells,
            &self.saved,
            &self.entities,
        );
        accepted(self.reply.answer)
    }

    /// Leaves functions, the innermost first, until the call depth is `depth`. Nothing is returned from them.
    pub fn abandon(&mut self, depth: i64) -> Result<(), Refusal> {
        library::abandon(
            &mut self.reply,
            &self.program,
            depth,
            &mut self.cells,
            &self.saved,
            &self.entities,
        );
        accepted(self.reply.answer)
    }

    /// The 32 bits of a cell.
    pub fn read(&self, address: i64) -> Result<u32, Refusal> {
        let answer = library::read(
            self.context(),
            &self.program,
            address,
            &self.cells,
            &self.saved,
            &self.entities,
        );
        accepted(answer)?;
        Ok(answer.detail)
    }

    /// Sets the 32 bits of a cell, whatever its type.
    pub fn write(&mut self, address: i64, value: u32) -> Result<(), Refusal> {
        accepted(library::write(
            &self.reply.context,
            &self.program,
            address,
            value,
            &mut self.cells,
            &self.saved,
            &self.entities,
        ))
    }

    /// Sets the 32 bits of cells, each by its address, in one operation: all of them, or none where it is refused.
    ///
    /// They are set in order: of two pairs with one address the later holds. Refused 15 where an address isn't a cell's,
    /// and for more than [`PAIRS`] pairs.
    ///
    /// ```
    /// use host::assemble::Assembly;
    /// use host::{Machine, Refusal, CELLS, SAVED_STORE};
    ///
    /// let mut machine = Machine::new(Assembly::default().bytes(), vec![0; CELLS], vec![0; SAVED_STORE]);
    /// machine.load()?;
    /// let (timelimit, fraglimit, map) = (40, 41, 42);
    /// machine.write_all(&[(timelimit, 10), (fraglimit, 20), (map, 3)])?;
    /// // The file has 64 cells, so the last pair is bad and the others aren't written.
    /// let refused = machine.write_all(&[(timelimit, 15), (fraglimit, 30), (64, 4)]);
    /// assert_eq!(refused, Err(Refusal::new(15)));
    /// assert_eq!(machine.cells()[40..43], [10, 20, 3]);
    /// # Ok::<(), Box<dyn std::error::Error>>(())
    /// ```
    pub fn write_all(&mut self, pairs: &[(i64, u32)]) -> Result<(), Refusal> {
        let numbers: Vec<i64> = pairs
            .iter()
            .flat_map(|&(address, value)| [address, value.into()])
            .collect();
        self.write_numbers(&numbers)
    }

    /// [`Machine::write_all`] of a list of numbers, an address and a value in turn, as a host may have them from
    /// elsewhere. Refused 15 for a number without a pair and for a value that is negative or has more than 32 bits, too.
    ///
    /// ```
    /// use host::assemble::Assembly;
    /// use host::{Machine, Refusal, CELLS, SAVED_STORE};
    ///
    /// let mut machine = Machine::new(Assembly::default().bytes(), vec![0; CELLS], vec![0; SAVED_STORE]);
    /// machine.load()?;
    /// machine.write_numbers(&[40, 10, 41, 20])?;
    /// assert_eq!(machine.write_numbers(&[40, 15, 41]), Err(Refusal::new(15)));
    /// assert_eq!(machine.write_numbers(&[40, 15, 41, -1]), Err(Refusal::new(15)));
    /// assert_eq!(machine.cells()[40..42], [10, 20]);
    /// # Ok::<(), Box<dyn std::error::Error>>(())
    /// ```
    pub fn write_numbers(&mut self, numbers: &[i64]) -> Result<(), Refusal> {
        accepted(library::write_all(
            &self.reply.context,
            &self.program,
            numbers,
            &mut self.cells,
            &self.saved,
            &self.entities,
        ))
    }

    /// The cell as a float.
    pub fn read_float(&self, address: i64) -> Result<f32, Refusal> {
        self.read(address).map(f32::from_bits)
    }

    /// Sets the cell to a float.
    pub fn write_float(&mut self, address: i64, value: f32) -> Result<(), Refusal> {
        self.write(address, value.to_bits())
    }

    /// The vector in a cell and the two after it.
    pub fn read_vector(&self, address: i64) -> Result<[f32; 3], Refusal> {
        let next = |cells| address.saturating_add(cells);
        Ok([
            self.read_float(address)?,
            self.read_float(next(1))?,
            self.read_float(next(2))?,
        ])
    }

    /// Sets a cell and the two after it to a vector. Where one of them isn't there, nothing is set.
    pub fn write_vector(&mut self, address: i64, value: [f32; 3]) -> Result<(), Refusal> {
        let cell = |next: i64, value: f32| (address.saturating_add(next), value.to_bits());
        let [x, y, z] = value;
        self.write_all(&[cell(0, x), cell(1, y), cell(2, z)])
    }

    // ---- the program file in its one form

    /// The loaded program as a file in the one form that each has: the header, then the six parts in the header's order
    /// without gaps, profile numbers 0.
    ///
    /// Files with the same contents, profile numbers and the places of their parts aside, are written alike. What is
    /// written loads to the same contents, and is written again byte for byte. It is made of the program's bytes alone, the
    /// file's own cells among them: what ran since the load, and what was written to cells, isn't in it.
    ///
    /// The check number in it is that of the settings ([`Settings::check_number`]): it loads again under the same.
    ///
    /// Refused 34 where it would be longer than [`IMAGE`], as where the parts of the file lie over each other.
    ///
    /// ```
    /// use host::assemble::Assembly;
    /// use host::{Machine, CELLS, SAVED_STORE};
    ///
    /// let program = Assembly { cells: vec![(28, 7)], ..Assembly::default() }.bytes();
    /// // 100 bytes that no part has
    /// let longer = [&program[..], &[9; 100]].concat();
    /// let mut machine = Machine::new(longer, vec![0; CELLS], vec![0; SAVED_STORE]);
    /// machine.load()?;
    /// machine.write(28, 8)?;
    /// assert_eq!(machine.image()?, program);
    /// # Ok::<(), Box<dyn std::error::Error>>(())
    /// ```
    pub fn image(&self) -> Result<Vec<u8>, Refusal> {
        let mut bytes = vec![0; IMAGE];
        let length = self.write_image(&mut bytes)?;
        bytes.truncate(length);
        bytes.shrink_to_fit();
        Ok(bytes)
    }

    /// Writes what [`Machine::image`] gives to the front of a buffer, and gives its length. The bytes after it stay.
    ///
    /// Refused 34 where the buffer is shorter, too. Where it is refused, nothing is written.
    ///
    /// ```
    /// use host::assemble::Assembly;
    /// use host::{Machine, Refusal, CELLS, SAVED_STORE};
    ///
    /// let program = Assembly::default().bytes();
    /// let mut machine = Machine::new(program.clone(), vec![0; CELLS], vec![0; SAVED_STORE]);
    /// machine.load()?;
    /// let mut output = [9; 1000];
    /// assert_eq!(machine.write_image(&mut output[..316]), Err(Refusal::new(34)));
    /// assert_eq!(output, [9; 1000]);
    /// assert_eq!(machine.write_image(&mut output), Ok(317));
    /// assert_eq!(output[..317], program);
    /// assert_eq!(output[317..], [9; 683]);
    /// # Ok::<(), Box<dyn std::error::Error>>(())
    /// ```
    pub fn write_image(&self, output: &mut [u8]) -> Result<usize, Refusal> {
        let answer = library::write_file(
            self.context(),
            &self.program,
            &self.cells,
            &self.saved,
            &self.entities,
            output,
        );
        accepted(answer)?;
        Ok(answer.detail as usize)
    }

    // ---- what is there between calls

    /// Whether a load was accepted, or a context other than zeros was set.
    pub fn loaded(&self) -> bool {
        self.reply.context != Context::default()
    }

    /// The number of the statement that is next.
    pub fn position(&self) -> i64 {
        self.reply.context.pc
    }

    /// The number of the function that is being executed.
    pub fn function(&self) -> usize {
        self.reply.context.current_function
    }

    /// The call depth: how many functions are entered and not left.
    pub fn depth(&self) -> usize {
        self.reply.context.depth
    }

    /// How many cells of the saved store are in use.
    pub fn saved_count(&self) -> usize {
        self.reply.context.saved
    }

    /// The settings that the load was given, with the number of entities; zeros before a load is accepted. No operation changes
    /// them.
    ///
    /// [`Settings::limit`] is the greatest limit that [`Machine::run`] and [`Machine::call`] take:
    ///
    /// ```
    /// use host::assemble::{Assembly, Function};
    /// use host::{Machine, Settings, CELLS, SAVED_STORE};
    ///
    /// let program = Assembly {
    ///     statements: vec![[0, 0, 0, 0]],
    ///     functions: vec![Function::default(); 2],
    ///     ..Assembly::default()
    /// };
    /// let mut machine = Machine::new(program.bytes(), vec![0; CELLS], vec![0; SAVED_STORE]);
    /// machine.load_with(Settings::default().with_limit(500)?)?;
    /// let count = machine.call(1, machine.settings().limit, |_, _| Err("no builtins here"))?;
    /// assert_eq!(count, 1);
    /// # Ok::<(), Box<dyn std::error::Error>>(())
    /// ```
    pub fn settings(&self) -> Settings {
        Settings::of(&self.reply.context)
    }

    /// The number of entities that the load was given.
    pub fn entity_count(&self) -> usize {
        self.reply.context.entity_count
    }

    /// The loaded file's count of cells per entity.
    pub fn entity_cells(&self) -> usize {
        self.reply.context.file.entityfields
    }

    /// All frames, the lowest first.
    pub fn frames(&self) -> &[StackFrame] {
        &self.reply.context.frames
    }

    /// The lent cells, those past the file's count too.
    pub fn cells(&self) -> &[u32] {
        &self.cells
    }

    /// The lent saved store.
    pub fn saved(&self) -> &[u32] {
        &self.saved
    }

    /// The lent entity cells, those of entity 0 first, those past the last entity too.
    pub fn entities(&self) -> &[u32] {
        &self.entities
    }

    /// The program file's bytes.
    pub fn program(&self) -> &[u8] {
        &self.program
    }

    /// The context; zeros before a load is accepted.
    pub fn context(&self) -> &Context {
        &self.reply.context
    }

    // ---- for hosts that keep states, restore them or make them up

    /// Puts another context in place. One that doesn't belong to the buffers is refused 13 by every operation.
    pub fn set_context(&mut self, context: Context) {
        // What is unpacked stays right: a context that isn't refused 13 records the statements of the program's bytes.
        self.reply.context = context;
    }

    /// The program file's bytes, to be changed. Operations read them as they are; another length, other lumps or
    /// other cells per entity than the load recorded are refused 13. The next run unpacks the statements again.
    pub fn program_mut(&mut self) -> &mut Vec<u8> {
        self.unpacked.set_outdated();
        &mut self.program
    }

    /// The lent cells, to be changed or lent anew. Fewer than the file has are refused 13.
    pub fn cells_mut(&mut self) -> &mut Vec<u32> {
        &mut self.cells
    }

    /// The lent saved store, to be changed or lent anew. One shorter than [`SAVED_STORE`] is refused 13.
    pub fn saved_mut(&mut self) -> &mut Vec<u32> {
        &mut self.saved
    }

    /// The lent entity cells, to be changed or lent anew, as a host may at any time between calls. Fewer than the
    /// entities given at load have are refused 13.
    pub fn entities_mut(&mut self) -> &mut Vec<u32> {
        &mut self.entities
    }
}

fn accepted(answer: Answer) -> Result<(), Refusal> {
    if answer.word == library::ACCEPTED {
        Ok(())
    } else {
        Err(Refusal::new(answer.detail))
    }
}
