//! Runs this machine, through the host's crate, and keeps what it answered and left.

use crate::entities::Lent;
use crate::program::View;
use crate::strings::{self, Trace};
use host::{Handover, LoadError, Machine, Outcome, RunOutcome, Settings};

#[derive(Clone, Copy, Debug, PartialEq, Eq, PartialOrd, Ord)]
pub enum Answer {
    /// A statement or an entry, or an abandonment.
    Completed,
    Ended,
    Spent,
    Refused(u32),
    Builtin(u32),
    Opcode(u32),
}

impl std::fmt::Display for Answer {
    fn fmt(&self, f: &mut std::fmt::Formatter) -> std::fmt::Result {
        match self {
            Answer::Completed => write!(f, "completed"),
            Answer::Ended => write!(f, "ended"),
            Answer::Spent => write!(f, "spent"),
            Answer::Refused(n) => write!(f, "refused {}", n),
            Answer::Builtin(n) => write!(f, "builtin {}", n),
            Answer::Opcode(n) => write!(f, "opcode {}", n),
        }
    }
}

/// An answer and what it left.
#[derive(Clone, PartialEq)]
pub struct Left {
    pub answer: Answer,
    pub count: u64,
    pub position: i64,
    pub function: usize,
    pub depth: usize,
    /// The frames in use.
    pub frames: Vec<(i64, usize)>,
    /// The saved cells in use.
    pub saved: Vec<u32>,
    pub cells: Vec<u32>,
    pub entities: Vec<u32>,
    /// Whether the lent cells past the file's count, the lent entity cells past the last entity, the saved store past its 2,048, and frames
    /// not in use are as they must be.
    pub rest_untouched: bool,
}

/// What the lent cells and the saved store hold before a load, and past what may be written.
const FILL: u32 = 0xdead_beef;
/// How many cells more than the file has are lent, and entity cells more than the entities have.
const MORE: usize = 5;

/// The most statements of a run.
const LIMIT: u64 = 99_999;

#[derive(Clone)]
pub struct Ours {
    machine: Machine,
    count: usize,
    entity_cells: usize,
}

impl Ours {
    /// The loaded machine, or the refusal's number.
    pub fn load(bytes: &[u8], lent: &Lent) -> Result<Ours, u32> {
        let count = View(bytes).cells().min(40_000);
        let mut entities = lent.cells.clone();
        entities.extend([FILL; MORE]);
        let mut machine = Machine::with_entities(bytes.to_vec(), vec![FILL; count + MORE], vec![FILL; 2_048 + MORE], entities);
        match machine.load_with(Settings { entities: lent.number as i64, ..Settings::default() }) {
            Ok(()) => Ok(Ours { machine, count, entity_cells: lent.cells.len() }),
            Err(LoadError::Refused(refusal)) => Err(refusal.number()),
            Err(error) => panic!("{error}"),
        }
    }

    /// Enters the function and runs it to the depth it was entered from, as `execute_program` does.
    pub fn execute(&mut self, function: usize) -> Left {
        let depth = self.machine.depth() as i64;
        if let Err(refusal) = self.machine.enter(function as i64) {
            return self.left(Answer::Refused(refusal.number()), 0);
        }
        let run = self.machine.run(depth, LIMIT as i64);
        let answer = match run.outcome {
            RunOutcome::Ended => Answer::Ended,
            RunOutcome::Spent => Answer::Spent,
            RunOutcome::Refused(refusal) => Answer::Refused(refusal.number()),
            RunOutcome::HandedOver(Handover::Builtin(n)) => Answer::Builtin(n),
            RunOutcome::HandedOver(Handover::Opcode(n)) => Answer::Opcode(n),
        };
        self.left(answer, run.count as u64)
    }

    /// The same by single statements, up to one that is outside R-4's limit, which isn't done: its answer is `Completed`, as that of the
    /// statements before it. Says what its EqS, NeS and NotS met.
    pub fn watch(&mut self, function: usize) -> (Left, Trace) {
        let (depth, mut trace, mut count) = (self.machine.depth(), Trace::default(), 0);
        if let Err(refusal) = self.machine.enter(function as i64) {
            return (self.left(Answer::Refused(refusal.number()), 0), trace);
        }
        while self.machine.depth() != depth {
            if count == LIMIT {
                return (self.left(Answer::Spent, count), trace);
            }
            trace.add(self.met());
            if trace.outside.is_some() {
                return (self.left(Answer::Completed, count), trace);
            }
            let answer = self.stepped();
            if answer != Answer::Completed {
                return (self.left(answer, count), trace);
            }
            count += 1;
        }
        (self.left(Answer::Ended, count), trace)
    }

    /// What the statement at the position is about to meet of R-4.
    pub fn met(&self) -> strings::Met {
        let view = View(self.machine.program());
        let statement = view.statement(self.machine.position());
        statement.map_or(strings::Met::Nothing, |statement| strings::met(&view, &self.machine.cells()[..self.count], statement))
    }

    pub fn enter(&mut self, function: usize) -> Left {
        let answer = self.machine.enter(function as i64);
        self.left(accepted(answer), 0)
    }

    /// Leaves the innermost function without a return value.
    pub fn leave(&mut self) -> Left {
        let depth = self.machine.depth() as i64;
        let answer = self.machine.abandon(depth - 1);
        self.left(accepted(answer), 0)
    }

    pub fn abandon(&mut self, depth: i64) -> Left {
        let answer = self.machine.abandon(depth);
        self.left(accepted(answer), 0)
    }

    pub fn statement(&mut self) -> Left {
        let answer = self.stepped();
        self.left(answer, 0)
    }

    fn stepped(&mut self) -> Answer {
        match self.machine.statement() {
            Outcome::Completed => Answer::Completed,
            Outcome::Refused(refusal) => Answer::Refused(refusal.number()),
            Outcome::HandedOver(Handover::Builtin(n)) => Answer::Builtin(n),
            Outcome::HandedOver(Handover::Opcode(n)) => Answer::Opcode(n),
        }
    }

    pub fn left(&self, answer: Answer, count: u64) -> Left {
        let m = &self.machine;
        let (depth, saved) = (m.depth(), m.saved_count());
        let frames = m.frames();
        let zeros = |f: &host::StackFrame| f.instr_id == 0 && f.func_id == 0;
        Left {
            answer,
            count,
            position: m.position(),
            function: m.function(),
            depth,
            frames: (frames[..depth].iter()).map(|f| (f.instr_id, f.func_id)).collect(),
            saved: m.saved()[..saved].to_vec(),
            cells: m.cells()[..self.count].to_vec(),
            entities: m.entities()[..self.entity_cells].to_vec(),
            rest_untouched: m.cells()[self.count..].iter().all(|&c| c == FILL)
                && m.entities()[self.entity_cells..] == [FILL; MORE]
                && m.saved()[2_048..].iter().all(|&c| c == FILL)
                && frames[depth..].iter().all(zeros),
        }
    }
}

fn accepted(answer: Result<(), host::Refusal>) -> Answer {
    match answer {
        Ok(()) => Answer::Completed,
        Err(refusal) => Answer::Refused(refusal.number()),
    }
}
