//! A call of a function, from its entry to its end.

use std::error::Error;
use std::fmt;
use std::thread;

use crate::caller::Caller;
use crate::machine::{Handover, Machine, RunOutcome};
use crate::refusal::Refusal;

/// Why a call did not end by itself.
#[derive(Clone, Copy, Debug, PartialEq, Eq, Hash)]
pub enum Cause<E> {
    /// The entry or a statement was refused.
    Refused(Refusal),
    /// The limit's statements were completed, and the function hadn't returned.
    Spent,
    /// The host gave the call up.
    Host(E),
}

/// A call that did not end by itself. All that it entered has been left.
#[derive(Clone, Copy, Debug, PartialEq, Eq, Hash)]
pub struct CallError<E> {
    /// Why it ended.
    pub cause: Cause<E>,
    /// How many statements were completed, hand-overs included.
    pub count: u32,
    /// The position where it ended, before anything was left; where the host gave it up, of what was handed over.
    pub position: i64,
    /// The function in which that is.
    pub function: usize,
}

impl<E: fmt::Display> fmt::Display for CallError<E> {
    fn fmt(&self, f: &mut fmt::Formatter<'_>) -> fmt::Result {
        match &self.cause {
            Cause::Refused(refusal) => write!(f, "{refusal}")?,
            Cause::Spent => write!(f, "spent")?,
            Cause::Host(error) => write!(f, "{error}")?,
        }
        write!(
            f,
            ", after {} statements, at position {} in function {}",
            self.count, self.position, self.function
        )
    }
}

impl<E: fmt::Debug + fmt::Display> Error for CallError<E> {}

/// A position, and the function that it is in.
#[derive(Clone, Copy, Debug)]
pub(crate) struct Place {
    pub position: i64,
    pub function: usize,
}

impl Place {
    fn ended<E>(self, cause: Cause<E>, count: u32) -> CallError<E> {
        CallError {
            cause,
            count,
            position: self.position,
            function: self.function,
        }
    }
}

/// A function that was entered. However the call of it ends, by a panic of the host's closure too, it is left.
struct Entered<'a> {
    machine: &'a mut Machine,
    /// The depth before the entry.
    depth: usize,
}

impl Drop for Entered<'_> {
    fn drop(&mut self) {
        if self.machine.depth() == self.depth {
            return;
        }
        // What was entered has local cells that can be restored, since the entry was accepted and nothing that a closure
        // has can change the file or the context: nothing is there to refuse.
        let left = self.machine.abandon(self.depth as i64);
        assert!(left.is_ok() || thread::panicking(), "{left:?}");
    }
}

impl Machine {
    /// Enters a function, runs it to its end, and gives how many statements that took.
    ///
    /// What is handed over goes to `host`, which carries it out through a [`Caller`]; then the run goes on after it. `host`
    /// may call functions of the program itself, and may give the call up with an error of its own. However the call ends, by
    /// a panic of `host` too, the call depth is again what it was, and so are the position, the current function and the
    /// local cells of all that was entered.
    ///
    /// `limit`, 1 to [`Settings::limit`](crate::Settings::limit), is for the whole call: what runs inside, `host`'s own calls
    /// apart, completes at most so many statements, and what `host` carried out counts as one. Another limit is refused 28,
    /// before the first statement; a host that has no reason for a lower one gives `machine.settings().limit`.
    ///
    /// ```
    /// use host::assemble::{Assembly, Function};
    /// use host::{Cause, Handover, Machine, CELLS, SAVED_STORE};
    ///
    /// // Function 1 calls function 2, which is builtin 7, random; then it returns cell 1 twice over.
    /// let program = Assembly {
    ///     statements: vec![[0, 0, 0, 0], [51, 28, 0, 0], [6, 1, 1, 29], [43, 29, 0, 0]],
    ///     functions: vec![
    ///         Function::default(),
    ///         Function { first: 1, ..Function::default() },
    ///         Function { first: -7, arguments: -1, ..Function::default() },
    ///     ],
    ///     cells: vec![(28, 2)],
    ///     ..Assembly::default()
    /// };
    /// let mut machine = Machine::new(program.bytes(), vec![0; CELLS], vec![0; SAVED_STORE]);
    /// machine.load()?;
    ///
    /// let count = machine.call(1, 1_000, |handover, machine| match handover {
    ///     Handover::Builtin(7) => machine.write_float(1, 0.25).map_err(|refusal| refusal.to_string()),
    ///     other => Err(format!("{other:?} isn't known here")),
    /// })?;
    /// assert_eq!(count, 3);
    /// assert_eq!(machine.read_float(1)?, 0.5);
    ///
    /// let error = machine.call(1, 1_000, |_, _| Err("no builtins today")).unwrap_err();
    /// assert_eq!(error.cause, Cause::Host("no builtins today"));
    /// assert_eq!((error.count, error.position, error.function), (0, 1, 1));
    /// assert_eq!(machine.depth(), 0);
    /// # Ok::<(), Box<dyn std::error::Error>>(())
    /// ```
    pub fn call<E>(
        &mut self,
        function: i64,
        limit: i64,
        mut host: impl FnMut(Handover, &mut Caller<'_>) -> Result<(), E>,
    ) -> Result<u32, CallError<E>> {
        let depth = self.depth();
        let place = self.place();
        self.enter(function)
            .map_err(|refusal| place.ended(Cause::Refused(refusal), 0))?;
        let entered = Entered {
            machine: self,
            depth,
        };
        entered.machine.run_through(depth as i64, limit, &mut host)
    }

    fn place(&self) -> Place {
        Place {
            position: self.position(),
            function: self.function(),
        }
    }

    /// Runs until the depth is `target`, through all that is handed over, and counts the completed statements.
    fn run_through<E>(
        &mut self,
        target: i64,
        limit: i64,
        host: &mut impl FnMut(Handover, &mut Caller<'_>) -> Result<(), E>,
    ) -> Result<u32, CallError<E>> {
        let mut count = 0;
        loop {
            let run = self.run(target, limit - i64::from(count));
            count += run.count;
            let place = self.place();
            let handover = match run.outcome {
                RunOutcome::Ended => return Ok(count),
                RunOutcome::Spent => return Err(place.ended(Cause::Spent, count)),
                RunOutcome::Refused(refusal) => {
                    return Err(place.ended(Cause::Refused(refusal), count))
                }
                RunOutcome::HandedOver(handover) => handover,
            };
            // Before the host writes its result, which may take the place of the function's number: a Call through cell
            // 1, 2 or 3 would then be refused 27.
            self.carry_on()
                .map_err(|refusal| place.ended(Cause::Refused(refusal), count))?;
            self.ask(handover, place, host)
                .map_err(|error| place.ended(Cause::Host(error), count))?;
            count += 1;
            if i64::from(count) == limit {
                return Err(self.place().ended(Cause::Spent, count));
            }
        }
    }

    /// Has the host carry out what was handed over. Through what it is given it can't change the context.
    fn ask<E>(
        &mut self,
        handover: Handover,
        place: Place,
        host: &mut impl FnMut(Handover, &mut Caller<'_>) -> Result<(), E>,
    ) -> Result<(), E> {
        let before = cfg!(debug_assertions).then(|| *self.context());
        let answered = host(handover, &mut Caller::new(self, place));
        debug_assert!(before.is_none_or(|before| before == *self.context()));
        answered
    }
}
