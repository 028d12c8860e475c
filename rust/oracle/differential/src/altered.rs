//! Whether the comparison would find a wrong machine: one thing in this machine's results is altered, and the verdict must be a
//! difference. Runs that the changed Rust ends and that compare equal are altered, and runs that are left out from a statement on that is
//! outside R-4's limit.

use crate::compare::Verdict;
use crate::generate::{self, Case};
use crate::ours::{Answer, Left};
use crate::program::View;
use crate::random::Random;
use crate::report::{grouped, Counts};
use crate::runs::{self, Performed};

/// What is altered, by name.
const ALTERATIONS: [&str; 8] = [
    "answer",
    "count of statements",
    "position",
    "function",
    "depth",
    "a cell",
    "an entity cell",
    "a cell past the file's count, or past the entities",
];

const ANSWER: usize = 0;
const ENTITY_CELL: usize = 6;

fn alter(r: &mut Random, which: usize, left: &mut Left) {
    match which {
        ANSWER => left.answer = Answer::Refused(14),
        1 => left.count += 1,
        2 => left.position += 1,
        3 => left.function += 1,
        4 => {
            left.depth += 1;
            left.frames.push((0, 0));
        }
        5 => {
            let cell = r.below(left.cells.len());
            left.cells[cell] ^= 1 << r.below(32);
        }
        ENTITY_CELL => {
            let cell = r.below(left.entities.len());
            left.entities[cell] ^= 1 << r.below(32);
        }
        _ => left.rest_untouched = false,
    }
}

/// Of a run that is to be altered, what is said before the name of what is altered in it.
fn what_is_altered(case: &Case, performed: &Performed) -> Option<&'static str> {
    let ended = performed.calls.last()?.answer == Answer::Ended;
    match runs::changed(case, performed).last()? {
        Verdict::Same { traces: false } if ended => Some(""),
        Verdict::Outside(_) => Some("before a statement outside R-4's limit: "),
        _ => None,
    }
}

/// Whether all were found.
pub fn run(seed: u64, count: u64) -> bool {
    let (mut found, mut missed) = (Counts::default(), Counts::default());
    for number in 0..count {
        let case = generate::case(seed, number);
        // Without texts for names the count can be unknown.
        if runs::reserves_too_much(&case.bytes) || !runs::names_are_texts(&View(&case.bytes)) {
            continue;
        }
        let mut performed = runs::perform(&case);
        let Some(title) = what_is_altered(&case, &performed) else {
            continue;
        };
        let mut r = Random::new(seed ^ 0xa17e, number);
        let last = performed.calls.len() - 1;
        let which = match r.below(ALTERATIONS.len()) {
            ENTITY_CELL if performed.calls[last].entities.is_empty() => ENTITY_CELL + 1,
            // No answer is compared where both are stopped.
            ANSWER if !title.is_empty() => ANSWER + 1,
            which => which,
        };
        alter(&mut r, which, &mut performed.calls[last]);
        match runs::changed(&case, &performed).last() {
            Some(Verdict::Differs(_)) => found.add(format!("{}{}", title, ALTERATIONS[which])),
            _ => missed.add(format!("{}{}", title, ALTERATIONS[which])),
        }
    }
    println!("{} programs, results of this machine altered in one thing", grouped(count));
    found.print("found:");
    missed.print("missed:");
    found.total() > 0 && missed.total() == 0
}
