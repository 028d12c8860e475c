//! The customer's story: a match whose calls are refused again and again, and the call at its end.

use crate::entities::Lent;
use crate::oracle::{self, End, Variant};
use crate::ours::{Answer, Ours};
use crate::program::{Function, Program};

/// A hit is counted (function 1), but a score that is a string is added to, which the types forbid. At the end of the match the
/// winner's number is given back (function 2).
fn rules(locals: i32) -> Program {
    let mut program = Program::new(160);
    program.strings = b"\0player_hit\0match_end\0score\0".to_vec();
    program.globaldefs.push((1, 31, 22));
    program.functions.push(Function { first: 1, local: 50, locals, name: 1, ..Function::default() });
    program.functions.push(Function { first: 4, local: 40, locals: 1, name: 12, ..Function::default() });
    program.cells[28] = 1.0_f32.to_bits();
    program.cells[32] = 7.0_f32.to_bits();
    program.statements.extend([
        [6, 29, 28, 29], // 1: hits = hits + 1
        [6, 31, 28, 31], // 2: score = score + 1, and score is a string
        [0, 0, 0, 0],    // 3
        [31, 32, 40, 0], // 4: local = winner
        [43, 40, 0, 0],  // 5: return local
    ]);
    program
}

const HIT: usize = 1;
const MATCH_END: usize = 2;

/// The same calls on both: hits until the Rust refuses to enter at all, then the end of the match.
pub fn run() -> bool {
    let depth = one_match("each call is left at its error, with its frame", 1);
    let saved = one_match("the same with 70 locals, which stay saved", 70);
    depth && saved
}

fn one_match(title: &str, locals: i32) -> bool {
    println!("{}", title);
    let bytes = rules(locals).bytes();
    let lent = Lent::default();
    let mut level = oracle::load_whole(Variant::Unchanged, &bytes, &lent);
    let mut ours = Ours::load(&bytes, &lent).expect("a whole file");
    let mut good = true;
    for hit in 1..=40 {
        let rust = oracle::call(&mut *level, 160, false, |l| l.execute_program(HIT));
        let left = ours.execute(HIT);
        let back = ours.abandon(0);
        good &= left.answer == Answer::Refused(16) && back.depth == 0;
        if matches!(hit, 1 | 2 | 29 | 30 | 31 | 32 | 40) {
            println!(
                "  hit {:>2}: Rust {}, depth {}, saved {}. Here {} after {}, abandoned to depth {}, saved {}",
                hit,
                text(&rust.end),
                rust.observed.frames.len(),
                rust.observed.local_stack.len(),
                left.answer,
                left.count,
                back.depth,
                back.saved.len()
            );
        }
    }
    let rust = oracle::call(&mut *level, 160, false, |l| l.execute_program(MATCH_END));
    let left = ours.execute(MATCH_END);
    println!("  end of the match: Rust {}. Here {} after {}, cell 1 {:08x}", text(&rust.end), left.answer, left.count, left.cells[1]);
    good && matches!(&rust.end, End::Error(e) if e.contains("overflow"))
        && left.answer == Answer::Ended
        && left.cells[1] == 7.0_f32.to_bits()
}

fn text(end: &End) -> String {
    match end {
        End::Done => "ends".into(),
        End::Error(text) => format!("error \"{}\"", text),
        End::Panic(panic) => format!("panic \"{}\"", panic.message),
    }
}
