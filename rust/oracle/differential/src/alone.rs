//! Each of 01's reference answers alone: `load`, the `op_` functions, `enter_function` and `leave_function`. (`execute_program` is what
//! the programs are run by.)

use crate::compare::{Call, Rules, Verdict};
use crate::entities::Lent;
use crate::generate::{self, Case, Kind};
use crate::oracle::{self, End, Level, Variant};
use crate::ours::{Answer, Left, Ours};
use crate::program::{Program, View};
use crate::random::Random;
use crate::report::{grouped, Counts, Tally};
use crate::runs;
use crate::strings::Met;
use changed::switches::{self, Switch};

const RULES: Rules =
    Rules { nan_as_nan: false, entries_ended: 0, ended_adds: false, call_frames: false, counted: false, all_arguments: true };
const UNCHANGED: Rules = Rules { nan_as_nan: true, all_arguments: false, ..RULES };

pub fn run(seed: u64, count: u64) -> bool {
    let mut functions = [
        ("load, of damaged files", Totals::default(), load as Step, count),
        ("the op_ functions and op_return", Totals::default(), statement as Step, count),
        (
            "enter_function and leave_function",
            Totals::default(),
            entries as Step,
            // Lists of up to 70.
            count / 10,
        ),
    ];
    let mut good = true;
    for (name, totals, step, count) in &mut functions {
        for number in 0..*count {
            let mut r = Random::new(seed ^ 0x5eed, number);
            step(totals, &mut r, number);
        }
        println!("{} cases of {}", grouped(*count), name);
        totals.unchanged.print("richter unchanged");
        totals.changed.print("richter with the named differences changed, NaN canonical");
        if totals.opcodes.total() > 0 {
            totals.opcodes.print_range("opcodes");
            totals.strings.print("compared or tested string numbers within R-4's limit:");
        }
        good &= totals.unchanged.unexplained + totals.changed.unexplained == 0;
    }
    good
}

#[derive(Default)]
struct Totals {
    unchanged: Tally,
    changed: Tally,
    opcodes: Counts,
    /// Statements that compared or tested string numbers within R-4's limit, by opcode.
    strings: Counts,
}

type Step = fn(&mut Totals, &mut Random, u64);

/// Something done to a level, and to this machine.
struct Doing<'a> {
    bytes: &'a [u8],
    entered: Option<usize>,
    statement: Option<[i16; 4]>,
    rust: &'a dyn Fn(&mut dyn Level) -> Result<(), String>,
    entities: usize,
    /// Op functions do not move the position, and a statement does; then it isn't compared.
    position: bool,
}

impl Doing<'_> {
    fn verdict(&self, level: &mut dyn Level, rules: Rules, left: &Left) -> (Verdict, bool) {
        let cells = View(self.bytes).cells();
        let mut seen = oracle::call(level, cells, false, |l| (self.rust)(l));
        if !self.position {
            seen.observed.pc = left.position as usize;
        }
        let call = Call {
            view: View(self.bytes),
            entered: self.entered,
            entry_only: self.entered.is_some(),
            statement: self.statement,
            entities: self.entities,
        };
        let verdict = runs::verdict(&call, rules, &seen, left);
        (verdict, seen.end == End::Done)
    }
}

/// A load on its own.
fn load(totals: &mut Totals, r: &mut Random, number: u64) {
    let entities = generate::entities(r);
    let case = Case { kind: Kind::Damaged, bytes: generate::damaged(r, entities), calls: Vec::new(), entities, content: number };
    if runs::reserves_too_much(&case.bytes) {
        (totals.unchanged.left_out).add("the Rust would reserve memory for over 1,048,576 records");
        return;
    }
    let performed = runs::perform(&case);
    let answer = match &performed.load {
        Ok(left) => left.answer,
        Err(number) => Answer::Refused(*number),
    };
    let unchanged = runs::unchanged(&case, &performed);
    report(&mut totals.unchanged, &unchanged[0], answer, number, "load, unchanged");
    let changed = runs::changed(&case, &performed);
    report(&mut totals.changed, &changed[0], answer, number, "load, changed");
}

/// A statement on its own, half of them within function 1, and what this machine did with it.
struct Single {
    bytes: Vec<u8>,
    lent: Lent,
    statement: [i16; 4],
    entered: bool,
    /// What the statement meets of R-4.
    met: Met,
    left: Left,
}

impl Single {
    fn new(r: &mut Random) -> Single {
        let entities = generate::entities(r);
        let program = generate::one_statement(r, entities);
        let bytes = program.bytes();
        let lent = Lent::random(&bytes, entities, r.next());
        let entered = r.percent(50);
        let mut ours = Ours::load(&bytes, &lent).expect("a whole file");
        if entered {
            ours.enter(1);
        }
        let met = ours.met();
        let left = ours.statement();
        Single { bytes, lent, statement: program.statements[0], entered, met, left }
    }

    fn verdict(&self, variant: Variant, rules: Rules) -> Verdict {
        if View(&self.bytes).has_void_globals() {
            return Verdict::VoidGlobals;
        }
        if let Met::Outside(outside) = self.met {
            return Verdict::Outside(outside);
        }
        let mut level = oracle::load_whole(variant, &self.bytes, &self.lent);
        if self.entered {
            level.enter_function(1).expect("function 1");
        }
        let doing = Doing {
            bytes: &self.bytes,
            entered: None,
            statement: Some(self.statement),
            rust: &|level| level.op(self.statement),
            entities: self.lent.number,
            position: self.statement[0] == 43,
        };
        doing.verdict(&mut *level, rules, &self.left).0
    }

    fn changed(&self, on: &[Switch], nan_as_nan: bool) -> Verdict {
        switches::set(on);
        self.verdict(Variant::Changed, Rules { nan_as_nan, ..RULES })
    }
}

fn statement(totals: &mut Totals, r: &mut Random, number: u64) {
    let single = Single::new(r);
    let answer = single.left.answer;
    totals.opcodes.add(format!("{:>2}", single.statement[0]));
    if let Met::Within(opcode) = single.met {
        totals.strings.add(format!("opcode {}", opcode));
    }
    let changed = single.changed(&switches::ALL, false);
    report(&mut totals.changed, &changed, answer, number, "op, changed");
    let unchanged = single.verdict(Variant::Unchanged, UNCHANGED);
    let explained = match (&unchanged, &changed) {
        (_, Verdict::Differs(_)) => None,
        (Verdict::Differs(_), _) => runs::explained_by(|on, nan_as_nan| single.changed(on, nan_as_nan) != changed),
        _ => None,
    };
    match explained {
        Some(causes) => totals.unchanged.named.add(causes),
        None => report(&mut totals.unchanged, &unchanged, answer, number, "op, unchanged"),
    }
}

fn report(tally: &mut Tally, verdict: &Verdict, answer: Answer, number: u64, what: &str) {
    if let Verdict::Differs(text) = verdict {
        println!("UNEXPLAINED case {} ({}): {}", number, what, text);
    }
    tally.add(verdict, answer, "");
}

/// A list of host entries and leavings, up to the first error.
fn entries(totals: &mut Totals, r: &mut Random, number: u64) {
    let program = generate::functions_alone(r);
    let list: Vec<Option<usize>> = entry_list(r, &program);
    switches::set(&switches::ALL);
    list_of_entries(&mut totals.changed, &program, &list, Variant::Changed, number);
    if program.functions.iter().all(|f| f.components() <= 1) {
        list_of_entries(&mut totals.unchanged, &program, &list, Variant::Unchanged, number);
    } else {
        totals.unchanged.left_out.add("argument copying: more than one cell (compared with the changed Rust)");
    }
}

/// Some number of a function to enter, or none to leave; mostly entries at first.
fn entry_list(r: &mut Random, program: &Program) -> Vec<Option<usize>> {
    let length = r.pick(&[2, 5, 12, 40, 70]);
    let functions = program.functions.len();
    (0..length)
        .map(|i| match r.percent(if i < 34 { 80 } else { 40 }) {
            true => Some(r.below(functions + (i % 16 == 15) as usize)),
            false => None,
        })
        .collect()
}

fn list_of_entries(tally: &mut Tally, program: &Program, list: &[Option<usize>], variant: Variant, number: u64) {
    let bytes = program.bytes();
    let lent = Lent::default();
    let mut ours = Ours::load(&bytes, &lent).expect("a whole file");
    let mut level = oracle::load_whole(variant, &bytes, &lent);
    let mut depth = 0;
    for &what in list {
        if what.is_none() && depth == 0 {
            continue;
        }
        let left = match what {
            Some(function) => ours.enter(function),
            None => ours.leave(),
        };
        depth = left.depth;
        let doing = Doing {
            bytes: &bytes,
            entered: what,
            statement: None,
            rust: &|level| match what {
                Some(function) => level.enter_function(function),
                None => level.leave_function(),
            },
            entities: 0,
            position: true,
        };
        let rules = if variant == Variant::Changed { RULES } else { UNCHANGED };
        let (verdict, done) = doing.verdict(&mut *level, rules, &left);
        report(tally, &verdict, left.answer, number, if what.is_some() { "enter" } else { "leave" });
        if !done || !matches!(verdict, Verdict::Same { .. }) {
            break;
        }
    }
}
