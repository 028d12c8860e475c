//! A case through both variants of the Rust and through this machine.

use crate::classes::Class;
use crate::compare::{compare, compare_load, stopped, wraps_an_address, Call, Rules, Verdict};
use crate::entities::{self, Lent};
use crate::generate::Case;
use crate::oracle::{self, End, Level, Seen, Variant};
use crate::ours::{Answer, Left, Ours};
use crate::program::{Lump, View};
use crate::strings::{self, Outside, Trace};
use changed::switches::{self, Switch};
use std::cell::Cell;

/// What came of a case, for one variant: the verdict of the load, then of each call.
pub type Verdicts = Vec<Verdict>;

/// What this machine did with a case.
pub struct Performed {
    pub lent: Lent,
    pub load: Result<Left, u32>,
    /// Each call up to the first that did not end. One that is outside R-4's limit is there up to the statement that puts it outside.
    pub calls: Vec<Left>,
    /// Of each call, what its EqS, NeS and NotS met.
    pub traces: Vec<Trace>,
    /// Whether each run gave what its statements give one by one.
    pub as_stepped: bool,
}

pub fn perform(case: &Case) -> Performed {
    let lent = case.lent();
    let (calls, traces) = (Vec::new(), Vec::new());
    match Ours::load(&case.bytes, &lent) {
        Err(number) => Performed { lent, load: Err(number), calls, traces, as_stepped: true },
        Ok(mut ours) => {
            let load = Ok(ours.left(Answer::Completed, 0));
            let mut performed = Performed { lent, load, calls, traces, as_stepped: true };
            perform_calls(case, &mut ours, &mut performed);
            performed
        }
    }
}

fn perform_calls(case: &Case, ours: &mut Ours, performed: &mut Performed) {
    let watched = strings::in_file(&View(&case.bytes));
    for &function in &case.calls {
        let before = watched.then(|| ours.clone());
        let mut left = ours.execute(function);
        let mut trace = Trace::default();
        if let Some(mut stepping) = before {
            let (stepped, met) = stepping.watch(function);
            trace = met;
            if trace.outside.is_some() {
                left = stepped;
            } else {
                performed.as_stepped &= left == stepped;
            }
        }
        let goes_on = left.answer == Answer::Ended;
        performed.calls.push(left);
        performed.traces.push(trace);
        if !goes_on {
            break;
        }
    }
}

/// The Rust reserves memory by these counts before it reads; where it can't be had the process ends, which no one can catch.
pub fn reserves_too_much(bytes: &[u8]) -> bool {
    let view = View(bytes);
    [Lump::Functions, Lump::Statements, Lump::Cells].iter().any(|&lump| view.count(lump) > 1_048_576)
}

/// Whether every name is ASCII and ends in a zero byte, so that a log message of the Rust can't panic.
pub fn names_are_texts(view: &View) -> bool {
    match view.strings() {
        Some(strings) => strings.is_ascii() && strings.last() == Some(&0),
        None => false,
    }
}

pub fn rules(variant: Variant, nan_as_nan: bool) -> Rules {
    let unchanged = variant == Variant::Unchanged;
    Rules {
        nan_as_nan: unchanged || nan_as_nan,
        entries_ended: 0,
        ended_adds: unchanged,
        call_frames: true,
        counted: true,
        all_arguments: !unchanged,
    }
}

/// What is tallied of the runs by the changed Rust with all switches on, each once.
#[derive(Clone, Copy)]
enum Tallied {
    Uncounted,
    Rounded,
    Wrote,
    MetStrings,
    Outside,
    EqS,
    NeS,
    NotS,
}

const TALLIES: [&str; 8] = [
    "without a known count of statements: a name is no text, and counting would convert it",
    "equal, with calls of fabs, floor, ceil or rint",
    "equal, and entity cells were changed",
    "came to an EqS, NeS or NotS that compared or tested string numbers",
    "of these outside R-4's limit: left out from that statement on, up to it equal",
    "equal, with an EqS that compared",
    "equal, with a NeS that compared",
    "equal, with a NotS that tested",
];

thread_local! {
    static TALLYING: Cell<bool> = const { Cell::new(false) };
    static TALLY: Cell<[u64; TALLIES.len()]> = const { Cell::new([0; TALLIES.len()]) };
}

fn tally(what: Tallied, which: bool) {
    if which && TALLYING.with(Cell::get) {
        TALLY.with(|tally| {
            let mut counts = tally.get();
            counts[what as usize] += 1;
            tally.set(counts);
        });
    }
}

/// How many runs, and what of them.
pub fn tallies() -> impl Iterator<Item = (u64, &'static str)> {
    TALLY.with(Cell::get).into_iter().zip(TALLIES)
}

/// The Rust's level, and a second one that counts where counting could panic.
struct Levels {
    level: Box<dyn Level>,
    counting: Option<Box<dyn Level>>,
    names_are_texts: bool,
}

impl Levels {
    /// A call, and whether its count of statements is known.
    fn execute(&mut self, cells: usize, function: usize) -> (Seen, bool) {
        if self.names_are_texts {
            let seen = oracle::call(&mut *self.level, cells, true, |l| l.execute_program(function));
            return (seen, true);
        }
        let mut seen = oracle::call(&mut *self.level, cells, false, |l| l.execute_program(function));
        let Some(counting) = &mut self.counting else {
            return (seen, false);
        };
        let counted = oracle::call(&mut **counting, cells, true, |l| l.execute_program(function));
        if counted.end != seen.end {
            self.counting = None;
            return (seen, false);
        }
        seen.fetched = counted.fetched;
        seen.builtins_at = counted.builtins_at;
        (seen, true)
    }

    /// A call that is stopped where so many statements are fetched. None where a name, which counting converts, may have ended it before.
    fn execute_until(&mut self, cells: usize, function: usize, fetched: u64) -> Option<Seen> {
        if self.names_are_texts {
            return Some(oracle::execute_until(&mut *self.level, cells, fetched, function));
        }
        let counting = self.counting.as_mut()?;
        let seen = oracle::execute_until(&mut **counting, cells, fetched, function);
        seen.stopped().then_some(seen)
    }
}

/// The verdicts of a case for a variant; of the changed one with the switches that are on.
pub fn verdicts(case: &Case, performed: &Performed, variant: Variant, rules: Rules) -> Verdicts {
    let view = View(&case.bytes);
    let cells = view.cells();
    let loaded = oracle::load(variant, &case.bytes, &performed.lent);
    let ours = performed.load.as_ref().map_err(|&n| n);
    let mut level = match loaded {
        Err(end) => return vec![compare_load(&view, Err(&end), ours)],
        Ok(level) => level,
    };
    let seen = oracle::call(&mut *level, cells, false, |_| Ok(()));
    let mut all = vec![compare_load(&view, Ok(&seen), ours)];
    if !performed.calls.is_empty() && view.has_void_globals() {
        all.push(Verdict::VoidGlobals);
        return all;
    }
    let names_are_texts = names_are_texts(&view);
    let counting = if names_are_texts { None } else { oracle::load(variant, &case.bytes, &performed.lent).ok() };
    let mut levels = Levels { level, counting, names_are_texts };
    for (i, &function) in case.calls.iter().enumerate().take(performed.calls.len()) {
        let call =
            Call { view: View(&case.bytes), entered: Some(function), entry_only: false, statement: None, entities: performed.lent.number };
        let rules = Rules { entries_ended: if rules.ended_adds { i as i64 } else { 0 }, ..rules };
        let (verdict, goes_on) = match performed.traces[i].outside {
            Some(outside) => (outside_r4(&mut levels, &call, rules, &performed.calls[i], outside), false),
            None => one_call(&mut levels, &call, rules, performed, i),
        };
        all.push(verdict);
        if !goes_on {
            break;
        }
    }
    all
}

/// A call within R-4's limit, and whether the next one can be compared too.
fn one_call(levels: &mut Levels, call: &Call, rules: Rules, performed: &Performed, i: usize) -> (Verdict, bool) {
    let (left, trace) = (&performed.calls[i], &performed.traces[i]);
    let (seen, counted) = levels.execute(call.view.cells(), call.entered.unwrap_or(0));
    let verdict = match performed.as_stepped {
        true => verdict(call, Rules { counted, ..rules }, &seen, left),
        false => Verdict::Differs("the run isn't what its statements give one by one".into()),
    };
    let equal = matches!(verdict, Verdict::Same { .. });
    tally(Tallied::Uncounted, !counted);
    tally(Tallied::Rounded, equal && !seen.builtins_at.is_empty());
    tally(Tallied::Wrote, equal && left.entities != performed.lent.cells);
    tally(Tallied::MetStrings, trace.any());
    tally(Tallied::EqS, equal && trace.eq_s);
    tally(Tallied::NeS, equal && trace.ne_s);
    tally(Tallied::NotS, equal && trace.not_s);
    let goes_on = verdict == Verdict::Same { traces: false } && seen.end == End::Done;
    (verdict, goes_on)
}

/// A call outside R-4's limit. The Rust must come to the same statement after as many others, and everything be equal there.
fn outside_r4(levels: &mut Levels, call: &Call, rules: Rules, left: &Left, outside: Outside) -> Verdict {
    let until = levels.execute_until(call.view.cells(), call.entered.unwrap_or(0), left.count + 1);
    let verdict = match &until {
        Some(seen) => set_apart(call, rules, seen, left, stopped(rules, seen, left, outside)),
        None => Verdict::Outside(outside),
    };
    tally(Tallied::Uncounted, until.is_none());
    tally(Tallied::MetStrings, true);
    tally(Tallied::Outside, verdict == Verdict::Outside(outside));
    verdict
}

/// The comparison, with the addresses that the Rust wraps, and what it does otherwise with entities, set apart.
pub fn verdict(call: &Call, rules: Rules, seen: &Seen, left: &Left) -> Verdict {
    if !rules.counted && matches!(left.answer, Answer::Builtin(_)) {
        return Verdict::LeftOut(Class::HandedOver);
    }
    set_apart(call, rules, seen, left, compare(call, rules, seen, left))
}

fn set_apart(call: &Call, rules: Rules, seen: &Seen, left: &Left, verdict: Verdict) -> Verdict {
    match verdict {
        Verdict::Differs(_) if wraps_an_address(call, left) => {
            Verdict::ByDesign("cells of an entry past 32,767, which the Rust wraps to 16 bits")
        }
        Verdict::Differs(text) => match entities::by_design(call, rules.counted, seen, left) {
            Some(name) => Verdict::ByDesign(name),
            None => Verdict::Differs(text),
        },
        verdict => verdict,
    }
}

/// The changed Rust with all switches on.
pub fn changed(case: &Case, performed: &Performed) -> Verdicts {
    switches::set(&switches::ALL);
    TALLYING.with(|t| t.set(true));
    let verdicts = verdicts(case, performed, Variant::Changed, rules(Variant::Changed, false));
    TALLYING.with(|t| t.set(false));
    verdicts
}

pub fn unchanged(case: &Case, performed: &Performed) -> Verdicts {
    verdicts(case, performed, Variant::Unchanged, rules(Variant::Unchanged, true))
}

/// The named differences without whose change the verdicts are others; where it takes several at once, the fewest that do.
pub fn causes(case: &Case, performed: &Performed, with_all: &Verdicts) -> Option<String> {
    explained_by(|on, nan_as_nan| {
        switches::set(on);
        let rules = rules(Variant::Changed, nan_as_nan);
        verdicts(case, performed, Variant::Changed, rules) != *with_all
    })
}

/// Tries the sets of named differences, smaller ones first. `differs` says whether something is another with these switches on.
pub fn explained_by(differs: impl Fn(&[Switch], bool) -> bool) -> Option<String> {
    let named = [Switch::Arguments, Switch::Return, Switch::NotV, Switch::NaN];
    let needed = |off: &Vec<Switch>| {
        let on: Vec<Switch> = (switches::ALL.into_iter()).filter(|s| !off.contains(s)).collect();
        differs(&on, off.contains(&Switch::NaN))
    };
    let mut subsets: Vec<Vec<Switch>> =
        (1..16_u32).map(|bits| (0..4).filter(move |i| bits >> i & 1 == 1)).map(|members| members.map(|i| named[i]).collect()).collect();
    subsets.sort_by_key(Vec::len);
    let names = |set: &Vec<Switch>, joined: &str| {
        let names: Vec<String> = set.iter().map(|s| format!("{:?}", s)).collect();
        names.join(joined)
    };
    let (alone, together) = subsets.split_at(named.len());
    let alone: Vec<Switch> = (alone.iter().filter(|off| needed(off))).map(|off| off[0]).collect();
    if !alone.is_empty() {
        return Some(names(&alone, " and "));
    }
    let together = together.iter().find(|off| needed(off))?;
    Some(names(together, " only together with "))
}

/// With all switches off the changed Rust is the unchanged one: whether it gives the same verdicts.
pub fn copy_is_faithful(case: &Case, performed: &Performed, without: &Verdicts) -> bool {
    switches::set(&[]);
    let rules = rules(Variant::Unchanged, true);
    let with = verdicts(case, performed, Variant::Changed, rules);
    // The texts of differences name lines, and the copy's are others.
    let same = |(a, b): (&Verdict, &Verdict)| a == b || matches!((a, b), (Verdict::Differs(_), Verdict::Differs(_)));
    with.len() == without.len() && with.iter().zip(without).all(same)
}
