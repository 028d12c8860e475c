//! Counts, and how they are printed.

use crate::compare::Verdict;
use crate::ours::Answer;
use std::collections::BTreeMap;

#[derive(Default)]
pub struct Counts(BTreeMap<String, u64>);

impl Counts {
    pub fn add(&mut self, name: impl Into<String>) {
        *self.0.entry(name.into()).or_default() += 1;
    }

    pub fn total(&self) -> u64 {
        self.0.values().sum()
    }

    /// By name, each on a line of its own.
    pub fn print(&self, title: &str) {
        println!("    {} {}", grouped(self.total()), title);
        for (name, count) in &self.0 {
            println!("      {:>9}  {}", grouped(*count), name);
        }
    }
}

impl Counts {
    /// How many names, and the least and the greatest count.
    pub fn print_range(&self, title: &str) {
        let least = self.0.values().min().copied().unwrap_or(0);
        let most = self.0.values().max().copied().unwrap_or(0);
        let (least, most) = (grouped(least), grouped(most));
        println!("    {} {}, {} to {} times each", self.0.len(), title, least, most);
    }
}

/// 12345 as 12,345.
pub fn grouped(number: u64) -> String {
    let digits = number.to_string();
    let mut text = String::new();
    for (i, digit) in digits.chars().enumerate() {
        if i > 0 && (digits.len() - i).is_multiple_of(3) {
            text.push(',');
        }
        text.push(digit);
    }
    text
}

/// Of one variant of the Rust, or of one of its functions.
#[derive(Default)]
pub struct Tally {
    /// Equal, by what this machine answered.
    pub compared: Counts,
    /// Of these, where the Rust's error left something behind.
    pub traces: u64,
    pub other_numbers: Counts,
    pub left_out: Counts,
    pub outside: Counts,
    /// Left out for void global definitions.
    pub void_globals: u64,
    pub by_design: Counts,
    /// Differences that one or more of the named ones explain.
    pub named: Counts,
    pub unexplained: u64,
}

impl Tally {
    /// All but a difference, which the caller explains first.
    pub fn add(&mut self, verdict: &Verdict, answer: Answer, what: &str) {
        match verdict {
            Verdict::Same { traces } => {
                self.compared.add(format!("{}{}", what, answer));
                self.traces += *traces as u64;
            }
            Verdict::OtherNumber(rusts, ours) => (self.other_numbers).add(format!("{}{} here, in the Rust what is {}", what, ours, rusts)),
            Verdict::LeftOut(class) => {
                let answer = match answer {
                    Answer::Builtin(_) => "builtin".to_string(),
                    Answer::Opcode(_) => "opcode".to_string(),
                    answer => answer.to_string(),
                };
                self.left_out.add(format!("{} (here: {}{})", class.name(), what, answer))
            }
            Verdict::Outside(outside) => self.outside.add(outside.name()),
            Verdict::VoidGlobals => self.void_globals += 1,
            Verdict::ByDesign(name) => self.by_design.add(*name),
            Verdict::Differs(_) => self.unexplained += 1,
        }
    }

    pub fn print(&self, title: &str) {
        println!("  {}", title);
        self.compared.print("compared, equal; by answer:");
        println!("    {} of these with traces in the Rust, excepted", grouped(self.traces));
        if self.other_numbers.total() > 0 {
            self.other_numbers.print("refused by both, by another number:");
        }
        if self.left_out.total() > 0 {
            self.left_out.print("left out: the Rust panics, or hands to the host:");
        }
        if self.void_globals > 0 {
            println!("    {} left out: void global definitions, which R-5 keeps the runs from", grouped(self.void_globals));
        }
        if self.outside.total() > 0 {
            self.outside.print("outside R-4's limit; runs are left out from that statement on, and equal up to it:");
        }
        if self.named.total() > 0 {
            self.named.print("differences by pr_exec.c's way or NaN, by what explains them:");
        }
        if self.by_design.total() > 0 {
            self.by_design.print("differences by design:");
        }
        println!("    {} unexplained", grouped(self.unexplained));
    }
}
