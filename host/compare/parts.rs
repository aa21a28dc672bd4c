//! The parts of a run, and how much of each.

use crate::options::Options;
use compare::bench;
use compare::edges::{SESSION, SESSION_ANSWERS};
use compare::inputs::{self, Input};
use compare::lines;
use compare::report::Report;
use compare::steps::View;
use compare::streams::of_kind;
use compare::tally::{Tally, NUMBERS};
use compare::wrongs::caught;
use second::layout::LAST_CALL;
use second::wrong::KERNELS;

/// The refusals that name a state: the call, the number.
const BY_STATE: [(usize, usize); 5] = [(0x07, 17), (0x07, 18), (0x07, 19), (0x08, 9), (0x08, 19)];

pub struct Run<'a> {
    pub options: &'a Options,
    pub report: Report,
    pub tally: Tally,
}

pub fn run(options: &Options) -> bool {
    if let Some((kind, length)) = options.stream {
        print!("{}", String::from_utf8_lossy(&lines::of_calls(&of_kind(kind, options.seed, length))));
        return true;
    }
    let mut run = Run { options, report: Report::new(options.stop), tally: Tally::default() };
    println!("seed {}", options.seed);
    for part in &options.parts {
        match part.as_str() {
            "entries" => run.entries(),
            "bench" => run.bench(),
            "wrong" => run.wrong(),
            other => run.report.check(other, Err("no such part".into())),
        }
    }
    run.occurred();
    !run.report.failed()
}

impl Run<'_> {
    /// How many of something, by the switches.
    pub fn amount(&self, ordinary: usize) -> usize {
        let wanted = if self.options.long { 10 * ordinary } else { ordinary };
        (wanted / self.options.scale).max(1)
    }

    /// Seeds of a part's own.
    pub fn seeds(&self, part: u64, ordinary: usize) -> Vec<u64> {
        let first = self.options.seed * 1_000_000 + part * 100_000;
        (0..self.amount(ordinary) as u64).map(|n| first + n).collect()
    }

    fn inputs(&self) -> Vec<Input> {
        inputs::all(&self.seeds(4, 20), &self.seeds(5, 4))
    }

    fn bench(&mut self) {
        let command = &self.options.bench;
        let found = bench::run(command, SESSION);
        let right = found.map_or(false, |found| found == SESSION_ANSWERS);
        self.report.holds("bench, the session has the answers of document 01", right);
        for input in self.inputs() {
            let shorten = !self.report.failed();
            let result = bench::compare(command, &input, &mut self.tally, shorten);
            self.report.check(&format!("bench, {}", input.name), result);
        }
    }

    fn wrong(&mut self) {
        let inputs = self.inputs();
        for &(wrong, text) in &KERNELS[1..] {
            let name = format!("wrong kernel {:?}, {}", wrong, text);
            self.report.check(&name, caught(wrong, &inputs));
        }
    }

    /// Every call and every refusal that the parts run can show did occur.
    fn occurred(&mut self) {
        let ran = |part: &str| self.options.parts.iter().any(|name| name == part);
        let (entries, bench) = (ran("entries"), ran("bench"));
        if !entries && !bench {
            return;
        }
        self.tally.print();
        let calls = self.tally.done[1..].iter().all(|&done| done > 0);
        self.report.holds(&format!("every call 01 to {:02x} was done", LAST_CALL), calls);
        let shown = |number: &usize| match number {
            12 => bench,
            15 => entries,
            16 => false,
            _ => true,
        };
        let refusals = (1..NUMBERS).filter(shown).all(|number| self.tally.numbers[number] > 0);
        self.report.holds("every refusal that can be shown was given", refusals);
        let named = BY_STATE.iter().all(|&(call, number)| self.tally.refused[call][number] > 0);
        self.report.holds("resume and suspend met every wrong state", named);
        if entries && self.options.scale == 1 && self.options.view == View::Bytes {
            let million = self.tally.compared >= 1_000_000;
            self.report.holds("at least a million calls were compared", million);
        }
    }
}
