//! Any bytes judged: 15 exactly when the second program finds them unsound, with
//! not a byte changed, and else a page and a call as the second program makes them.

use crate::entries::Lent;
use crate::generate::one_call;
use crate::pages;
use crate::shrink::shrink;
use crate::steps::{one, text, View};
use crate::tally::Tally;
use second::bytes::{decode_sound, encode, Bytes};
use second::layout::{COUNT, NEXT_SEMAPHORE, ORDER, USED};
use second::model::{unsound, Call, Model};
use second::row::Row;
use second::sound::CLAUSES;
use second::tables::{Tables, PROCESSES};
use std::collections::BTreeMap;

/// How often each clause was the first that did not hold, and how often all did.
#[derive(Default)]
pub struct Judged {
    pub clauses: BTreeMap<&'static str, u64>,
    pub sound: u64,
}

impl Judged {
    pub fn total(&self) -> u64 {
        self.sound + self.clauses.values().sum::<u64>()
    }

    /// Every clause was broken that bytes can break: lists read off the row hold
    /// those who belong to them, whatever the bytes.
    pub fn every_clause(&self) -> bool {
        let by_reading = |clause: &str| clause.contains("holds");
        CLAUSES.iter().all(|clause| by_reading(clause.0) || self.clauses.contains_key(clause.0))
    }

    pub fn print(&self) {
        println!("damaged tables judged: {}, still sound: {}; else it fails that", self.total(), self.sound);
        for (clause, n) in &self.clauses {
            println!("  {:>8} {}", n, clause);
        }
    }
}

/// The call to make: one that fits the tables, by a seed, or a given one.
#[derive(Clone, Copy)]
pub enum Make {
    Chosen(u64),
    Given(Call),
}

/// What went wrong, and with which call.
pub struct Failure {
    pub call: Call,
    pub why: String,
}

impl Failure {
    fn at(call: Call, why: String) -> Result<(), Failure> {
        Err(Failure { call, why: format!("call {}: {}", text(call), why) })
    }
}

pub struct Judge<'a> {
    pub view: View,
    pub tally: &'a mut Tally,
    pub judged: &'a mut Judged,
    /// The status page is compared on one of so many tables.
    pub paged: u64,
}

/// A judgement on its own, whose counts nobody wants.
pub fn judge_alone(view: View, bytes: &[u8], call: Call) -> Result<(), Failure> {
    let mut judge = Judge { view, tally: &mut Tally::default(), judged: &mut Judged::default(), paged: 1 };
    judge.judge(bytes, Make::Given(call))
}

impl Judge<'_> {
    /// A call that is given is judged again, so a page that failed must fail again.
    fn page_due(&self, make: Make) -> bool {
        match make {
            Make::Chosen(seed) => (seed >> 32) % self.paged == 0,
            Make::Given(_) => true,
        }
    }

    /// The check, the page and one call on any bytes.
    pub fn judge(&mut self, bytes: &[u8], make: Make) -> Result<(), Failure> {
        let mut lent = Lent::new(bytes, bytes[0] as usize % 8);
        match decode_sound(bytes) {
            Err(clause) => {
                *self.judged.clauses.entry(clause).or_insert(0) += 1;
                self.refused(&mut lent, bytes, make, clause)
            }
            Ok((tables, row)) => {
                self.judged.sound += 1;
                self.called(&mut lent, Model::met(tables, row), make)
            }
        }
    }

    fn refused(&mut self, lent: &mut Lent, bytes: &[u8], make: Make, clause: &str) -> Result<(), Failure> {
        let call = match make {
            Make::Chosen(seed) => Call { call: seed as u8 % 16, a: (seed >> 8) as i32 % 128, b: 0 },
            Make::Given(call) => call,
        };
        let checked = lent.check();
        let answer = lent.call(call.call, call.a, call.b);
        self.tally.add(call.call, 15);
        if checked != 15 {
            return Failure::at(call, format!("the check answers {}, but it fails that {}", checked, clause));
        }
        if answer != unsound() {
            return Failure::at(call, format!("the answer is {:012x}, but it fails that {}", answer, clause));
        }
        if lent.bytes() != bytes || !lent.fence_untouched() {
            return Failure::at(call, "the answer is 15 and a byte is changed".into());
        }
        if self.page_due(make) {
            pages::of_unsound(lent, call, &mut self.tally.pages).or_else(|why| Failure::at(call, why))?;
        }
        Ok(())
    }

    fn called(&mut self, lent: &mut Lent, model: Model, make: Make) -> Result<(), Failure> {
        let (call, mut model) = match make {
            Make::Chosen(seed) => one_call(model, seed),
            Make::Given(call) => (call, model),
        };
        if lent.check() != 0 {
            return Failure::at(call, "the check answers 15, but the tables are sound".into());
        }
        if self.page_due(make) {
            let page = pages::of_sound(lent, &model, call, &mut self.tally.pages);
            page.or_else(|why| Failure::at(call, format!("before it, {}", why)))?;
        }
        one(lent, &mut model, call, self.view, self.tally).or_else(|why| Failure::at(call, why))
    }

    /// As `judge`; bytes that fail are told as few changes of the boot tables.
    pub fn judge_shortly(&mut self, bytes: &Bytes, seed: u64) -> Result<(), String> {
        self.judge(bytes, Make::Chosen(seed)).map_err(|failure| {
            let judged = |units: &[Unit]| judge_alone(self.view, &changed(units), failure.call);
            let short = shrink(&units(bytes), 5_000, &mut |units| judged(units).is_err());
            let why = judged(&short).err().map_or(failure.why, |failure| failure.why);
            let changes = short.concat();
            format!("{}\n  the fewest changes found of the boot tables, (byte, value): {:?}", why, changes)
        })
    }
}

/// Bytes that change together: those of one process, of one semaphore, the row.
type Unit = Vec<(usize, u8)>;

fn units(bytes: &Bytes) -> Vec<Unit> {
    let boot = changed(&[]);
    let mut units: BTreeMap<(u8, usize), Unit> = BTreeMap::new();
    for at in (0..bytes.len()).filter(|&at| bytes[at] != boot[at]) {
        units.entry(owner(at)).or_default().push((at, bytes[at]));
    }
    units.into_iter().map(|(_, unit)| unit).collect()
}

fn owner(at: usize) -> (u8, usize) {
    match at {
        _ if at < USED => (0, at % PROCESSES),
        _ if at < COUNT => (1, at - USED),
        _ if at < ORDER => (1, (at - COUNT) / 4),
        _ if at < NEXT_SEMAPHORE => (2, 0),
        _ => (3, at),
    }
}

fn changed(units: &[Unit]) -> Bytes {
    let mut bytes = encode(&Tables::boot(), &Row::boot());
    units.iter().flatten().for_each(|&(at, value)| bytes[at] = value);
    bytes
}
