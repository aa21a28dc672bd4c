//! The library this program is linked with, compared in every way.

use crate::parts::Run;
use compare::damage::{self, Values};
use compare::edges::{self, EDGES};
use compare::generate::stream;
use compare::judge::{Judge, Judged};
use compare::pages::MOST;
use compare::random::Random;
use compare::steps::SHORT;
use compare::{any, lengths, steps};
use second::bytes::encode;

impl Run<'_> {
    pub fn entries(&mut self) {
        self.edges();
        self.sessions();
        self.any_tables();
        self.lengths();
        let mut judged = Judged::default();
        self.single_bytes(&mut judged);
        self.other_damage(&mut judged);
        judged.print();
        self.report
            .holds("damage broke every clause of soundness that bytes can break", judged.every_clause());
        self.pages();
    }

    /// What the parts before compared of the status page.
    fn pages(&mut self) {
        let pages = &self.tally.pages;
        pages.print();
        let sizes = format!("0 to {} rows were lent for the status page, each with every answer", MOST);
        self.report.holds(&sizes, pages.every_size());
        self.report.holds("the status pages showed queues, and those of the record", pages.deep());
    }

    /// The answers are those of document 01, and the tables those of the second program.
    fn edges(&mut self) {
        for (name, text) in EDGES {
            let result = edges::met(text)
                .and_then(|_| steps::compare(&edges::calls(text), self.options.view, &mut self.tally));
            self.report.check(&format!("entries, edge: {}", name), result.map(|_| String::new()));
        }
    }

    /// Calls from boot: the session of document 01, short ones, many, and a long one.
    fn sessions(&mut self) {
        let result = steps::compare(&edges::session(), self.options.view, &mut self.tally);
        self.report.check("entries, the session", result.map(|_| String::new()));
        self.generated("short sessions", &self.seeds(6, 500), |seed| seed as usize % SHORT);
        self.generated("generated calls from boot", &self.seeds(1, 1040), |_| 1000);
        let long = self.amount(60_000);
        self.generated("a long session", &self.seeds(7, 1)[..1], |_| long);
        self.tally.marks.print();
        self.report.holds("the generated calls reach every deep state", self.tally.marks.deep());
    }

    /// A stream of generated calls for each seed.
    fn generated(&mut self, name: &str, seeds: &[u64], length: impl Fn(u64) -> usize) {
        let result = seeds.iter().try_fold(0, |sum, &seed| {
            let calls = stream(seed, length(seed));
            let compared = steps::compare(&calls, self.options.view, &mut self.tally);
            compared.map(|_| sum + calls.len()).map_err(|why| format!("seed {}: {}", seed, why))
        });
        let told = |calls| format!("{} calls, seeds {} to {}", calls, seeds[0], seeds[seeds.len() - 1]);
        self.report.check(&format!("entries, {}", name), result.map(told));
    }

    fn any_tables(&mut self) {
        let rounds = self.amount(100_000);
        let mut random = Random::new(self.options.seed);
        let mut judged = Judged::default();
        let mut judge =
            Judge { view: self.options.view, tally: &mut self.tally, judged: &mut judged, paged: 1 };
        let result = (0..rounds).try_for_each(|_| {
            let (tables, row) = any::tables(&mut random);
            judge.judge_shortly(&encode(&tables, &row), random.next())
        });
        self.report
            .check("entries, a call on any sound tables", result.map(|_| format!("{} tables", rounds)));
        self.report.holds("the tables made directly are sound", judged.sound == judged.total());
    }

    fn lengths(&mut self) {
        for length in lengths::LENGTHS {
            let result = lengths::compare(length, self.options.seed + length as u64, &mut self.tally);
            self.report.check(&format!("entries, length {}", length), result.map(|_| String::new()));
        }
    }

    fn single_bytes(&mut self, judged: &mut Judged) {
        let all = self.seeds(2, if self.options.long { 12 } else { 4 });
        let spread = self.seeds(3, 200);
        let mut judge = Judge { view: self.options.view, tally: &mut self.tally, judged, paged: 8 };
        let mut change = |seeds: &[u64], values: Values| {
            let result = seeds.iter().try_for_each(|&seed| damage::single_bytes(&mut judge, seed, values));
            result.map(|_| format!("{} tables, seeds {} and on", seeds.len(), seeds[0]))
        };
        self.report.check("entries, every change of one byte", change(&all, Values::All));
        self.report.check("entries, each byte changed to some values", change(&spread, Values::Spread));
    }

    fn other_damage(&mut self, judged: &mut Judged) {
        let (several, random) = (self.amount(1000), self.amount(60_000));
        let seed = self.options.seed;
        let mut judge = Judge { view: self.options.view, tally: &mut self.tally, judged, paged: 8 };
        let result = (0..100).try_for_each(|n| damage::several_bytes(&mut judge, seed + n, several));
        self.report
            .check("entries, several bytes changed", result.map(|_| format!("{} times", 100 * several)));
        let result = damage::random_bytes(&mut judge, seed, random);
        self.report.check("entries, random bytes", result.map(|_| format!("{} times", random)));
    }
}
