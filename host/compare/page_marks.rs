//! How often status pages were compared, with how many rows lent, and what they showed.

use crate::pages::MOST;
use second::page::Waiter;
use second::tables::PROCESSES;

/// How often, by the number of rows lent.
type ByLent = [u64; MOST + 1];

pub struct PageMarks {
    done: ByLent,
    unsound: ByLent,
    too_few: ByLent,
    by_record: u64,
    waiters: u64,
    behind: u64,
}

impl Default for PageMarks {
    fn default() -> PageMarks {
        let never = [0; MOST + 1];
        PageMarks { done: never, unsound: never, too_few: never, by_record: 0, waiters: 0, behind: 0 }
    }
}

fn sum(given: &ByLent) -> u64 {
    given.iter().sum()
}

impl PageMarks {
    pub fn see(&mut self, lent: usize, answer: u64, shown: &[Waiter], by_record: bool) {
        match answer >> 40 {
            0 => self.done[lent] += 1,
            15 => self.unsound[lent] += 1,
            _ => self.too_few[lent] += 1,
        }
        self.by_record += by_record as u64;
        self.waiters += shown.len() as u64;
        self.behind += shown.iter().filter(|waiter| waiter.place > 1).count() as u64;
    }

    pub fn print(&self) {
        let (done, unsound, too_few) = (sum(&self.done), sum(&self.unsound), sum(&self.too_few));
        println!(
            "status pages compared: {}; refusals 0: {}, 15: {}, 16: {}",
            done + unsound + too_few,
            done,
            unsound,
            too_few
        );
        println!(
            "  held to the record {}, rows of waiters {}, of them at a place above 1 {}",
            self.by_record, self.waiters, self.behind
        );
    }

    /// Each number of rows was lent, and met every answer that it can: process 0 is live,
    /// so no page has 0 rows and none has more than there are slots.
    pub fn every_size(&self) -> bool {
        let all = |given: &[u64]| given.iter().all(|&times| times > 0);
        all(&self.unsound) && all(&self.done[1..]) && all(&self.too_few[..PROCESSES])
    }

    pub fn deep(&self) -> bool {
        self.by_record > 0 && self.waiters > 0 && self.behind > 0
    }
}
