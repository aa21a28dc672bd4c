//! The record of calls and demand 3, worked out from calls, callers and answers alone.

use crate::kernel::Answer;
use crate::page::Waiter;
use crate::tables::{Tables, SEMAPHORES};

/// One call of the record. Refused calls add nothing.
pub struct Entry {
    pub caller: usize,
    pub call: u8,
    pub a: i32,
    pub b: i32,
    pub answer: Answer,
}

/// One semaphore since it was last made or reset.
#[derive(Clone, Debug)]
struct History {
    /// The count it began with, less waits, plus signals, plus numbers struck.
    sum: i64,
    numbered: u64,
    /// Numbers neither struck nor taken, rising, each with the process that waited.
    remaining: Vec<(u64, usize)>,
}

#[derive(Clone)]
pub struct Record {
    histories: Vec<Option<History>>,
    /// An accepted wait had process 0 for its caller.
    null_waited: bool,
}

impl History {
    fn begun(count: i32) -> History {
        History { sum: count as i64, numbered: 0, remaining: Vec::new() }
    }

    fn wait(&mut self, caller: usize) {
        self.sum -= 1;
        if self.sum < 0 {
            self.numbered += 1;
            self.remaining.push((self.numbered, caller));
        }
    }

    fn signal(&mut self) {
        if self.sum < 0 && !self.remaining.is_empty() {
            self.remaining.remove(0);
        }
        self.sum += 1;
    }

    fn kill(&mut self, process: usize) {
        let before = self.remaining.len();
        self.remaining.retain(|&(_, p)| p != process);
        self.sum += (before - self.remaining.len()) as i64;
    }
}

impl Record {
    pub fn boot() -> Record {
        Record { histories: vec![None; SEMAPHORES], null_waited: false }
    }

    pub fn add(&mut self, entry: &Entry) {
        let value = match entry.answer {
            Answer::Done(value) => value,
            Answer::Refused(_) => return,
        };
        self.null_waited |= entry.call == 0x01 && entry.caller == 0;
        match entry.call {
            0x01 => self.history(entry.a).wait(entry.caller),
            0x02 => self.history(entry.a).signal(),
            0x03 => self.histories[value as usize] = Some(History::begun(entry.a)),
            0x04 => self.histories[entry.a as usize] = None,
            0x05 => self.histories[entry.a as usize] = Some(History::begun(entry.b)),
            0x09 => self.histories.iter_mut().flatten().for_each(|h| h.kill(entry.a as usize)),
            _ => (),
        }
    }

    fn history(&mut self, a: i32) -> &mut History {
        self.histories[a as usize].as_mut().expect("an accepted call names a made semaphore")
    }

    /// Every process still blocked, by semaphore, and of one semaphore the oldest first.
    pub fn still_blocked(&self) -> Vec<Waiter> {
        let mut blocked = Vec::new();
        for (awaited, history) in self.histories.iter().enumerate() {
            let remaining = history.as_ref().map_or(&[][..], |history| &history.remaining);
            let waiter = |(&(_, number), place)| Waiter { awaited, place, number };
            blocked.extend(remaining.iter().zip(1..).map(waiter));
        }
        blocked
    }

    /// Process 0 took no permit.
    pub fn null_took_none(&self) -> bool {
        !self.null_waited
    }

    /// Demand 3: every semaphore's count and queue are those of the record.
    pub fn agrees(&self, tables: &Tables) -> bool {
        let same = |(s, history): (usize, &Option<History>)| {
            let semaphore = &tables.semaphores[s];
            match history {
                None => !semaphore.used && semaphore.queue.is_empty(),
                Some(history) => {
                    let waiting = history.remaining.iter().map(|&(_, p)| p);
                    let count = semaphore.count as i64;
                    semaphore.used && count == history.sum && waiting.eq(semaphore.queue.iter().copied())
                }
            }
        };
        self.histories.iter().enumerate().all(same)
    }
}
