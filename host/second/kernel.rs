//! The lists and rescheduling: what the eleven calls are made of.

use crate::row::Join;
use crate::tables::{State, Tables};
use crate::wrong::Wrong;

#[derive(Clone, Copy, PartialEq, Eq, Debug)]
pub enum Answer {
    Done(i32),
    Refused(u8),
}

#[derive(Clone)]
pub struct Kernel {
    pub tables: Tables,
    pub wrong: Wrong,
    /// Who joined a list in this call and in front of whom, in order.
    pub joins: Vec<Join>,
    pub calls: u64,
}

impl Kernel {
    pub fn new(tables: Tables, wrong: Wrong) -> Kernel {
        Kernel { tables, wrong, joins: Vec::new(), calls: 0 }
    }

    pub fn is(&self, wrong: Wrong) -> bool {
        self.wrong == wrong
    }

    pub fn set(&mut self, p: usize, state: State) {
        self.tables.processes[p].state = state;
    }

    /// Behind every entry whose priority is equal or higher.
    pub fn make_ready(&mut self, p: usize) {
        let newest_first = self.is(Wrong::ReadyNewestFirst);
        self.put_ready(p, newest_first);
    }

    fn put_ready(&mut self, p: usize, before_equals: bool) {
        let t = &self.tables;
        let mine = t.priority(p);
        let behind = |q: &usize| t.priority(*q) < mine || before_equals && t.priority(*q) == mine;
        let at = t.ready.iter().position(behind).unwrap_or(t.ready.len());
        let before = t.ready.get(at).copied();
        self.tables.ready.insert(at, p);
        self.set(p, State::Ready);
        self.joins.push(Join { process: p, before });
    }

    pub fn leave_ready(&mut self, p: usize) {
        self.tables.ready.retain(|&q| q != p);
    }

    /// The caller waits at the queue's tail.
    pub fn make_wait(&mut self, p: usize, s: usize) {
        let newest_first = self.is(Wrong::QueueNewestFirst);
        let queue = &mut self.tables.semaphores[s].queue;
        if newest_first {
            queue.insert(0, p);
        } else {
            queue.push(p);
        }
        self.set(p, State::Waiting(s));
        self.joins.push(Join { process: p, before: None });
    }

    pub fn reschedule(&mut self) {
        let first = match self.tables.ready.first() {
            None => return,
            Some(&first) => self.tables.priority(first),
        };
        if let Some(current) = self.tables.current() {
            let mine = self.tables.priority(current);
            if mine > first || self.is(Wrong::KeepsAmongEquals) && mine == first {
                return;
            }
            let keeps_turn = self.is(Wrong::DisplacedFirst) && mine < first;
            self.put_ready(current, keeps_turn || self.is(Wrong::ReadyNewestFirst));
        }
        let next = self.tables.ready.remove(0);
        self.set(next, State::Current);
    }

    /// The head of the queue becomes ready.
    pub fn release_one(&mut self, s: usize) {
        // empty only in a wrong kernel
        if !self.tables.semaphores[s].queue.is_empty() {
            let p = self.tables.semaphores[s].queue.remove(0);
            self.make_ready(p);
        }
    }

    /// All waiters become ready in queue order; tells how many there were.
    pub fn release_all(&mut self, s: usize) -> usize {
        let mut waiters = std::mem::take(&mut self.tables.semaphores[s].queue);
        if self.is(Wrong::ReleaseBackwards) {
            waiters.reverse();
        }
        for &p in &waiters {
            self.make_ready(p);
            if self.is(Wrong::DeleteReschedulesEach) {
                self.reschedule();
            }
        }
        waiters.len()
    }
}
