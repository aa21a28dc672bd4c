//! Calls chosen with the tables of the second program in view.

use crate::random::Random;
use second::layout::LAST_CALL;
use second::model::{Call, Model};
use second::tables::{State, HIGHEST, PROCESSES, SEMAPHORES};

pub const TOP: i32 = i32::MAX;

pub struct Writer {
    pub random: Random,
    pub model: Model,
    pub calls: Vec<Call>,
}

impl Writer {
    pub fn new(model: Model, seed: u64) -> Writer {
        Writer { random: Random::new(seed), model, calls: Vec::new() }
    }

    /// Makes a call and notes it. The second program's own soundness and demand 3
    /// are checked after every one.
    pub fn call(&mut self, call: u8, a: i32, b: i32) -> (u8, i32) {
        let call = Call { call, a, b };
        self.calls.push(call);
        let answer = self.model.step(call);
        if let Some(fault) = self.model.fault() {
            panic!("the second program's own tables after {:?}: {}", self.calls, fault);
        }
        answer
    }

    pub fn in_state(&self, state: fn(State) -> bool) -> Vec<usize> {
        self.model.tables().numbers_in(state)
    }

    pub fn used(&self) -> Vec<usize> {
        (0..SEMAPHORES).filter(|&s| self.model.tables().semaphores[s].used).collect()
    }

    /// Mostly one of the first few used, so that queues grow.
    pub fn semaphore(&mut self) -> i32 {
        let used = self.used();
        match self.random.below(20) {
            0 => self.random.below(SEMAPHORES + 2) as i32 - 1,
            _ if used.is_empty() => 0,
            1..=6 => self.random.pick(&used) as i32,
            _ => self.random.pick(&used[..used.len().min(3)]) as i32,
        }
    }

    pub fn process(&mut self, state: fn(State) -> bool) -> i32 {
        let there = self.in_state(state);
        if there.is_empty() || self.random.one_in(16) {
            self.random.below(PROCESSES + 2) as i32 - 1
        } else {
            self.random.pick(&there) as i32
        }
    }

    pub fn priority(&mut self) -> i32 {
        match self.random.below(12) {
            0 => self.random.below(HIGHEST as usize + 3) as i32 - 1,
            1 => HIGHEST as i32,
            2 => 1,
            _ => self.random.pick(&[10, 20, 20, 20, 30]),
        }
    }

    pub fn count(&mut self) -> i32 {
        match self.random.below(12) {
            0 => self.random.pick(&[-1, TOP, TOP - 1, i32::MIN]),
            1 => self.random.next() as i32,
            _ => self.random.below(3) as i32,
        }
    }

    /// A call that fits the tables, or nearly so.
    pub fn sensible(&mut self) -> Call {
        let (call, a, b) = match self.random.below(100) {
            0..=21 => (0x01, self.semaphore(), 0),
            22..=41 => (0x02, self.semaphore(), 0),
            42..=46 => (0x03, self.count(), 0),
            47..=48 => (0x04, self.semaphore(), 0),
            49..=52 => (0x05, self.semaphore(), self.count()),
            53..=61 => (0x06, self.priority(), 0),
            62..=75 => (0x07, self.process(|s| s == State::Suspended), 0),
            76..=81 => (0x08, self.process(|s| s == State::Ready || s == State::Current), 0),
            82..=87 => (0x09, self.process(|s| s != State::Free), 0),
            88..=94 => (0x0a, 0, 0),
            _ => (0x0b, self.semaphore(), 0),
        };
        Call { call, a, b }
    }

    pub fn odd_argument(&mut self) -> i32 {
        match self.random.below(4) {
            0 => self.random.next() as i32,
            1 => self.random.below(130) as i32 - 5,
            _ => self.random.pick(&[0, 1, -1, 31, 32, 63, 64, 119, 120, 255, 256, 65536, TOP, i32::MIN]),
        }
    }

    /// Numbers out of range, spare arguments, unknown calls.
    pub fn odd(&mut self) -> Call {
        let unknown = self.random.pick(&[0x00, LAST_CALL + 1, 0x10, 0x80, 0xff]);
        let call =
            if self.random.one_in(5) { unknown } else { 1 + self.random.below(LAST_CALL as usize) as u8 };
        let a = self.odd_argument();
        let b = if self.random.one_in(2) { 0 } else { self.odd_argument() };
        Call { call, a, b }
    }
}
