//! The calls, each with its checks in the order of document 01.

use crate::kernel::Answer::{self, Done, Refused};
use crate::kernel::Kernel;
use crate::layout::LAST_CALL;
use crate::tables::{Process, Semaphore, State, HIGHEST, PROCESSES, SEMAPHORES};
use crate::wrong::Wrong;

type Checked<T> = Result<T, u8>;

impl Kernel {
    /// One call by the current process. The tables are taken to be sound.
    pub fn call(&mut self, call: u8, a: i32, b: i32) -> Answer {
        self.joins.clear();
        self.calls += 1;
        match self.wrong {
            Wrong::RefusesAll => Refused(13),
            Wrong::AnswersOne => Done(1),
            Wrong::OnlyFirst if self.calls > 1 => self.clone().enter(call, a, b),
            _ => self.enter(call, a, b),
        }
    }

    fn enter(&mut self, call: u8, a: i32, b: i32) -> Answer {
        let known = (0x01..=LAST_CALL).contains(&call);
        let spare = match call {
            0x05 => false,
            0x0a => a != 0 || b != 0,
            _ => b != 0,
        };
        if self.is(Wrong::ArgumentsFirst) && spare {
            return Refused(14);
        }
        if !known {
            return Refused(13);
        }
        if spare && !self.is(Wrong::SpareIgnored) {
            return Refused(14);
        }
        match self.perform(call, a, b) {
            Ok(value) => Done(value),
            Err(refusal) => Refused(refusal),
        }
    }

    fn perform(&mut self, call: u8, a: i32, b: i32) -> Checked<i32> {
        match call {
            0x01 => self.wait(a),
            0x02 => self.signal(a),
            0x03 => self.make_semaphore(a),
            0x04 => self.delete(a),
            0x05 => self.reset(a, b),
            0x06 => self.make_process(a),
            0x07 => self.resume(a),
            0x08 => self.suspend(a),
            0x09 => self.kill(a),
            0x0a => self.give_way(),
            _ => self.count_of(a),
        }
    }

    /// Refusals 1 and 2.
    fn used(&self, a: i32) -> Checked<usize> {
        match usize::try_from(a) {
            Ok(s) if s < SEMAPHORES && self.tables.semaphores[s].used => Ok(s),
            Ok(s) if s < SEMAPHORES => Err(2),
            _ => Err(1),
        }
    }

    /// Refusal 6.
    fn slot(&self, a: i32) -> Checked<usize> {
        match usize::try_from(a) {
            Ok(p) if p < PROCESSES => Ok(p),
            _ => Err(6),
        }
    }

    /// Refusal 7.
    fn live(&self, p: usize) -> Checked<State> {
        match self.tables.state(p) {
            State::Free => Err(7),
            state => Ok(state),
        }
    }

    /// Refusals 9, 17, 18 and 19: the number names the state found.
    fn found(&self, p: usize, state: State) -> u8 {
        match (self.wrong, state) {
            (Wrong::StatesUnnamed, _) => 9,
            (Wrong::CurrentAsReady, State::Current) => 18,
            (Wrong::CurrentAsReady, State::Ready) => 17,
            (Wrong::SuspendedAsWaiting, State::Suspended) => 19,
            (Wrong::WaitingAsSuspended, State::Waiting(_)) => 9,
            (Wrong::NullAsCurrent, State::Ready) if p == 0 => 17,
            (_, State::Free) => 7,
            (_, State::Suspended) => 9,
            (_, State::Current) => 17,
            (_, State::Ready) => 18,
            (_, State::Waiting(_)) => 19,
        }
    }

    /// Refusal 3.
    fn not_below_0(&self, count: i32) -> Checked<i32> {
        if count < 0 {
            Err(3)
        } else {
            Ok(count)
        }
    }

    fn wait(&mut self, a: i32) -> Checked<i32> {
        let caller = self.tables.current().ok_or(10)?;
        if caller == 0 && self.null_first(a) {
            return Err(10);
        }
        let s = self.used(a)?;
        let count = self.tables.semaphores[s].count;
        let allowed = self.is(Wrong::NullMayWait) || count > 0 && self.is(Wrong::NullTakesPermits);
        if caller == 0 && !allowed {
            return Err(10);
        }
        self.tables.semaphores[s].count = count.wrapping_sub(1);
        if count <= 0 || count == 1 && self.is(Wrong::WaitBlocksAtZero) {
            self.make_wait(caller, s);
            self.reschedule();
        }
        Ok(1)
    }

    /// Wrong orders of 10 and the checks before it.
    fn null_first(&self, a: i32) -> bool {
        self.is(Wrong::NullBeforeNumber) || self.is(Wrong::NullBeforeFree) && self.used(a) == Err(2)
    }

    fn signal(&mut self, a: i32) -> Checked<i32> {
        let s = self.used(a)?;
        let old = self.tables.semaphores[s].count;
        let top = i32::MAX - self.is(Wrong::SignalStopsEarly) as i32;
        if old >= top && !self.is(Wrong::SignalWraps) {
            return Err(5);
        }
        let new = old.wrapping_add(1);
        self.tables.semaphores[s].count = new;
        let judged = if self.is(Wrong::SignalNewCount) { new } else { old };
        if judged < 0 {
            self.release_one(s);
        }
        if judged < 0 || self.is(Wrong::SignalReschedules) {
            self.reschedule();
        }
        Ok(1)
    }

    fn make_semaphore(&mut self, a: i32) -> Checked<i32> {
        let count = self.not_below_0(a)?;
        let from = if self.is(Wrong::SemaphoresFromZero) { 0 } else { self.tables.next_semaphore };
        let free = |s: &usize| !self.tables.semaphores[*s].used;
        let s = (from..SEMAPHORES).chain(0..from).find(free).ok_or(4)?;
        let queue = std::mem::take(&mut self.tables.semaphores[s].queue);
        self.tables.semaphores[s] = Semaphore { used: true, count, queue };
        let past = if self.is(Wrong::SemaphoreCursorStays) { s } else { s + 1 };
        self.tables.next_semaphore = past % SEMAPHORES;
        Ok(s as i32)
    }

    fn delete(&mut self, a: i32) -> Checked<i32> {
        let s = self.used(a)?;
        self.tables.semaphores[s].used = false;
        if !self.is(Wrong::DeleteLeavesCount) {
            self.tables.semaphores[s].count = 0;
        }
        if self.is(Wrong::DeleteMovesCursor) {
            self.tables.next_semaphore = s;
        }
        let released = self.release_all(s);
        let due = released > 0 || self.is(Wrong::DeleteAlwaysReschedules);
        if due && !self.is(Wrong::DeleteNeverReschedules) {
            self.reschedule();
        }
        Ok(1)
    }

    fn reset(&mut self, a: i32, b: i32) -> Checked<i32> {
        if self.is(Wrong::ResetNumberFirst) {
            self.used(a)?;
        }
        let count = self.not_below_0(b)?;
        let s = self.used(a)?;
        let old = self.tables.semaphores[s].count;
        let released = self.release_all(s);
        self.tables.semaphores[s].count = match self.wrong {
            Wrong::ResetAdds => old.wrapping_add(count),
            Wrong::ResetUsesUp => count - (released as i32).min(count),
            _ => count,
        };
        if released > 0 {
            self.reschedule();
        }
        Ok(1)
    }

    fn make_process(&mut self, a: i32) -> Checked<i32> {
        let lowest = if self.is(Wrong::PriorityNone) { 0 } else { 1 };
        let highest = HIGHEST as i32 + self.is(Wrong::PriorityTop) as i32;
        if a < lowest || a > highest {
            return Err(11);
        }
        let from = if self.is(Wrong::SlotsFromZero) { 0 } else { self.tables.next_process };
        let free = |p: &usize| self.tables.state(*p) == State::Free;
        let p = (from..PROCESSES).chain(0..from).find(free).ok_or(8)?;
        self.tables.processes[p] = Process { state: State::Suspended, priority: a as u8 };
        let past = if self.is(Wrong::SlotCursorStays) { p } else { p + 1 };
        self.tables.next_process = past % PROCESSES;
        Ok(p as i32)
    }

    fn resume(&mut self, a: i32) -> Checked<i32> {
        let p = self.slot(a)?;
        if p == 0 && self.is(Wrong::ResumeRefusesNull) {
            return Err(10);
        }
        let state = self.live(p)?;
        if state != State::Suspended {
            return Err(self.found(p, state));
        }
        self.make_ready(p);
        if !self.is(Wrong::ResumeQuiet) {
            self.reschedule();
        }
        Ok(if self.is(Wrong::ResumeAnswersOne) { 1 } else { self.tables.priority(p) as i32 })
    }

    fn suspend(&mut self, a: i32) -> Checked<i32> {
        let p = self.slot(a)?;
        if p == 0 && !self.is(Wrong::SuspendNull) {
            return Err(10);
        }
        let state = self.live(p)?;
        if state != State::Ready && state != State::Current {
            return Err(self.found(p, state));
        }
        self.leave_ready(p);
        self.set(p, State::Suspended);
        if state == State::Current || self.is(Wrong::SuspendReschedules) {
            self.reschedule();
        }
        Ok(self.tables.priority(p) as i32)
    }

    fn kill(&mut self, a: i32) -> Checked<i32> {
        let p = self.slot(a)?;
        if p == 0 {
            return Err(10);
        }
        let state = self.live(p)?;
        if let State::Waiting(s) = state {
            self.leave_queue(p, s);
        }
        if !self.is(Wrong::KillLeavesReady) {
            self.leave_ready(p);
        }
        let left = if self.is(Wrong::KillLeavesPriority) { self.tables.priority(p) } else { 0 };
        self.tables.processes[p] = Process { state: State::Free, priority: left };
        if state == State::Current || self.is(Wrong::KillReschedules) {
            self.reschedule();
        }
        Ok(1)
    }

    /// A killed waiter leaves its queue and that count goes up by 1.
    fn leave_queue(&mut self, p: usize, s: usize) {
        if !self.is(Wrong::KillLeavesEntry) {
            self.tables.semaphores[s].queue.retain(|&q| q != p);
        }
        if !self.is(Wrong::KillLeavesCount) {
            let count = self.tables.semaphores[s].count;
            self.tables.semaphores[s].count = count.wrapping_add(1);
        }
        if self.is(Wrong::KillReleasesNext) {
            self.release_one(s);
        }
    }

    fn give_way(&mut self) -> Checked<i32> {
        self.reschedule();
        Ok(1)
    }

    fn count_of(&self, a: i32) -> Checked<i32> {
        let s = self.used(a)?;
        Ok(if self.is(Wrong::CountMadeUp) { 0 } else { self.tables.semaphores[s].count })
    }
}
