//! How deep the states were that calls were made in.

use second::model::Call;
use second::tables::{Semaphore, State, Tables, PROCESSES, SEMAPHORES};

#[derive(Default)]
pub struct Marks {
    pub queue: usize,
    pub ready: usize,
    pub live: usize,
    pub used: usize,
    pub tops: u64,
    pub semaphore_rounds: u64,
    pub slot_rounds: u64,
    pub kills_inside: u64,
    pub deletes_with_waiters: u64,
    pub resets_with_waiters: u64,
    /// Waits by process 0: with permits there, with none, on a semaphore not in use.
    pub null_waits: [u64; 3],
}

/// What the marks need to know of the tables before a call.
pub struct Before {
    next_semaphore: usize,
    next_process: usize,
    waiters: usize,
    inside: bool,
    null_wait: Option<usize>,
}

impl Before {
    pub fn see(t: &Tables, call: Call) -> Before {
        Before {
            next_semaphore: t.next_semaphore,
            next_process: t.next_process,
            waiters: waiters(t, call.a),
            inside: call.call == 0x09 && inside_a_queue(t, call.a),
            null_wait: null_wait(t, call),
        }
    }
}

fn semaphore(t: &Tables, a: i32) -> Option<&Semaphore> {
    usize::try_from(a).ok().and_then(|s| t.semaphores.get(s))
}

fn waiters(t: &Tables, a: i32) -> usize {
    semaphore(t, a).map_or(0, |s| s.queue.len())
}

/// Which of the three it is, if process 0 waits.
fn null_wait(t: &Tables, call: Call) -> Option<usize> {
    if call.call != 0x01 || call.b != 0 || t.current() != Some(0) {
        return None;
    }
    match semaphore(t, call.a).filter(|s| s.used) {
        Some(s) if s.count > 0 => Some(0),
        Some(_) => Some(1),
        None => Some(2),
    }
}

impl Marks {
    pub fn see(&mut self, before: &Before, call: Call, after: &Tables) {
        let longest = after.semaphores.iter().map(|s| s.queue.len()).max();
        self.queue = self.queue.max(longest.unwrap_or(0));
        self.ready = self.ready.max(after.ready.len());
        self.live = self.live.max(after.numbers_in(|state| state != State::Free).len());
        self.used = self.used.max(after.semaphores.iter().filter(|s| s.used).count());
        self.tops += after.semaphores.iter().any(|s| s.count == i32::MAX) as u64;
        self.semaphore_rounds += (after.next_semaphore < before.next_semaphore) as u64;
        self.slot_rounds += (after.next_process < before.next_process) as u64;
        if let Some(found) = before.null_wait {
            self.null_waits[found] += 1;
        }
        let released = before.waiters > 1 && waiters(after, call.a) == 0;
        match call.call {
            0x04 => self.deletes_with_waiters += released as u64,
            0x05 => self.resets_with_waiters += released as u64,
            0x09 => self.kills_inside += before.inside as u64,
            _ => (),
        }
    }

    pub fn print(&self) {
        println!(
            "deepest: queue {}, ready list {}, live processes {}, used semaphores {}",
            self.queue, self.ready, self.live, self.used
        );
        println!(
            "calls with a count at the top {}, semaphore cursor gone round {}, process cursor gone round {}",
            self.tops, self.semaphore_rounds, self.slot_rounds
        );
        println!(
            "kills inside a queue {}, deletes with several waiters {}, resets with several waiters {}",
            self.kills_inside, self.deletes_with_waiters, self.resets_with_waiters
        );
        println!(
            "waits by process 0: {} with permits there, {} with none, {} on a semaphore not in use",
            self.null_waits[0], self.null_waits[1], self.null_waits[2]
        );
    }

    pub fn deep(&self) -> bool {
        let longest = self.queue == PROCESSES - 1 && self.ready == PROCESSES - 1;
        let full = longest && self.live == PROCESSES && self.used == SEMAPHORES;
        let round = self.semaphore_rounds > 0 && self.slot_rounds > 0;
        let broken_up =
            self.kills_inside > 0 && self.deletes_with_waiters > 0 && self.resets_with_waiters > 0;
        full && round && broken_up && self.tops > 0 && self.null_waits.iter().all(|&n| n > 0)
    }
}

/// Neither the head nor the tail of a queue.
fn inside_a_queue(t: &Tables, a: i32) -> bool {
    let inside = |queue: &Vec<usize>| {
        let place = queue.iter().position(|&p| p as i32 == a);
        place.map_or(false, |place| place > 0 && place + 1 < queue.len())
    };
    t.semaphores.iter().any(|s| inside(&s.queue))
}
