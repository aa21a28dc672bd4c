//! The tables of document 01, with a real list per queue.

pub const PROCESSES: usize = 32;
pub const SEMAPHORES: usize = 120;
pub const HIGHEST: u8 = 63;

#[derive(Clone, Copy, PartialEq, Eq, Debug)]
pub enum State {
    Free,
    Current,
    Ready,
    Suspended,
    Waiting(usize),
}

#[derive(Clone, Copy, PartialEq, Eq, Debug)]
pub struct Process {
    pub state: State,
    pub priority: u8,
}

#[derive(Clone, Debug)]
pub struct Semaphore {
    pub used: bool,
    pub count: i32,
    pub queue: Vec<usize>,
}

#[derive(Clone, PartialEq, Debug)]
pub struct Tables {
    pub processes: Vec<Process>,
    pub semaphores: Vec<Semaphore>,
    pub ready: Vec<usize>,
    pub next_semaphore: usize,
    pub next_process: usize,
}

impl Process {
    pub const FREE: Process = Process { state: State::Free, priority: 0 };
}

/// By hand, since most queues are empty and their own comparison is slow.
impl PartialEq for Semaphore {
    fn eq(&self, other: &Semaphore) -> bool {
        self.used == other.used && self.count == other.count && self.queue.iter().eq(&other.queue)
    }
}

impl Semaphore {
    pub fn free() -> Semaphore {
        Semaphore { used: false, count: 0, queue: Vec::new() }
    }
}

impl Tables {
    pub fn boot() -> Tables {
        let mut processes = vec![Process::FREE; PROCESSES];
        processes[0].state = State::Current;
        Tables {
            processes,
            semaphores: vec![Semaphore::free(); SEMAPHORES],
            ready: Vec::new(),
            next_semaphore: 0,
            next_process: 1,
        }
    }

    pub fn state(&self, p: usize) -> State {
        self.processes[p].state
    }

    pub fn priority(&self, p: usize) -> u8 {
        self.processes[p].priority
    }

    /// None only in the tables of a wrong kernel that let everybody stop.
    pub fn current(&self) -> Option<usize> {
        self.processes.iter().position(|p| p.state == State::Current)
    }

    pub fn numbers_in(&self, state: fn(State) -> bool) -> Vec<usize> {
        (0..PROCESSES).filter(|&p| state(self.state(p))).collect()
    }
}
