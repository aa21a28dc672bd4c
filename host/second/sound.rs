//! When tables are sound, clause by clause in the order of document 01.

use crate::tables::{Process, Semaphore, State, Tables, HIGHEST, PROCESSES, SEMAPHORES};

/// What is said of the tables, with the words for its failure.
type Clause = (&'static str, fn(&Tables) -> bool);

pub const CLAUSES: &[Clause] = &[
    ("exactly one process is current", one_current),
    ("process 0 is current or ready", null_runs),
    ("the ready list holds each ready process once and nobody else", ready_listed),
    ("the ready list falls in priority", ready_falls),
    ("no ready process is above the current one", current_highest),
    ("each queue holds those who wait on it once and nobody else", queues_listed),
    ("each waiting process waits on a used semaphore", waits_on_used),
    ("a used semaphore's count agrees with its queue", counts_agree),
    ("a free semaphore has count 0 and no queue", free_empty),
    ("a free slot has priority 0", free_slots),
    ("priorities are in range", priorities_in_range),
    ("cursors are in range", cursors_in_range),
];

/// The first clause that does not hold, if any.
pub fn fault(t: &Tables) -> Option<&'static str> {
    CLAUSES.iter().find(|clause| !clause.1(t)).map(|clause| clause.0)
}

fn one_current(t: &Tables) -> bool {
    t.processes.iter().filter(|p| p.state == State::Current).count() == 1
}

fn null_runs(t: &Tables) -> bool {
    matches!(t.state(0), State::Current | State::Ready)
}

/// The list holds `members` processes, each once and each in that state.
fn lists(t: &Tables, list: &[usize], state: State, members: usize) -> bool {
    let once = |p: usize| list.iter().filter(|&&q| q == p).count() == 1;
    list.len() == members && list.iter().all(|&p| t.state(p) == state && once(p))
}

fn ready_listed(t: &Tables) -> bool {
    let ready = t.processes.iter().filter(|p| p.state == State::Ready).count();
    lists(t, &t.ready, State::Ready, ready)
}

fn ready_falls(t: &Tables) -> bool {
    let behind = t.ready.iter().skip(1);
    t.ready.iter().zip(behind).all(|(&p, &q)| t.priority(p) >= t.priority(q))
}

fn current_highest(t: &Tables) -> bool {
    let top = t.current().map_or(0, |c| t.priority(c));
    t.ready.iter().all(|&p| t.priority(p) <= top)
}

fn queues_listed(t: &Tables) -> bool {
    let mut waiting = [0; SEMAPHORES];
    for process in &t.processes {
        if let State::Waiting(s) = process.state {
            waiting[s] += 1;
        }
    }
    (0..SEMAPHORES).all(|s| lists(t, &t.semaphores[s].queue, State::Waiting(s), waiting[s]))
}

fn waits_on_used(t: &Tables) -> bool {
    t.processes.iter().all(|p| match p.state {
        State::Waiting(s) => t.semaphores[s].used,
        _ => true,
    })
}

fn count_agrees(semaphore: &Semaphore) -> bool {
    match semaphore.queue.len() {
        0 => semaphore.count >= 0,
        n => semaphore.count == -(n as i32),
    }
}

fn counts_agree(t: &Tables) -> bool {
    t.semaphores.iter().all(|s| !s.used || count_agrees(s))
}

fn free_empty(t: &Tables) -> bool {
    t.semaphores.iter().all(|s| s.used || s.count == 0 && s.queue.is_empty())
}

fn free_slots(t: &Tables) -> bool {
    t.processes.iter().all(|p| p.state != State::Free || p.priority == 0)
}

fn priorities_in_range(t: &Tables) -> bool {
    let live = |p: &Process| p.state == State::Free || (1..=HIGHEST).contains(&p.priority);
    t.priority(0) == 0 && t.processes[1..].iter().all(live)
}

fn cursors_in_range(t: &Tables) -> bool {
    t.next_semaphore < SEMAPHORES && t.next_process < PROCESSES
}
