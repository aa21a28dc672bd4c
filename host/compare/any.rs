//! Sound tables of every kind, made directly: no calls lead to them.

use crate::random::Random;
use second::bytes::line_up;
use second::row::Row;
use second::tables::{Process, State, Tables, HIGHEST, PROCESSES, SEMAPHORES};

pub fn tables(random: &mut Random) -> (Tables, Row) {
    let mut tables = Tables::boot();
    let pool: Vec<usize> = (0..1 + random.below(6)).map(|_| random.below(SEMAPHORES)).collect();
    let levels = 1 + random.below(HIGHEST as usize);
    for p in 1..PROCESSES {
        tables.processes[p] = process(random, &pool, levels);
    }
    choose_current(random, &mut tables);
    let row = row(random, &tables);
    line_up(&mut tables, &row);
    for s in 0..SEMAPHORES {
        fill_semaphore(random, &mut tables, s);
    }
    tables.next_semaphore = random.below(SEMAPHORES);
    tables.next_process = random.below(PROCESSES);
    (tables, row)
}

fn process(random: &mut Random, pool: &[usize], levels: usize) -> Process {
    let priority = 1 + random.below(levels) as u8;
    match random.below(8) {
        0 => Process::FREE,
        1 => Process { state: State::Suspended, priority },
        2..=4 => Process { state: State::Ready, priority },
        _ => Process { state: State::Waiting(random.pick(pool)), priority },
    }
}

/// A ready process of the highest ready priority becomes current, if there is one.
fn choose_current(random: &mut Random, tables: &mut Tables) {
    let ready = tables.numbers_in(|s| s == State::Ready);
    let top = ready.iter().map(|&p| tables.priority(p)).max();
    let highest: Vec<usize> = ready.into_iter().filter(|&p| Some(tables.priority(p)) == top).collect();
    if !highest.is_empty() {
        tables.processes[0].state = State::Ready;
        tables.processes[random.pick(&highest)].state = State::Current;
    }
}

/// Any order, in which the ready ones fall in priority.
fn row(random: &mut Random, tables: &Tables) -> Row {
    let mut row: Vec<usize> = (0..PROCESSES).collect();
    random.shuffle(&mut row);
    let is_ready = |p: &usize| tables.state(*p) == State::Ready;
    let mut ready: Vec<usize> = row.iter().copied().filter(is_ready).collect();
    ready.sort_by_key(|&p| std::cmp::Reverse(tables.priority(p)));
    let mut next = ready.into_iter();
    let place = |p: usize| {
        if is_ready(&p) {
            next.next().unwrap_or(p)
        } else {
            p
        }
    };
    Row(row.into_iter().map(place).collect())
}

fn fill_semaphore(random: &mut Random, tables: &mut Tables, s: usize) {
    let semaphore = &mut tables.semaphores[s];
    let waiters = semaphore.queue.len() as i32;
    semaphore.used = waiters > 0 || random.one_in(2);
    semaphore.count = match semaphore.used {
        true if waiters > 0 => -waiters,
        true => random.pick(&[0, 0, 1, 2, 255, 256, 65536, 1 << 24, i32::MAX - 1, i32::MAX]),
        false => 0,
    };
}
