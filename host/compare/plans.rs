//! Plans: short runs of calls, each towards one kind of deep state.

use crate::writer::{Writer, TOP};
use second::model::Call;
use second::tables::{State, HIGHEST, SEMAPHORES};

pub const PLANS: &[fn(&mut Writer)] = &[
    mixed,
    mixed,
    mixed,
    odd,
    crowd,
    equals,
    tops,
    fill_semaphores,
    fill_processes,
    thin_out,
    semaphore_round,
    slot_round,
];

fn mixed(w: &mut Writer) {
    for _ in 0..w.random.below(120) {
        let Call { call, a, b } = w.sensible();
        w.call(call, a, b);
    }
}

fn odd(w: &mut Writer) {
    for _ in 0..w.random.below(30) {
        let Call { call, a, b } = w.odd();
        w.call(call, a, b);
    }
}

fn fill_processes(w: &mut Writer) {
    let priority = w.random.below(HIGHEST as usize) as i32 + 1;
    while w.call(0x06, priority, 0).0 == 0 {}
}

fn fill_semaphores(w: &mut Writer) {
    while w.call(0x03, 0, 0).0 == 0 {}
}

/// Most semaphores and some processes go again.
fn thin_out(w: &mut Writer) {
    for s in w.used() {
        if !w.random.one_in(6) {
            w.call(0x04, s as i32, 0);
        }
    }
    for p in w.in_state(|s| s != State::Free) {
        if w.random.one_in(3) {
            w.call(0x09, p as i32, 0);
        }
    }
}

/// Everybody but process 0 waits on one semaphore, then the queue is broken up.
fn crowd(w: &mut Writer) {
    let s = match w.call(0x03, 0, 0) {
        (0, made) => made,
        _ => w.random.pick(&w.used()) as i32,
    };
    fill_processes(w);
    for other in queues(w) {
        w.call(0x05, other as i32, 0);
    }
    w.call(0x05, s, 0);
    for p in w.in_state(|s| s == State::Suspended) {
        w.call(0x07, p as i32, 0);
    }
    while w.model.told() != 0 {
        w.call(0x01, s, 0);
    }
    break_up(w, s);
}

/// The semaphores with waiters.
fn queues(w: &Writer) -> Vec<usize> {
    (0..SEMAPHORES).filter(|&s| !w.model.tables().semaphores[s].queue.is_empty()).collect()
}

fn break_up(w: &mut Writer, s: i32) {
    for _ in 0..w.random.below(20) {
        let waiting = w.process(|s| matches!(s, State::Waiting(_)));
        let call =
            w.random.pick(&[(0x09, waiting), (0x09, waiting), (0x02, s), (0x0b, s), (0x01, s), (0x06, 20)]);
        w.call(call.0, call.1, 0);
    }
    match w.random.below(3) {
        0 => w.call(0x04, s, 0),
        1 => {
            let b = w.random.below(40) as i32;
            w.call(0x05, s, b)
        }
        _ => w.call(0x0a, 0, 0),
    };
}

/// Many of one priority change places.
fn equals(w: &mut Writer) {
    for _ in 0..w.random.below(8) {
        if let (0, p) = w.call(0x06, 20, 0) {
            w.call(0x07, p, 0);
        }
    }
    for _ in 0..w.random.below(20) {
        w.call(0x0a, 0, 0);
    }
}

/// Counts at the top.
fn tops(w: &mut Writer) {
    let s = match w.call(0x03, TOP - 1, 0) {
        (0, made) => made,
        _ => w.semaphore(),
    };
    for _ in 0..w.random.below(10) {
        let call = w.random.pick(&[(0x02, 0), (0x02, 0), (0x01, 0), (0x0b, 0), (0x05, TOP), (0x05, TOP - 1)]);
        w.call(call.0, s, call.1);
    }
}

/// The semaphore cursor goes round: each one made is deleted again.
fn semaphore_round(w: &mut Writer) {
    for _ in 0..w.random.below(150) {
        if let (0, s) = w.call(0x03, 1, 0) {
            w.call(0x04, s, 0);
        }
    }
}

/// The process cursor goes round: each one made is killed again.
fn slot_round(w: &mut Writer) {
    for _ in 0..w.random.below(50) {
        if let (0, p) = w.call(0x06, 5, 0) {
            w.call(0x09, p, 0);
        }
    }
}
