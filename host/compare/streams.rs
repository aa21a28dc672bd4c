//! Streams of one kind, for the timing: a start that fills the tables so far,
//! then a mix of calls that keeps them so.

use crate::generate::stream;
use crate::writer::Writer;
use second::model::{Call, Model};
use second::tables::{State, PROCESSES, SEMAPHORES};
use second::wrong::Wrong;

#[derive(Clone, Copy)]
pub enum Kind {
    /// Plans of every sort, one after the other.
    Mixed,
    /// A small switch: 6 processes and 8 semaphores.
    Small,
    /// 31 waiters on one semaphore.
    Crowd,
    /// 120 semaphores used, by 12 processes.
    Full,
}

pub fn of_kind(kind: Kind, seed: u64, length: usize) -> Vec<Call> {
    match kind {
        Kind::Mixed => stream(seed, length),
        Kind::Small => steady(seed, length, 6, 8, mix),
        Kind::Crowd => steady(seed, length, PROCESSES, 1, again),
        Kind::Full => steady(seed, length, 12, SEMAPHORES, mix),
    }
}

fn steady(seed: u64, length: usize, processes: usize, semaphores: usize, turn: fn(&mut Writer)) -> Vec<Call> {
    let mut w = Writer::new(Model::boot(Wrong::Nothing), seed);
    for _ in 0..semaphores {
        w.call(0x03, 0, 0);
    }
    for _ in 1..processes {
        start(&mut w);
    }
    while w.calls.len() < length {
        turn(&mut w);
    }
    w.calls.truncate(length);
    w.calls
}

/// A process more; it runs if nobody of higher priority does.
fn start(w: &mut Writer) {
    let priority = w.random.pick(&[10, 20, 20, 20, 30]);
    if let (0, p) = w.call(0x06, priority, 0) {
        w.call(0x07, p, 0);
    }
}

/// Whoever is released waits again.
fn again(w: &mut Writer) {
    let call = if w.model.told() == 0 { 0x02 } else { w.random.pick(&[0x01, 0x01, 0x01, 0x0b]) };
    w.call(call, 0, 0);
}

/// As many processes and semaphores after it as before.
fn mix(w: &mut Writer) {
    let s = w.random.pick(&w.used()) as i32;
    match w.random.below(100) {
        0..=34 => w.call(0x01, s, 0),
        35..=64 => w.call(0x02, s, 0),
        65..=74 => w.call(0x0b, s, 0),
        75..=84 => w.call(0x0a, 0, 0),
        85..=95 => return suspend_or_resume(w),
        96..=97 => return replace_process(w),
        _ => {
            w.call(0x04, s, 0);
            w.call(0x03, 1, 0)
        }
    };
}

fn suspend_or_resume(w: &mut Writer) {
    match w.in_state(|s| s == State::Suspended).first() {
        Some(&p) => w.call(0x07, p as i32, 0),
        None => {
            let p = w.process(|s| s == State::Ready || s == State::Current);
            w.call(0x08, p, 0)
        }
    };
}

fn replace_process(w: &mut Writer) {
    let p = w.process(|s| s != State::Free);
    if w.call(0x09, p, 0).0 == 0 {
        start(w);
    }
}
