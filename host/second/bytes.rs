//! The lent bytes, read into tables with lists and written from them.

use crate::layout::{COUNT, LENGTH, NEXT_PROCESS, NEXT_SEMAPHORE, ORDER, PRIORITY, STATE, USED};
use crate::layout::{CURRENT, FREE, READY, SUSPENDED, WAITING};
use crate::row::Row;
use crate::sound;
use crate::tables::{Process, Semaphore, State, Tables, PROCESSES, SEMAPHORES};

pub type Bytes = [u8; LENGTH];

/// The tables and the row that the bytes stand for, or what is ill formed.
pub fn decode(bytes: &[u8]) -> Result<(Tables, Row), &'static str> {
    if bytes.len() != LENGTH {
        return Err("the length is that of the tables");
    }
    let row = row_of(&bytes[ORDER..ORDER + PROCESSES])?;
    let mut tables = Tables {
        processes: processes_of(bytes)?,
        semaphores: semaphores_of(bytes)?,
        ready: Default::default(),
        next_semaphore: bytes[NEXT_SEMAPHORE] as usize,
        next_process: bytes[NEXT_PROCESS] as usize,
    };
    line_up(&mut tables, &row);
    Ok((tables, row))
}

/// As `decode`, and the tables are sound too.
pub fn decode_sound(bytes: &[u8]) -> Result<(Tables, Row), &'static str> {
    let (tables, row) = decode(bytes)?;
    match sound::fault(&tables) {
        Some(clause) => Err(clause),
        None => Ok((tables, row)),
    }
}

fn row_of(places: &[u8]) -> Result<Row, &'static str> {
    let row: Vec<usize> = places.iter().map(|&p| p as usize).collect();
    let mut sorted = row.clone();
    sorted.sort_unstable();
    if sorted.iter().enumerate().all(|(n, &p)| n == p) {
        Ok(Row(row))
    } else {
        Err("every process stands in the row once")
    }
}

fn processes_of(bytes: &[u8]) -> Result<Vec<Process>, &'static str> {
    (0..PROCESSES)
        .map(|p| Ok(Process { state: state_of(bytes[STATE + p])?, priority: bytes[PRIORITY + p] }))
        .collect()
}

fn state_of(byte: u8) -> Result<State, &'static str> {
    match byte {
        FREE => Ok(State::Free),
        CURRENT => Ok(State::Current),
        READY => Ok(State::Ready),
        SUSPENDED => Ok(State::Suspended),
        _ if byte < WAITING + SEMAPHORES as u8 => Ok(State::Waiting((byte - WAITING) as usize)),
        _ => Err("a state byte names a state"),
    }
}

fn semaphores_of(bytes: &[u8]) -> Result<Vec<Semaphore>, &'static str> {
    (0..SEMAPHORES)
        .map(|s| {
            let at = COUNT + 4 * s;
            let count = i32::from_le_bytes([bytes[at], bytes[at + 1], bytes[at + 2], bytes[at + 3]]);
            match bytes[USED + s] {
                0 | 1 => Ok(Semaphore { used: bytes[USED + s] == 1, count, queue: Default::default() }),
                _ => Err("a used flag is 0 or 1"),
            }
        })
        .collect()
}

/// The lists are the ready and the waiting ones in the order of the row.
pub fn line_up(tables: &mut Tables, row: &Row) {
    for &p in &row.0 {
        match tables.state(p) {
            State::Ready => tables.ready.push(p),
            State::Waiting(s) => tables.semaphores[s].queue.push(p),
            _ => (),
        }
    }
}

pub fn encode(tables: &Tables, row: &Row) -> Bytes {
    let mut bytes = [0; LENGTH];
    for (p, process) in tables.processes.iter().enumerate() {
        bytes[STATE + p] = state_byte(process.state);
        bytes[PRIORITY + p] = process.priority;
    }
    for (s, semaphore) in tables.semaphores.iter().enumerate() {
        bytes[USED + s] = semaphore.used as u8;
        bytes[COUNT + 4 * s..COUNT + 4 * s + 4].copy_from_slice(&semaphore.count.to_le_bytes());
    }
    for (place, &p) in row.0.iter().enumerate() {
        bytes[ORDER + place] = p as u8;
    }
    bytes[NEXT_SEMAPHORE] = tables.next_semaphore as u8;
    bytes[NEXT_PROCESS] = tables.next_process as u8;
    bytes
}

pub fn state_byte(state: State) -> u8 {
    match state {
        State::Free => FREE,
        State::Current => CURRENT,
        State::Ready => READY,
        State::Suspended => SUSPENDED,
        State::Waiting(s) => WAITING + s as u8,
    }
}
