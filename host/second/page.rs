//! The status page of document 02, request One: who waits for what, told from the lists.

use crate::layout::{ROW_AWAITED, ROW_LENGTH, ROW_NUMBER, ROW_PLACE, ROW_PRIORITY, ROW_STATE};
use crate::layout::{ROW_CURRENT, ROW_READY, ROW_SUSPENDED, ROW_WAITING};
use crate::tables::{State, Tables};

/// What the page shows of one live process, as it is lent.
pub type PageRow = [u8; ROW_LENGTH];

/// A process in a queue, at its place counted from 1. They stand in order by
/// semaphore and place, so a list of them in order is every queue read by place.
#[derive(Clone, Copy, PartialEq, Eq, PartialOrd, Ord, Debug)]
pub struct Waiter {
    pub awaited: usize,
    pub place: usize,
    pub number: usize,
}

/// One row for each live process in rising number, or None if fewer rows are lent.
pub fn page(tables: &Tables, lent: usize) -> Option<Vec<PageRow>> {
    let live = tables.numbers_in(|state| state != State::Free);
    if lent < live.len() {
        return None;
    }
    Some(live.into_iter().map(|p| row(tables, p)).collect())
}

fn row(tables: &Tables, p: usize) -> PageRow {
    let (state, awaited, place) = match tables.state(p) {
        State::Free => unreachable!("a free slot has no row"),
        State::Current => (ROW_CURRENT, 0, 0),
        State::Ready => (ROW_READY, 0, 0),
        State::Suspended => (ROW_SUSPENDED, 0, 0),
        State::Waiting(s) => (ROW_WAITING, s, place(&tables.semaphores[s].queue, p)),
    };
    let mut row = [0; ROW_LENGTH];
    row[ROW_NUMBER] = p as u8;
    row[ROW_STATE] = state;
    row[ROW_PRIORITY] = tables.priority(p);
    row[ROW_AWAITED] = awaited as u8;
    row[ROW_PLACE] = place as u8;
    row
}

/// How many stand before it, and itself.
fn place(queue: &[usize], p: usize) -> usize {
    1 + queue.iter().take_while(|&&q| q != p).count()
}

/// The waiters that rows show, each queue read by place.
pub fn waiters(rows: &[u8]) -> Vec<Waiter> {
    let shown = rows.chunks(ROW_LENGTH).filter(|row| row[ROW_STATE] == ROW_WAITING);
    let mut waiters: Vec<Waiter> = shown.map(waiter).collect();
    waiters.sort_unstable();
    waiters
}

fn waiter(row: &[u8]) -> Waiter {
    Waiter {
        awaited: row[ROW_AWAITED] as usize,
        place: row[ROW_PLACE] as usize,
        number: row[ROW_NUMBER] as usize,
    }
}
