//! The status page beside the second program's: the answer, every byte of the rows
//! lent and of the fences around them, and the tables as they were.

use crate::entries::Lent;
use crate::page_marks::PageMarks;
use crate::random::Random;
use second::layout::ROW_LENGTH;
use second::model::{unsound, Call, Model};
use second::page::{waiters, Waiter};
use second::tables::{State, PROCESSES};

/// The most rows lent here: more than there can be live processes.
pub const MOST: usize = 40;

/// What a page has to be.
struct Expected {
    answer: u64,
    rows: Vec<u8>,
    /// Who is still blocked by the record of calls, if there is one and rows are written.
    blocked: Option<Vec<Waiter>>,
}

/// The page of sound tables, with as many rows lent as the call decides.
pub fn of_sound(tables: &mut Lent, model: &Model, call: Call, marks: &mut PageMarks) -> Result<(), String> {
    let mut random = Random::new(turn(tables.bytes(), call));
    let live = model.tables().numbers_in(|state| state != State::Free).len();
    let lent = match random.below(4) {
        0 => live - 1,
        1 => live,
        2 => live + 1,
        _ => random.below(MOST + 1),
    };
    compare(tables, lent, &of_model(model, lent), marks)
}

/// The page of sound tables with every number of rows lent.
pub fn of_every_size(tables: &mut Lent, model: &Model, marks: &mut PageMarks) -> Result<(), String> {
    (0..=MOST).try_for_each(|lent| compare(tables, lent, &of_model(model, lent), marks))
}

/// The page of unsound tables, with as many rows lent as the call decides.
pub fn of_unsound(tables: &mut Lent, call: Call, marks: &mut PageMarks) -> Result<(), String> {
    let lent = Random::new(turn(tables.bytes(), call)).below(MOST + 1);
    compare(tables, lent, &none(), marks)
}

/// The page of too few or too many bytes, with every number of rows lent.
pub fn of_wrong_length(tables: &mut Lent, marks: &mut PageMarks) -> Result<(), String> {
    (0..=MOST).try_for_each(|lent| compare(tables, lent, &none(), marks))
}

/// A number that hangs on the states and the call alone, so that a failure comes again.
fn turn(tables: &[u8], call: Call) -> u64 {
    let first = (call.call as u64) << 32 | call.a as u32 as u64;
    let mixed = |sum: u64, &byte: &u8| sum.wrapping_mul(31).wrapping_add(byte as u64);
    tables[..PROCESSES].iter().fold(first, mixed)
}

fn of_model(model: &Model, lent: usize) -> Expected {
    let (answer, rows) = model.page(lent);
    let blocked = if rows.is_empty() { None } else { model.still_blocked() };
    Expected { answer, rows: rows.concat(), blocked }
}

fn none() -> Expected {
    Expected { answer: unsound(), rows: Vec::new(), blocked: None }
}

fn compare(tables: &mut Lent, lent: usize, expected: &Expected, marks: &mut PageMarks) -> Result<(), String> {
    let shown = page(tables, lent, expected)
        .map_err(|why| format!("the status page with {} rows lent: {}", lent, why))?;
    marks.see(lent, expected.answer, &shown, expected.blocked.is_some());
    Ok(())
}

/// One page; tells the waiters that it shows.
fn page(tables: &mut Lent, lent: usize, expected: &Expected) -> Result<Vec<Waiter>, String> {
    let paint = paint(lent);
    let before = tables.bytes().to_vec();
    let mut rows = Lent::new(&paint, shift(&before, lent));
    let answer = tables.page(&mut rows);
    if answer != expected.answer {
        return Err(format!("answer {:012x}, not {:012x}", answer, expected.answer));
    }
    if tables.bytes() != &before[..] || !tables.fence_untouched() {
        return Err("the tables were touched".into());
    }
    same_rows(&rows, &paint, expected)
}

/// The rows written are those expected, and nothing else is written.
fn same_rows(rows: &Lent, paint: &[u8], expected: &Expected) -> Result<Vec<Waiter>, String> {
    let (written, rest) = rows.bytes().split_at(expected.rows.len());
    let shown = waiters(written);
    match &expected.blocked {
        Some(blocked) if *blocked != shown => {
            Err(format!("it shows {:?}, but by the record {:?} are still blocked", shown, blocked))
        }
        _ if written != &expected.rows[..] => Err(format!("rows {:?}, not {:?}", written, expected.rows)),
        _ if *rest != paint[written.len()..] => Err("a row that is not of the page was written".into()),
        _ if !rows.fence_untouched() => Err("a byte outside the rows was touched".into()),
        _ => Ok(shown),
    }
}

/// An alignment for the rows: the same number of them lies at every one.
fn shift(tables: &[u8], lent: usize) -> usize {
    tables.iter().take(PROCESSES).fold(lent, |sum, &byte| sum + byte as usize) % 8
}

/// What the rows hold before: no byte that a row of the page can have.
fn paint(lent: usize) -> Vec<u8> {
    (0..lent * ROW_LENGTH).map(|i| 0x80 | (lent + 37 * i) as u8).collect()
}
