//! Damage: tables that calls lead to, with bytes changed, and bytes that are none.

use crate::generate::stream;
use crate::judge::{judge_alone, Failure, Judge, Make};
use crate::random::Random;
use crate::shrink::shrink;
use crate::steps::{text, View};
use second::bytes::{state_byte, Bytes};
use second::layout::{COUNT, LENGTH, NEXT_SEMAPHORE, ORDER, PRIORITY, STATE, USED};
use second::layout::{CURRENT, FREE, READY, SUSPENDED, WAITING};
use second::model::{Call, Model};
use second::tables::{State, PROCESSES};
use second::wrong::Wrong;

/// The tables that calls from boot lead to.
pub fn reached(calls: &[Call]) -> Bytes {
    let mut model = Model::boot(Wrong::Nothing);
    calls.iter().for_each(|&call| {
        model.step(call);
    });
    model.bytes()
}

/// Which values a byte is changed to.
#[derive(Clone, Copy)]
pub enum Values {
    All,
    Spread,
}

const EDGES: [u8; 16] = [0, 1, 2, 3, 4, 31, 32, 63, 64, 119, 120, 123, 124, 127, 128, 255];

fn values(which: Values, old: u8, random: &mut Random) -> Vec<u8> {
    let mut chosen: Vec<u8> = match which {
        Values::All => (0..=255).collect(),
        Values::Spread => vec![old.wrapping_add(1), old.wrapping_sub(1), old ^ 1 << random.below(8)],
    };
    if let Values::Spread = which {
        chosen.extend((0..5).map(|_| random.pick(&EDGES)));
        chosen.extend((0..2).map(|_| random.next() as u8));
    }
    chosen.retain(|&v| v != old);
    chosen
}

/// Every byte of the tables reached by one stream, changed one at a time.
pub fn single_bytes(judge: &mut Judge, seed: u64, which: Values) -> Result<(), String> {
    let mut random = Random::new(seed);
    let calls = stream(seed, 20 + random.below(600));
    let mut bytes = reached(&calls);
    for at in 0..LENGTH {
        let old = bytes[at];
        for value in values(which, old, &mut random) {
            bytes[at] = value;
            let judged = judge.judge(&bytes, Make::Chosen(random.next()));
            judged.map_err(|failure| short_damage(&calls, at, value, failure, judge.view))?;
        }
        bytes[at] = old;
    }
    Ok(())
}

/// The failing damage on tables that as few calls as possible lead to.
fn short_damage(calls: &[Call], at: usize, value: u8, failure: Failure, view: View) -> String {
    let judged = |calls: &[Call]| {
        let mut bytes = reached(calls);
        bytes[at] = value;
        judge_alone(view, &bytes, failure.call)
    };
    let short = shrink(calls, 5_000, &mut |calls| judged(calls).is_err());
    let why = judged(&short).err().map_or(failure.why, |failure| failure.why);
    let lines: Vec<String> = short.iter().map(|&call| text(call)).collect();
    format!(
        "byte {} set to {}, {}\n  the shortest calls found before it: {}",
        at,
        value,
        why,
        lines.join(" ")
    )
}

/// The cursors are one region, and so is what may stand behind them.
const REGIONS: [(usize, usize); 6] = [
    (STATE, PRIORITY),
    (PRIORITY, USED),
    (USED, COUNT),
    (COUNT, ORDER),
    (ORDER, NEXT_SEMAPHORE),
    (NEXT_SEMAPHORE, LENGTH),
];

/// Bytes of one region change places, or several bytes change at once.
pub fn several_bytes(judge: &mut Judge, seed: u64, rounds: usize) -> Result<(), String> {
    let mut random = Random::new(seed);
    let bytes = reached(&stream(seed, 20 + random.below(600)));
    for _ in 0..rounds {
        let mut damaged = bytes;
        for _ in 0..1 + random.below(3) {
            damage_once(&mut damaged, &mut random);
        }
        judge.judge_shortly(&damaged, random.next())?;
    }
    Ok(())
}

fn damage_once(bytes: &mut Bytes, random: &mut Random) {
    let (start, end) = random.pick(&REGIONS);
    let one = start + random.below(end - start);
    let other = start + random.below(end - start);
    match random.below(4) {
        0 => bytes[one] = bytes[one].wrapping_add(1),
        1 => bytes[one] = bytes[other],
        _ => bytes.swap(one, other),
    }
}

/// Bytes of any value, then bytes that look like tables.
pub fn random_bytes(judge: &mut Judge, seed: u64, rounds: usize) -> Result<(), String> {
    let mut random = Random::new(seed);
    for round in 0..rounds {
        let bytes = if round % 2 == 0 { noise(&mut random) } else { plausible(&mut random) };
        judge.judge_shortly(&bytes, random.next())?;
    }
    Ok(())
}

fn noise(random: &mut Random) -> Bytes {
    let mut bytes = [0; LENGTH];
    bytes.iter_mut().for_each(|byte| *byte = random.next() as u8);
    bytes
}

/// Every byte in its range, the counts nearly right, and little else.
fn plausible(random: &mut Random) -> Bytes {
    let mut bytes = [0; LENGTH];
    for p in 1..PROCESSES {
        let state = random.pick(&[FREE, READY, SUSPENDED, SUSPENDED, WAITING, WAITING + 1]);
        bytes[STATE + p] = state;
        bytes[PRIORITY + p] = if state == FREE { 0 } else { 1 + random.below(3) as u8 };
    }
    bytes[STATE] = READY;
    bytes[STATE + 1 + random.below(PROCESSES - 1)] = CURRENT;
    let mut row: Vec<u8> = (0..PROCESSES as u8).collect();
    random.shuffle(&mut row);
    bytes[ORDER..ORDER + PROCESSES].copy_from_slice(&row);
    plausible_semaphore(&mut bytes, 0, random);
    plausible_semaphore(&mut bytes, 1, random);
    bytes
}

fn plausible_semaphore(bytes: &mut Bytes, s: usize, random: &mut Random) {
    let waiting = |&&state: &&u8| state == state_byte(State::Waiting(s));
    let waiters = bytes[STATE..STATE + PROCESSES].iter().filter(waiting).count() as i32;
    let count = random.one_in(6) as i32 - waiters;
    let at = COUNT + 4 * s;
    bytes[USED + s] = !random.one_in(6) as u8;
    bytes[at..at + 4].copy_from_slice(&count.to_le_bytes());
}
