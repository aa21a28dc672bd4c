//! The exported entries beside the second program, step by step.

use crate::entries::Lent;
use crate::marks::Before;
use crate::pages;
use crate::shrink::shrink;
use crate::tally::Tally;
use second::bytes::{decode, Bytes};
use second::model::{Call, Model};
use second::wrong::Wrong;

/// What is compared after a call: every byte, or only what the bytes mean. The
/// second is for a rival that knows lists and no row.
#[derive(Clone, Copy, PartialEq, Eq)]
pub enum View {
    Bytes,
    Lists,
}

/// So few calls that the status page is compared after each of them; of more it is
/// after one in eight, and always at the end.
pub const SHORT: usize = 100;

pub fn text(call: Call) -> String {
    format!("{:02x}{:08x}{:08x}", call.call, call.a, call.b)
}

/// Calls from boot; the first difference is told.
pub fn from_boot(calls: &[Call], view: View, tally: &mut Tally) -> Result<(), String> {
    let mut lent = Lent::blank(calls.len() % 8);
    let mut model = Model::boot(Wrong::Nothing);
    if lent.boot() != 0 {
        return Err("boot does not answer 0".into());
    }
    let at_boot =
        same(&lent, &model, view).and_then(|_| pages::of_every_size(&mut lent, &model, &mut tally.pages));
    at_boot.map_err(|why| format!("at boot: {}", why))?;
    for (n, &call) in calls.iter().enumerate() {
        let mut made = one(&mut lent, &mut model, call, view, tally);
        if calls.len() <= SHORT || n % 8 == 0 {
            made = made.and_then(|_| pages::of_sound(&mut lent, &model, call, &mut tally.pages));
        }
        made.map_err(|why| format!("call {}, {}: {}", n + 1, text(call), why))?;
    }
    pages::of_every_size(&mut lent, &model, &mut tally.pages).map_err(|why| format!("at the end: {}", why))
}

/// One call on both; a refusal changes no byte in either view.
pub fn one(
    lent: &mut Lent,
    model: &mut Model,
    call: Call,
    view: View,
    tally: &mut Tally,
) -> Result<(), String> {
    let before = Before::see(model.tables(), call);
    let bytes = lent.bytes().to_vec();
    let found = lent.call(call.call, call.a, call.b);
    let expected = model.answer(call);
    let refusal = (expected >> 40) as u8;
    tally.add(call.call, refusal);
    tally.marks.see(&before, call, model.tables());
    if found != expected {
        return Err(format!("answer {:012x}, not {:012x}", found, expected));
    }
    if refusal != 0 && lent.bytes() != &bytes[..] {
        return Err("a refused call changed the tables".into());
    }
    if let Some(fault) = model.fault() {
        return Err(format!("the second program's own tables: {}", fault));
    }
    same(lent, model, view)
}

fn same(lent: &Lent, model: &Model, view: View) -> Result<(), String> {
    let expected = model.bytes();
    if view == View::Bytes && lent.bytes() != &expected[..] {
        return Err(difference(lent.bytes(), &expected));
    }
    match decode(lent.bytes()) {
        Ok((tables, _)) if tables == *model.tables() => (),
        Ok(_) => return Err(format!("the tables read back differ: {}", difference(lent.bytes(), &expected))),
        Err(fault) => return Err(format!("the bytes left do not hold that {}", fault)),
    }
    if lent.check() != 0 {
        return Err("the tables left are called unsound".into());
    }
    if !lent.fence_untouched() {
        return Err("a byte outside the tables was touched".into());
    }
    Ok(())
}

/// As `from_boot`; a failing list of calls is told in its short form.
pub fn compare(calls: &[Call], view: View, tally: &mut Tally) -> Result<(), String> {
    from_boot(calls, view, tally).map_err(|_| {
        let mut fails = |calls: &[Call]| from_boot(calls, view, &mut Tally::default()).is_err();
        let short = shrink(calls, 20_000, &mut fails);
        let why = from_boot(&short, view, &mut Tally::default()).err().unwrap_or_default();
        let lines: Vec<String> = short.iter().map(|&call| text(call)).collect();
        format!("{}\n  the shortest input found: {}", why, lines.join(" "))
    })
}

/// The bytes that differ, for a message.
fn difference(found: &[u8], expected: &Bytes) -> String {
    let wrong: Vec<String> = (0..expected.len())
        .filter(|&i| found[i] != expected[i])
        .take(8)
        .map(|i| format!("byte {} is {}, not {}", i, found[i], expected[i]))
        .collect();
    wrong.join("; ")
}
