//! Streams of calls that reach deep states. Each call is chosen with the tables
//! of the second program in view; the stream is then a fixed list of calls.

use crate::plans::PLANS;
use crate::writer::Writer;
use second::model::{Call, Model};
use second::wrong::Wrong;

/// A stream from boot.
pub fn stream(seed: u64, length: usize) -> Vec<Call> {
    let mut writer = Writer::new(Model::boot(Wrong::Nothing), seed);
    while writer.calls.len() < length {
        let plan = writer.random.pick(PLANS);
        plan(&mut writer);
    }
    writer.calls.truncate(length);
    writer.calls
}

/// One call to make on tables met half-way; the model is handed back as it came.
pub fn one_call(model: Model, seed: u64) -> (Call, Model) {
    let mut writer = Writer::new(model, seed);
    let call = if writer.random.one_in(8) { writer.odd() } else { writer.sensible() };
    (call, writer.model)
}
