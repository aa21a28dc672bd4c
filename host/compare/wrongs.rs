//! Wrong kernels, each caught by the comparison's own inputs.

use crate::inputs::Input;
use crate::steps::text;
use second::line;
use second::model::{Call, Model};
use second::wrong::Wrong;

/// Which inputs catch a wrong kernel: by the bench's answers, else by the tables.
pub fn caught(wrong: Wrong, inputs: &[Input]) -> Result<String, String> {
    let by_answers: Vec<&Input> = inputs.iter().filter(|input| answers_differ(wrong, input)).collect();
    if let Some(first) = by_answers.first() {
        let told = format!(
            "caught by the answers to {} of {} inputs, first by '{}'",
            by_answers.len(),
            inputs.len(),
            first.name
        );
        return Ok(told);
    }
    let by_tables = inputs.iter().find_map(|input| tables_differ(wrong, input).map(|call| (input, call)));
    match by_tables {
        Some((input, call)) => Ok(format!("caught by the tables after {} in '{}'", text(call), input.name)),
        None => Err("no input tells it from the right one".into()),
    }
}

fn answers_differ(wrong: Wrong, input: &Input) -> bool {
    line::bench(&input.bytes, wrong) != input.answers
}

/// The first call after which the tables differ, row and all.
fn tables_differ(wrong: Wrong, input: &Input) -> Option<Call> {
    let mut wrong_model = Model::boot(wrong);
    let mut model = Model::boot(Wrong::Nothing);
    let calls = line::lines(&input.bytes, Wrong::Nothing)
        .into_iter()
        .filter_map(|text| line::read(text, Wrong::Nothing));
    calls.into_iter().find(|&call| {
        wrong_model.step(call);
        model.step(call);
        wrong_model.tables() != model.tables() || wrong_model.row != model.row
    })
}
