//! The bench program beside the second program's, byte for byte.

use crate::inputs::Input;
use crate::shrink::shrink;
use crate::tally::Tally;
use second::line;
use second::wrong::Wrong;
use std::io::Write;
use std::process::{Command, Stdio};

/// What a command prints for an input.
pub fn run(command: &[String], input: &[u8]) -> Result<Vec<u8>, String> {
    let told = |error: std::io::Error| format!("{}: {}", command[0], error);
    let mut child = Command::new(&command[0])
        .args(&command[1..])
        .stdin(Stdio::piped())
        .stdout(Stdio::piped())
        .spawn()
        .map_err(told)?;
    let mut pipe = child.stdin.take().expect("a piped input");
    let bytes = input.to_vec();
    // written beside the reading, so that neither pipe fills up
    let writer = std::thread::spawn(move || pipe.write_all(&bytes));
    let output = child.wait_with_output().map_err(told)?;
    writer.join().expect("the writer ends").map_err(told)?;
    if output.status.success() {
        Ok(output.stdout)
    } else {
        Err(format!("{} ended with {}", command[0], output.status))
    }
}

/// The first failing input of a run is made short; that takes many runs.
pub fn compare(
    command: &[String],
    input: &Input,
    tally: &mut Tally,
    shorten: bool,
) -> Result<String, String> {
    let found = run(command, &input.bytes)?;
    count(&input.bytes, &input.answers, tally);
    if found == input.answers {
        return Ok(String::new());
    }
    let mut why = difference(&found, &input.answers);
    if shorten {
        why += &format!("\n  the shortest input found: {}", short(command, &input.bytes));
    }
    Err(why)
}

fn count(input: &[u8], answers: &[u8], tally: &mut Tally) {
    let lines = line::lines(input, Wrong::Nothing);
    for (line, answer) in lines.iter().zip(answers.split(|&byte| byte == b'\n')) {
        let refusal =
            std::str::from_utf8(&answer[..2]).ok().and_then(|text| u8::from_str_radix(text, 16).ok());
        let call = line::read(line, Wrong::Nothing).map_or(0, |call| call.call);
        tally.add(call, refusal.expect("two digits"));
    }
}

fn difference(found: &[u8], expected: &[u8]) -> String {
    let at = found.iter().zip(expected).take_while(|(a, b)| a == b).count();
    let line = expected[..at].iter().filter(|&&byte| byte == b'\n').count() + 1;
    let shown = |bytes: &[u8]| {
        let text = bytes.split(|&byte| byte == b'\n').nth(line - 1).unwrap_or_default();
        String::from_utf8_lossy(&text[..text.len().min(40)]).into_owned()
    };
    format!(
        "line {} is '{}', not '{}' ({} bytes, not {})",
        line,
        shown(found),
        shown(expected),
        found.len(),
        expected.len()
    )
}

/// The lines of a failing input that still fail, long ones cut in print.
fn short(command: &[String], input: &[u8]) -> String {
    let lines: Vec<&[u8]> = input.split_inclusive(|&byte| byte == b'\n').collect();
    let mut fails = |lines: &[&[u8]]| {
        let input = lines.concat();
        run(command, &input).map_or(true, |found| found != line::bench(&input, Wrong::Nothing))
    };
    let short = shrink(&lines, 300, &mut fails).concat();
    let cut = if short.len() > 2_000 { " .." } else { "" };
    format!("{:?}{}", String::from_utf8_lossy(&short[..short.len().min(2_000)]), cut)
}
