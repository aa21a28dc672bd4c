//! The bench program: lines of hexadecimal in, lines of hexadecimal out.

use crate::model::{packed, Call, Model};
use crate::wrong::Wrong;

/// The whole output for a whole input.
pub fn bench(input: &[u8], wrong: Wrong) -> Vec<u8> {
    let mut model = Model::boot(wrong);
    let mut output = Vec::new();
    for line in lines(input, wrong) {
        output.extend_from_slice(&answer_line(&mut model, line));
    }
    output
}

/// A line ends at a newline; what follows the last newline counts if it isn't empty.
pub fn lines(input: &[u8], wrong: Wrong) -> Vec<&[u8]> {
    let mut lines: Vec<&[u8]> = input.split(|&byte| byte == b'\n').collect();
    let last = lines.pop();
    if wrong != Wrong::LastLineLost {
        lines.extend(last.filter(|line| !line.is_empty()));
    }
    if wrong == Wrong::EmptySkipped {
        lines.retain(|line| !line.is_empty());
    }
    lines
}

fn answer_line(model: &mut Model, line: &[u8]) -> [u8; 13] {
    let wrong = model.kernel.wrong;
    let answer = match read(line, wrong) {
        Some(call) => model.answer(call),
        None if wrong == Wrong::LineTells255 => packed(12, -1, 255),
        None => packed(12, -1, model.told()),
    };
    let mut text = [b'\n'; 13];
    for (place, digit) in text[..12].iter_mut().enumerate() {
        *digit = b"0123456789abcdef"[(answer >> (44 - 4 * place) & 15) as usize];
    }
    text
}

/// The call in a line of 18 hexadecimal digits.
pub fn read(line: &[u8], wrong: Wrong) -> Option<Call> {
    let digits = digits(line, wrong)?;
    let number = |part: &[u8]| part.iter().fold(0u32, |sum, &digit| sum << 4 | digit as u32);
    Some(Call {
        call: number(&digits[..2]) as u8,
        a: number(&digits[2..10]) as i32,
        b: number(&digits[10..]) as i32,
    })
}

fn digits(line: &[u8], wrong: Wrong) -> Option<Vec<u8>> {
    let mut line = line.to_vec();
    match wrong {
        Wrong::ReturnStripped if line.ends_with(b"\r") => line.truncate(line.len() - 1),
        Wrong::PrefixRead => line.truncate(18),
        Wrong::ShortPadded if line.len() < 18 => line.resize(18, b'0'),
        Wrong::NulEnds => line.truncate(line.iter().position(|&b| b == 0).unwrap_or(line.len())),
        _ => (),
    }
    let read: Option<Vec<u8>> = line.iter().map(|&byte| digit(byte, wrong)).collect();
    read.filter(|digits| digits.len() == 18)
}

fn digit(byte: u8, wrong: Wrong) -> Option<u8> {
    match byte {
        b'0'..=b'9' => Some(byte - b'0'),
        b'a'..=b'f' => Some(byte - b'a' + 10),
        b'A'..=b'F' if wrong != Wrong::UpperRefused => Some(byte - b'A' + 10),
        _ => None,
    }
}
