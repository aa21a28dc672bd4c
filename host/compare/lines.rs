//! Inputs for the bench program: calls as lines, and lines that are none.

use crate::random::Random;
use crate::steps::text;
use second::model::Call;

pub fn of_calls(calls: &[Call]) -> Vec<u8> {
    calls.iter().map(|&call| text(call) + "\n").collect::<String>().into_bytes()
}

const VALID: &[u8] = b"0b00000000abcdef00";

/// Lines of every wrong kind, and the right ones next to them, without their ends.
pub fn strange() -> Vec<Vec<u8>> {
    let mut lines: Vec<Vec<u8>> = SHORT.iter().map(|line| line.to_vec()).collect();
    lines.extend((0..40).map(|length| vec![b'0'; length]));
    lines.extend(
        [100, 255, 256, 257, 4095, 4096, 4097, 5_000, 65_535, 65_536, 70_000, 300_000]
            .map(|length| vec![b'0'; length]),
    );
    lines.extend((0..VALID.len()).map(|at| with(at, b'g')));
    lines.extend((0..VALID.len()).map(|at| with(at, VALID[at].to_ascii_uppercase())));
    lines.extend((0..=255).filter(|&byte| byte != b'\n').map(|byte| with(7, byte)));
    lines.extend((0..=255).filter(|&byte| byte != b'\n').map(|byte| [VALID, &[byte][..]].concat()));
    lines.extend((0..=255).filter(|&byte| byte != b'\n').map(|byte| vec![byte]));
    lines.push([VALID, &vec![b' '; 9_000][..]].concat());
    lines.push([VALID, VALID].concat());
    lines
}

const SHORT: &[&[u8]] = &[
    b"",
    b"\r",
    b"\0",
    b"0a0000000000000000\r",
    b"\r0a0000000000000000",
    b"0a0000000000000000\0",
    b"\00a0000000000000000",
    b"0a00000000\000000000",
    b" 0a0000000000000000",
    b"0a0000000000000000 ",
    b"0x0a00000000000000",
    b"+a0000000000000000",
    b"-10000000000000000",
    b"0A0000000000000000",
    b"0B0000000000000000",
    b"0a000000000000000_",
    b"\xef\xbb\xbf0a0000000000000000",
    b"\xef\xbc\x90a0000000000000",
    b"0a 0000000000000000",
    b"0a00000000 00000000",
    b"yield",
];

fn with(at: usize, byte: u8) -> Vec<u8> {
    let mut line = VALID.to_vec();
    line[at] = byte;
    line
}

/// All strange lines among calls, so that a 12 is told in many states.
pub fn strange_among(calls: &[Call], seed: u64) -> Vec<u8> {
    let mut random = Random::new(seed);
    let mut strange = strange();
    random.shuffle(&mut strange);
    let mut strange = strange.into_iter();
    let mut input = Vec::new();
    for &call in calls {
        if random.one_in(2) {
            input.extend(strange.next().unwrap_or_else(|| random_line(&mut random)));
            input.push(b'\n');
        }
        input.extend(text(call).into_bytes());
        input.push(b'\n');
    }
    input
}

/// A valid line with something done to it.
fn random_line(random: &mut Random) -> Vec<u8> {
    let mut line = VALID.to_vec();
    for _ in 0..1 + random.below(3) {
        let at = random.below(line.len());
        match random.below(4) {
            0 => drop(line.remove(at)),
            1 => line.insert(at, random.pick(b"0aAfFgG \r\0\t/:@`")),
            2 => line[at] = random.pick(b"0123456789abcdefABCDEF"),
            _ => line[at] = random.pick(b"gGzZ \r\0\t\x0b\x7f\x80\xff/:@`-+.x"),
        }
    }
    line
}

/// Whole inputs with an end or a beginning of their own.
pub fn whole() -> Vec<(&'static str, Vec<u8>)> {
    let long = vec![b'a'; 200_000];
    let mut inputs: Vec<(&str, Vec<u8>)> = WHOLE.iter().map(|&(name, text)| (name, text.to_vec())).collect();
    inputs.push(("a long line, then a call", [&long[..], b"\n060000001400000000\n"].concat()));
    inputs.push(("a long last line without newline", long));
    inputs
}

const WHOLE: &[(&str, &[u8])] = &[
    ("empty input", b""),
    ("one newline", b"\n"),
    ("newlines only", b"\n\n\n\n"),
    ("a last line without newline", b"060000001400000000\n070000000100000000"),
    ("one line without newline", b"060000001400000000"),
    ("a last line of one digit", b"060000001400000000\n0"),
    ("a last line of one carriage return", b"060000001400000000\n\r"),
    ("a last line of one NUL", b"060000001400000000\n\0"),
    ("one NUL", b"\0"),
    ("an empty line before the end", b"060000001400000000\n\n"),
    ("lines that end in carriage return and newline", b"060000001400000000\r\n070000000100000000\r\n"),
    ("carriage returns for newlines", b"060000001400000000\r070000000100000000\r"),
    ("17 digits without newline", b"06000000140000000"),
    ("19 digits without newline", b"0600000014000000000"),
    ("upper case", b"060000003F00000000\n07000000010000000A\n0B0000000000000000\n0A0000000000000000\n"),
];
