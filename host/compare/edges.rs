//! The session and both sides of each edge of document 01, with the answers that
//! the document gives, or document 02 where it changes them.
//!
//! A step is a call and its arguments, `= value` or `! refusal`, `@ process now
//! current`, and `* n` to make it n times. What isn't written isn't expected.

use crate::entries::Lent;
use crate::steps;
use second::line;
use second::model::Call;
use second::wrong::Wrong;

struct Step {
    call: Call,
    value: Option<i32>,
    refusal: Option<u8>,
    told: Option<u8>,
}

impl Step {
    /// Whether an answer is the one expected.
    fn meets(&self, refusal: u8, value: i32, told: u8) -> bool {
        let right = match (self.refusal, self.value) {
            (Some(expected), _) => refusal == expected && value == -1,
            (None, Some(expected)) => refusal == 0 && value == expected,
            (None, None) => refusal == 0,
        };
        right && self.told.map_or(true, |expected| told == expected)
    }
}

pub const SESSION: &[u8] = b"060000001400000000
070000000100000000
030000000000000000
060000001400000000
070000000200000000
010000000000000000
0b0000000000000000
020000000000000000
010000000500000000
010000007800000000
";

pub const SESSION_ANSWERS: &[u8] = b"000000000100
000000001401
000000000001
000000000201
000000001402
000000000101
00ffffffff01
000000000102
02ffffffff02
01ffffffff02
";

/// Processes 1 to 7 of priority 20, all suspended.
const SEVEN: &str = "06 20 *7; ";

pub const EDGES: &[(&str, &str)] = &[
    ("wait, count 1, caller 3", "SEVEN 03 1; 07 3 @3; 01 0 =1 @3; 0b 0 =0"),
    ("wait, count 0, caller 3", "SEVEN 03 0; 07 3 @3; 01 0 =1 @0; 0b 0 =-1"),
    ("wait on 120, on -1, on 119 free", "01 120 !1; 01 -1 !1; 01 119 !2"),
    ("signal at the top", "03 2147483646 =0; 02 0 =1; 0b 0 =2147483647; 02 0 !5; 0b 0 =2147483647"),
    ("reset of 120 to -1", "05 120 -1 !3; 05 120 0 !1; 05 119 -1 !3; 05 119 0 !2"),
    ("priority 63, 64 and 0", "06 63 =1; 06 64 !11; 06 0 !11; 06 -1 !11; 06 1 =2"),
    ("suspend, resume and kill 0", "08 0 !10; 07 0 !17; 09 0 !10; 06 20; 07 1 @1; 08 0 !10; 07 0 !18; 09 0 !10"),
    ("kill the second of waiters 4, 6, 7",
     "SEVEN 03 0; 07 4; 01 0 @0; 07 6; 01 0 @0; 07 7; 01 0 @0; 0b 0 =-3; 09 6 =1 @0; 0b 0 =-2; 02 0 @4; 08 4 @0; 02 0 @7; 0b 0 =0"),
    ("wait by process 0, count 1 and 0", "03 1; 01 0 !10 @0; 0b 0 =1; 03 0; 01 1 !10 @0; 0b 1 =0"),
    ("wait by process 0 where others wait", "SEVEN 03 0; 07 3 @3; 01 0 @0; 01 0 !10 @0; 0b 0 =-1; 02 0 @3; 0b 0 =0"),
    ("wait by process 0 on 120, on -1, on 119 free", "01 120 !1; 01 -1 !1; 01 119 !2; 01 0 !2; 03 1; 01 0 !10; 04 0; 01 0 !2"),
    ("two made, 0 deleted, one made", "03 0 =0; 03 0 =1; 04 0 =1; 03 0 =2"),
    ("only 0 free", "03 0 *120; 03 0 !4; 04 0; 03 5 =0; 0b 0 =5; 04 0; 03 6 =0; 03 0 !4"),
    ("only 7 free, cursor past it", "03 0 *120; 04 3; 03 0 =3; 04 7; 03 0 =7; 03 0 !4"),
    ("the semaphore cursor goes round", "03 0 *119; 04 5; 03 0 =119; 03 0 =5; 03 0 !4"),
    ("count 0 and -1 to make", "03 -1 !3; 03 -2147483648 !3; 03 0 =0"),
    ("all slots live", "06 1 *31; 06 1 !8; 06 64 !11; 09 17; 06 1 =17; 06 1 !8"),
    ("the process cursor goes round", "06 9 *30; 09 4; 06 9 =31; 06 9 =4; 06 9 !8"),
    ("process numbers", "07 32 !6; 07 -1 !6; 08 32 !6; 08 -1 !6; 09 32 !6; 09 -1 !6; 07 31 !7; 08 31 !7; 09 31 !7"),
    ("wrong states", "SEVEN 03 0; 08 1 !9; 07 1 @1; 07 1 !17; 01 0 @0; 07 1 !19; 08 1 !19; 07 2 @2; 07 3 @3; 07 2 !18; 07 0 !18; 08 3 @2; 08 3 !9"),
    ("calls 00, 0c and ff", "00 !13; 0c !13; ff !13; 00 1 1 !13; ff -1 -1 !13"),
    ("spare arguments",
     "01 500 1 !14; 02 0 1 !14; 03 -1 1 !14; 04 0 -1 !14; 06 0 1 !14; 07 99 1 !14; 08 0 1 !14; 09 0 1 !14; 0a 1 0 !14; 0a 0 1 !14; 0b -1 1 !14; 05 0 1 !2"),
    ("equals change places", "SEVEN 07 1 @1; 07 2 @2; 07 3 @1; 0a @3; 0a @2; 0a @1"),
    ("higher runs, lower does not", "06 20; 06 30; 06 10; 07 1 @1; 07 2 @2; 07 3 @2; 0a @2; 08 2 =30 @1; 08 1 =20 @3; 08 3 =10 @0; 0a @0"),
    ("a signal without waiters keeps the caller", "SEVEN 03 0; 07 1; 07 2 @2; 02 0 =1 @2; 0b 0 =1"),
    ("a signal with a waiter lets equals change places", "SEVEN 03 0; 07 1 @1; 01 0 @0; 07 2 @2; 07 3 @3; 02 0 =1 @2"),
    ("a released waiter of lower priority still reschedules",
     "06 10; 06 20; 06 20; 03 0; 07 1; 01 0 @0; 07 2 @2; 07 3 @3; 02 0 @2"),
    ("delete releases in queue order and reschedules once",
     "SEVEN 03 0; 07 3; 01 0; 07 1; 01 0; 07 2; 01 0 @0; 07 7 @7; 04 0 =1 @3; 0b 0 !2; 0a @1; 0a @2; 0a @7"),
    ("delete without waiters keeps the caller", "SEVEN 03 4; 07 1; 07 2 @2; 04 0 =1 @2"),
    ("reset releases and the count is b",
     "SEVEN 03 0; 07 3; 01 0; 07 1; 01 0 @0; 0b 0 =-2; 05 0 7 =1 @3; 0b 0 =7; 0a @1; 05 0 0 =1 @1; 0b 0 =0"),
    ("a deleted count is gone when made again", "03 9; 04 0; 03 0 *120; 0b 0 =0"),
    ("kill of the current, of a ready, of a suspended one",
     "SEVEN 07 1; 07 2 @2; 07 3 @1; 09 3 =1 @1; 09 4 =1 @1; 09 1 =1 @2; 07 3 !7"),
    ("suspend answers the priority", "06 63; 07 1 =63 @1; 08 1 =63 @0; 08 1 !9"),
    ("a killed waiter's number is a new process",
     "03 0; 06 20; 07 1 @1; 01 0 @0; 09 1; 06 20 *30; 06 30 =1; 02 0 @0; 0b 0 =1; 07 1 =30 @1"),
];

/// The calls of the session.
pub fn session() -> Vec<Call> {
    let lines = line::lines(SESSION, Wrong::Nothing);
    lines.into_iter().filter_map(|text| line::read(text, Wrong::Nothing)).collect()
}

/// The calls of one edge.
pub fn calls(text: &str) -> Vec<Call> {
    steps(text).iter().map(|step| step.call).collect()
}

/// The library gives the answers that the edge expects.
pub fn met(text: &str) -> Result<(), String> {
    let mut lent = Lent::blank(0);
    lent.boot();
    for (n, step) in steps(text).iter().enumerate() {
        let answer = lent.call(step.call.call, step.call.a, step.call.b);
        if !step.meets((answer >> 40) as u8, (answer >> 8) as i32, answer as u8) {
            return Err(format!("step {}, {}: answer {:012x}", n + 1, steps::text(step.call), answer));
        }
    }
    Ok(())
}

/// The steps of one edge.
fn steps(text: &str) -> Vec<Step> {
    let text = text.replace("SEVEN ", SEVEN);
    text.split(';').flat_map(|step| repeated(step.trim())).collect()
}

fn repeated(text: &str) -> Vec<Step> {
    let words: Vec<&str> = text.split_whitespace().collect();
    let times = number_behind(&words, '*').unwrap_or(1);
    (0..times).map(|_| step(&words)).collect()
}

fn step(words: &[&str]) -> Step {
    let plain: Vec<&&str> =
        words.iter().filter(|word| !word.starts_with(&['=', '!', '@', '*'][..])).collect();
    let argument = |n: usize| plain.get(n).map_or(0, |word| word.parse().expect("an argument"));
    Step {
        call: Call {
            call: u8::from_str_radix(plain[0], 16).expect("a call"),
            a: argument(1),
            b: argument(2),
        },
        value: number_behind(words, '=').map(|n| n as i32),
        refusal: number_behind(words, '!').map(|n| n as u8),
        told: number_behind(words, '@').map(|n| n as u8),
    }
}

fn number_behind(words: &[&str], mark: char) -> Option<i64> {
    words.iter().find_map(|word| word.strip_prefix(mark)).map(|number| number.parse().expect("a number"))
}
