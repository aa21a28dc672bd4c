//! How often each call was done and each refusal given, and what else was met.

use crate::marks::Marks;
use crate::page_marks::PageMarks;
use second::layout::{LAST_CALL, LAST_REFUSAL};

/// A row for each call; unknown ones stand in row 0.
const ROWS: usize = LAST_CALL as usize + 1;

/// A column for each refusal, 0 for none; a call is never refused with 16.
pub const NUMBERS: usize = LAST_REFUSAL as usize + 1;

#[derive(Default)]
pub struct Tally {
    pub compared: u64,
    pub done: [u64; ROWS],
    pub refused: [[u64; NUMBERS]; ROWS],
    pub numbers: [u64; NUMBERS],
    pub marks: Marks,
    pub pages: PageMarks,
}

impl Tally {
    pub fn add(&mut self, call: u8, refusal: u8) {
        let row = if call <= LAST_CALL { call as usize } else { 0 };
        self.compared += 1;
        self.numbers[refusal as usize] += 1;
        match refusal {
            0 => self.done[row] += 1,
            _ => self.refused[row][refusal as usize] += 1,
        }
    }

    pub fn print(&self) {
        println!("calls compared: {}", self.compared);
        for call in 0..ROWS {
            let refused = self.refused[call].iter().enumerate().filter(|(_, &n)| n > 0);
            let text: Vec<String> = refused.map(|(number, n)| format!("{}: {}", number, n)).collect();
            let name = if call == 0 { "other".to_string() } else { format!("   {:02x}", call) };
            println!("  {} done {:>8}, refused {}", name, self.done[call], text.join(", "));
        }
        let numbers: Vec<String> = (1..NUMBERS).map(|n| format!("{}: {}", n, self.numbers[n])).collect();
        println!("  refusals in all {}", numbers.join(", "));
    }
}
