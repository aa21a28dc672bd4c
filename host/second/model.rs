//! The second program as one machine: kernel, row and record, stepped together.

use crate::bytes::{encode, Bytes};
use crate::kernel::{Answer, Kernel};
use crate::page::{page, PageRow, Waiter};
use crate::record::{Entry, Record};
use crate::row::Row;
use crate::sound;
use crate::tables::Tables;
use crate::wrong::Wrong;

#[derive(Clone, Copy, PartialEq, Eq, Debug)]
pub struct Call {
    pub call: u8,
    pub a: i32,
    pub b: i32,
}

pub struct Model {
    pub kernel: Kernel,
    pub row: Row,
    /// Kept by the right kernel from boot; tables met half-way have no record.
    record: Option<Record>,
}

impl Model {
    pub fn boot(wrong: Wrong) -> Model {
        let record = if wrong == Wrong::Nothing { Some(Record::boot()) } else { None };
        Model { kernel: Kernel::new(Tables::boot(), wrong), row: Row::boot(), record }
    }

    pub fn met(tables: Tables, row: Row) -> Model {
        Model { kernel: Kernel::new(tables, Wrong::Nothing), row, record: None }
    }

    pub fn tables(&self) -> &Tables {
        &self.kernel.tables
    }

    /// The refusal, 0 for none, and the value of one call.
    pub fn step(&mut self, call: Call) -> (u8, i32) {
        let caller = self.tables().current().unwrap_or(0);
        let answer = self.kernel.call(call.call, call.a, call.b);
        for join in &self.kernel.joins {
            self.row.join(join);
        }
        if let Some(record) = &mut self.record {
            record.add(&Entry { caller, call: call.call, a: call.a, b: call.b, answer });
        }
        match answer {
            Answer::Done(value) => (0, value),
            Answer::Refused(refusal) => (refusal, -1),
        }
    }

    /// The process current now, 255 if a wrong kernel left none.
    pub fn told(&self) -> u8 {
        self.tables().current().map_or(255, |p| p as u8)
    }

    /// The answer of the one-call entry.
    pub fn answer(&mut self, call: Call) -> u64 {
        let (refusal, value) = self.step(call);
        packed(refusal, value, self.told())
    }

    /// What is wrong with the second program's own tables after a step, if anything.
    pub fn fault(&self) -> Option<&'static str> {
        let disagrees = |record: &Record| !record.agrees(self.tables());
        match &self.record {
            Some(record) if disagrees(record) => Some("demand 3: count and queue are those of the record"),
            Some(record) if !record.null_took_none() => Some("no accepted wait has caller 0"),
            _ => sound::fault(self.tables()),
        }
    }

    /// The answer and the rows of the status page when so many are lent.
    pub fn page(&self, lent: usize) -> (u64, Vec<PageRow>) {
        match page(self.tables(), lent) {
            Some(rows) => (packed(0, rows.len() as i32, self.told()), rows),
            None => (packed(16, -1, self.told()), Vec::new()),
        }
    }

    /// Who is still blocked by the record, if there is one.
    pub fn still_blocked(&self) -> Option<Vec<Waiter>> {
        self.record.as_ref().map(Record::still_blocked)
    }

    pub fn bytes(&self) -> Bytes {
        encode(self.tables(), &self.row)
    }
}

/// The three fields of the bench line in the low 48 bits.
pub fn packed(refusal: u8, value: i32, told: u8) -> u64 {
    (refusal as u64) << 40 | (value as u32 as u64) << 8 | told as u64
}

/// The answer to tables that are not sound.
pub fn unsound() -> u64 {
    packed(15, -1, 255)
}
