//! The row `order` of the byte layout, followed from the lists' side: the lists
//! tell who joined in front of whom, and the row moves that one number.

#[derive(Clone, Copy, PartialEq, Eq, Debug)]
pub struct Join {
    pub process: usize,
    /// The entry right behind it on the ready list, or None for the end.
    pub before: Option<usize>,
}

#[derive(Clone, PartialEq, Eq, Debug)]
pub struct Row(pub Vec<usize>);

impl Row {
    pub fn boot() -> Row {
        Row((0..crate::tables::PROCESSES).collect())
    }

    /// The process is taken out and put back in front of `before`, else last.
    pub fn join(&mut self, join: &Join) {
        self.0.retain(|&q| q != join.process);
        let at = self.0.iter().position(|&q| Some(q) == join.before);
        self.0.insert(at.unwrap_or(self.0.len()), join.process);
    }
}
