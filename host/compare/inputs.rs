//! The inputs that the bench is run on and the wrong kernels are caught with.

use crate::edges::{self, EDGES, SESSION};
use crate::generate::stream;
use crate::lines;
use second::line;
use second::wrong::Wrong;

pub struct Input {
    pub name: String,
    pub bytes: Vec<u8>,
    /// What the second program answers.
    pub answers: Vec<u8>,
}

impl Input {
    fn new(name: String, bytes: Vec<u8>) -> Input {
        let answers = line::bench(&bytes, Wrong::Nothing);
        Input { name, bytes, answers }
    }
}

/// The session, every edge, strange whole inputs, and generated calls, alone and
/// with strange lines among them.
pub fn all(streams: &[u64], strange: &[u64]) -> Vec<Input> {
    let edge = |&(name, text): &(&str, &str)| {
        Input::new(format!("edge: {}", name), lines::of_calls(&edges::calls(text)))
    };
    let generated = |&seed: &u64| {
        Input::new(format!("5000 generated calls, seed {}", seed), lines::of_calls(&stream(seed, 5000)))
    };
    let among = |&seed: &u64| {
        let bytes = lines::strange_among(&stream(seed, 4000), seed);
        Input::new(format!("strange lines among 4000 calls, seed {}", seed), bytes)
    };
    let mut inputs = vec![Input::new("session".into(), SESSION.to_vec())];
    inputs.extend(EDGES.iter().map(edge));
    inputs.extend(
        lines::whole().into_iter().map(|(name, bytes)| Input::new(format!("lines: {}", name), bytes)),
    );
    inputs.extend(streams.iter().map(generated));
    inputs.extend(strange.iter().map(among));
    inputs
}
