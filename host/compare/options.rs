//! The command line.

use compare::steps::View;
use compare::streams::Kind;

pub struct Options {
    pub view: View,
    pub long: bool,
    pub stop: bool,
    pub seed: u64,
    pub scale: usize,
    pub parts: Vec<String>,
    pub stream: Option<(Kind, usize)>,
    pub bench: Vec<String>,
}

pub fn read(words: Vec<String>) -> Options {
    let mut options = Options {
        view: View::Bytes,
        long: false,
        stop: false,
        seed: 1,
        scale: 1,
        parts: Vec::new(),
        stream: None,
        bench: Vec::new(),
    };
    let mut words = words.into_iter();
    while let Some(word) = words.next() {
        match word.as_str() {
            "--long" => options.long = true,
            "--stop" => options.stop = true,
            "--lists" => options.view = View::Lists,
            "--seed" => options.seed = number(words.next()),
            "--scale" => options.scale = number(words.next()) as usize,
            "stream" => options.stream = Some((Kind::Mixed, number(words.next()) as usize)),
            "small" => options.stream = Some((Kind::Small, number(words.next()) as usize)),
            "crowd" => options.stream = Some((Kind::Crowd, number(words.next()) as usize)),
            "full" => options.stream = Some((Kind::Full, number(words.next()) as usize)),
            "--" => options.bench = words.by_ref().collect(),
            _ => options.parts.push(word),
        }
    }
    options
}

fn number(word: Option<String>) -> u64 {
    word.and_then(|word| word.parse().ok()).expect("a number")
}
