//! The second program's bench: the same lines answered by the second program.
//! With the name of a wrong kernel as argument it answers as that one does.

use std::io::{Read, Write};

fn main() -> std::io::Result<()> {
    let name = std::env::args().nth(1).unwrap_or("Nothing".into());
    let wrong = second::wrong::kernel(&name).expect("the name of a kernel");
    let mut input = Vec::new();
    std::io::stdin().read_to_end(&mut input)?;
    let output = second::line::bench(&input, wrong);
    std::io::stdout().write_all(&output)
}
