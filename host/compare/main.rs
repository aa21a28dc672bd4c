//! compare [--long] [--stop] [--lists] [--seed N] [--scale N] PART.. [-- BENCH COMMAND]
//!
//! The parts are `entries` (the library this program is linked with), `bench`
//! (the command at the end) and `wrong` (the wrong kernels). `stream N` prints N
//! calls as lines; `small N`, `crowd N` and `full N` those of one kind. `--scale N` makes one N-th of the calls, `--stop` ends at the
//! first failure, `--lists` compares what the bytes mean and not the row.

mod entries_part;
mod options;
mod parts;

fn main() {
    let options = options::read(std::env::args().skip(1).collect());
    std::process::exit(if parts::run(&options) { 0 } else { 1 });
}
