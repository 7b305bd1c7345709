//! Compares the proved judge and machine, through their C functions, with the reference: in speed, on tables, rule files and loops of
//! several kinds, and in their answers, on as many made tables and runs as wanted, each with its made rule file. Draws the speed, in
//! docs/speed.svg unless another path is given. Measures the stack that the C functions need, without a rule file and with one.
//!
//! It links crates/yithrel/out/libyithrel.a: `(cd crates/yithrel && rt lib)` comes first.
//!
//!     bench speed
//!     bench compare SEED COUNT
//!     bench speed-runs
//!     bench compare-runs SEED COUNT
//!     bench plot [PATH]
//!     bench stack

mod judging;
mod loops;
mod plot;
mod policies;
mod proved;
mod running;
mod stack;
mod times;

const PICTURE: &str = concat!(env!("CARGO_MANIFEST_DIR"), "/../docs/speed.svg");

fn main() {
    let words: Vec<String> = std::env::args().skip(1).collect();
    let words: Vec<&str> = words.iter().map(String::as_str).collect();
    match words[..] {
        ["speed"] => judging::speed(),
        ["speed-runs"] => running::speed(),
        ["plot"] => plot::write(PICTURE),
        ["plot", path] => plot::write(path),
        ["stack"] => stack::measure(),
        ["compare", seed, count] => match (seed.parse(), count.parse()) {
            (Ok(seed), Ok(count)) => judging::compare(seed, count),
            _ => usage(),
        },
        ["compare-runs", seed, count] => match (seed.parse(), count.parse()) {
            (Ok(seed), Ok(count)) => running::compare(seed, count),
            _ => usage(),
        },
        _ => usage(),
    }
}

fn usage() {
    eprintln!("usage: bench speed | compare SEED COUNT | speed-runs | compare-runs SEED COUNT | plot [PATH] | stack");
    std::process::exit(2);
}
