//! The arguments COUNT SEED, which the programs with drawn inputs share.

use crate::random::Random;
use std::process::exit;

/// COUNT, and the generator that SEED begins; without both, says how the program is called and ends it.
pub fn count_and_seed(program: &str) -> (usize, Random) {
    let args: Vec<String> = std::env::args().skip(1).collect();
    match &args[..] {
        [count, seed] => match (count.parse(), seed.parse()) {
            (Ok(count), Ok(seed)) => (count, Random(seed)),
            _ => usage(program),
        },
        _ => usage(program),
    }
}

fn usage(program: &str) -> ! {
    eprintln!("{program} COUNT SEED, two numbers");
    exit(2);
}
