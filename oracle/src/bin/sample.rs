//! Writes document 01's sample phrase to standard output.
use std::io::Write;
fn main() {
    std::io::stdout()
        .write_all(&oracle::maker::encode(&oracle::maker::sample()))
        .unwrap();
}
