//! The original's listing of the record on standard input, which has to be one that is accepted.

use oracle::listing::listing;
use oracle::phrase::Phrase;
use oracle::reference::{decode, Given};
use std::io::Read;

fn main() {
    let mut record = Vec::new();
    std::io::stdin().read_to_end(&mut record).unwrap();
    print!(
        "{}",
        listing(&decode(&Phrase::parse(&record), Given::WithinMask))
    );
}
