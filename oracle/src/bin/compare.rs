//! compare COUNT SEED: our decoder through the C interface against the original, on COUNT records (good ones of every size, and
//! damaged copies) and COUNT calls of the other entries. Every word, refusal and untouched cell is compared. Prints how many were
//! compared and how many differ; the exit status is 0 only for none.

use oracle::arguments::count_and_seed;
use oracle::calls::Call;
use oracle::damage::{damage, lengths};
use oracle::entry::ENTRY_WORDS;
use oracle::generate::{alike, phrase, Kind};
use oracle::maker::encode;
use oracle::ours::Desk;
use oracle::phrase::Phrase;
use oracle::random::Random;
use oracle::tally::{conclude, Answers, Tally};
use oracle::wanted;

#[derive(Default)]
struct Records {
    tally: Tally,
    answers: Answers,
    masked_out: usize,
    desk: Desk,
}

impl Records {
    /// With lent buffers of drawn lengths, around these words of output.
    fn compare(&mut self, r: &mut Random, record: &[u8], words: usize) {
        let (best, back, out) = lengths(r, words);
        let wanted = wanted::decode(record, best, back, out);
        self.answers.count(record, &wanted);
        self.masked_out += usize::from(wanted.is_ok() && Phrase::parse(record).lists_masked_out());
        let got = self.desk.decode(record, best, back, out);
        self.tally
            .compare(&Ok(wanted), &got, || format!("record {record:?}"));
    }
}

/// One in 200 is maximal, and one in 10 has sums that llr does not tell apart.
fn drawn(r: &mut Random, i: usize) -> Phrase {
    match i % 10 {
        _ if i % 200 == 0 => phrase(r, Kind::Maximal),
        4 => alike(r),
        _ => phrase(r, [Kind::Tiny, Kind::Tiny, Kind::Typical][i % 3]),
    }
}

fn main() {
    let (count, mut r) = count_and_seed("compare");
    let (mut records, mut calls) = (Records::default(), Tally::default());
    for i in 0..count {
        let p = drawn(&mut r, i);
        let mut record = encode(&p);
        if i % 2 == 1 {
            damage(&mut r, &mut record);
            record.shrink_to_fit();
        }
        records.compare(&mut r, &record, ENTRY_WORDS * p.candidates.len());
        let call = Call::draw(&mut r);
        calls.compare(&call.wanted(), &call.ours(), || format!("{call:?}"));
    }
    println!(
        "{} records, of which {}",
        records.tally.compared, records.answers
    );
    println!(
        "{} accepted records list a frame on a 0 byte of the mask; {} calls of the other entries",
        records.masked_out, calls.compared
    );
    conclude(records.tally.differ + calls.differ);
}
