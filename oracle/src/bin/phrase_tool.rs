//! phrase_tool COUNT SEED: tools/phrase.py on COUNT records, good ones of every size, with and without shared bytes, and damaged copies.
//! The number that its `check` finds is held to the refusal of our decoder, and the text of its `show` to the record that it makes.
//! Prints how many were compared and how many differ; the exit status is 0 only for none.

use oracle::arguments::count_and_seed;
use oracle::damage::damage;
use oracle::entry::ENTRY_WORDS;
use oracle::generate::{phrase, Kind};
use oracle::maker::{encode, encode_shared};
use oracle::ours::{Desk, WORK_CELLS};
use oracle::random::Random;
use oracle::tally::{conclude, Answers, Tally};
use std::io::{BufRead, BufReader, Lines, Write};
use std::process::{Child, ChildStdin, ChildStdout, Command, Stdio};
use std::thread::scope;

/// Records that are written before their lines are read.
const BATCH: usize = 500;
const TRAILER: usize = 64;

/// Half of them damaged, a quarter with shared bytes.
fn drawn(r: &mut Random, i: usize) -> Vec<u8> {
    let kind = if i % 200 == 0 {
        Kind::Maximal
    } else {
        [Kind::Tiny, Kind::Tiny, Kind::Typical][i % 3]
    };
    let p = phrase(r, kind);
    let mut record = if i % 4 < 2 {
        encode(&p)
    } else {
        encode_shared(&p)
    };
    if i % 2 == 1 {
        damage(r, &mut record);
    }
    record
}

/// The program that looks at the records, with the two ends that are ours.
struct Tool {
    child: Child,
    records: ChildStdin,
    lines: Lines<BufReader<ChildStdout>>,
}

impl Tool {
    fn start() -> Tool {
        let mut child = Command::new("python3")
            .arg(concat!(env!("CARGO_MANIFEST_DIR"), "/phrase_tool.py"))
            .stdin(Stdio::piped())
            .stdout(Stdio::piped())
            .spawn()
            .expect("python3 starts");
        let records = child.stdin.take().unwrap();
        let lines = BufReader::new(child.stdout.take().unwrap()).lines();
        Tool {
            child,
            records,
            lines,
        }
    }

    /// Of each record the number that is found, whether its text makes the same bytes, and the sentence.
    fn look(&mut self, batch: &[Vec<u8>]) -> Vec<(i32, String, String)> {
        let (records, lines) = (&mut self.records, &mut self.lines);
        scope(|threads| {
            threads.spawn(move || {
                for record in batch {
                    let length = (record.len() as u32).to_le_bytes();
                    records.write_all(&length).unwrap();
                    records.write_all(record).unwrap();
                }
                records.flush().unwrap();
            });
            lines
                .take(batch.len())
                .map(|line| parsed(&line.unwrap()))
                .collect()
        })
    }

    fn end(self) {
        let Tool {
            mut child, records, ..
        } = self;
        drop(records);
        assert!(child.wait().unwrap().success(), "phrase_tool.py failed");
    }
}

fn parsed(line: &str) -> (i32, String, String) {
    let mut parts = line.splitn(3, ' ').map(String::from);
    let mut part = || parts.next().unwrap_or_default();
    let (number, again) = (part(), part());
    (number.parse().unwrap(), again, part())
}

fn main() {
    let (count, mut r) = count_and_seed("phrase_tool");
    let (mut desk, mut tool) = (Desk::default(), Tool::start());
    let (mut numbers, mut texts) = (Tally::default(), Tally::default());
    let (mut answers, mut accepted) = (Answers::default(), 0);
    for from in (0..count).step_by(BATCH) {
        let indices = from..count.min(from + BATCH);
        let batch: Vec<Vec<u8>> = indices.map(|i| drawn(&mut r, i)).collect();
        let seen = tool.look(&batch);
        assert_eq!(seen.len(), batch.len(), "phrase_tool.py ended early");
        for (record, (number, again, sentence)) in batch.iter().zip(&seen) {
            let decoded = desk.decode(record, WORK_CELLS, WORK_CELLS, 16 * ENTRY_WORDS);
            let decoded = decoded.expect("lent memory as it should be");
            answers.count(record, &decoded);
            accepted += usize::from(decoded.is_ok());
            let wanted = decoded.err().unwrap_or(0);
            numbers.compare(&wanted, number, || format!("{sentence}: record {record:?}"));
            let text = if record.len() < TRAILER { "-" } else { "same" };
            texts.compare(&text, &again.as_str(), || format!("record {record:?}"));
        }
    }
    tool.end();
    println!(
        "{} records, {accepted} accepted, {answers}",
        numbers.compared
    );
    println!(
        "numbers: {} differ; texts: {} differ",
        numbers.differ, texts.differ
    );
    conclude(numbers.differ + texts.differ);
}
