//! Makes each of the smaller calls once or twice, on worked examples and on the sample phrase, as calls.c does; then
//! decodes that phrase and prints, of each candidate, the score and the full sum. The argument names the phrase's file.

mod tikuwero;

use tikuwero::{Desk, Refusal, Stage, Strictness};

fn rates() {
    let frames = [60, 10, 30];
    println!("rate {:?}", tikuwero::rate_s(&frames, 0.2));
    println!("rate of no frames {:?}", tikuwero::rate_s(&[], 0.2));
    println!("rate refused {:?}", tikuwero::rate_s(&frames, f64::NAN));
}

fn spans() {
    let nuclei = [13, 10, 13];
    let spans = tikuwero::tbu_spans(&nuclei, &[], 5, 20);
    let words = spans.map(|s| s.iter().map(|s| (s.start, s.end)).collect::<Vec<_>>());
    println!("spans {words:?}");
    let refusal = tikuwero::tbu_spans(&[4096], &[], 5, 20).err();
    println!("spans refused {:?}", refusal.map(Refusal::word));
}

/// Twenty frames, all at voice level; pitch ends at frame 10, where creak sets in.
fn marks() {
    let mut voice = [1; 20];
    let pitched: [u8; 20] = std::array::from_fn(|frame| u8::from(frame < 10));
    println!(
        "start joined {:?}",
        tikuwero::joins(&voice, &pitched, 6, 12)
    );
    println!("end joined {:?}", tikuwero::joins(&voice, &pitched, 12, 6));
    for next in [None, Some(16), Some(u32::MAX)] {
        let creaky = tikuwero::creaky_tail(2, 12, next, &pitched, &voice);
        println!("creaky tail before {next:?}: {creaky:?}");
    }
    voice[19] = 2;
    println!(
        "joins refused {:?}",
        tikuwero::joins(&voice, &pitched, 6, 12)
    );
}

/// Of the phrase's two candidates one has two units, for which there is no path.
fn most_units(file: &str) {
    let record = std::fs::read(file).expect("the file can be read");
    for stage in [Stage::Nuclei, Stage::Added] {
        for strictness in [Strictness::Relaxed, Strictness::Strict] {
            let most = tikuwero::most_units(&record, stage, strictness);
            println!("most units {stage:?} {strictness:?}: {most:?}");
        }
    }
    let refused = tikuwero::most_units(&record[..63], Stage::Nuclei, Strictness::Relaxed);
    println!("most units refused {refused:?}");
}

/// The id of the best candidate: a `match` on the answer as the last expression, with the desk and the record still here.
fn best(file: &str) -> Result<u32, Refusal> {
    let record = std::fs::read(file).expect("the file can be read");
    let mut desk = Desk::default();
    match desk.decode(&record) {
        Ok(mut entries) => Ok(entries.next().map_or(0, |entry| entry.id())),
        Err(refusal) => Err(refusal),
    }
}

fn print_entries(desk: &mut Desk, record: &[u8]) {
    for entry in desk.decode(record).expect("the record is accepted") {
        let (id, llr, sum) = (entry.id(), entry.llr(), entry.sum());
        let (llr_bits, sum_bits) = (llr.to_bits(), sum.to_bits());
        println!("candidate {id}: score {llr_bits:08x} {llr}, sum {sum_bits:016x} {sum}");
    }
}

/// The phrase, and the same without speech and with an unvoiced score of 1,000,000, by which both candidates have the
/// highest score: their sums tell them apart. docs/FORMAT.md has the places.
fn sums(file: &str) {
    let mut record = std::fs::read(file).expect("the file can be read");
    let mut desk = Desk::new();
    print_entries(&mut desk, &record);
    record[100..104].copy_from_slice(&1_000_000_f32.to_le_bytes());
    record[104..112].fill(0xff);
    println!("without speech");
    print_entries(&mut desk, &record);
}

fn main() {
    rates();
    spans();
    marks();
    let file = std::env::args().nth(1).expect("the argument is a file");
    most_units(&file);
    println!("best candidate {:?}", best(&file));
    sums(&file);
}
