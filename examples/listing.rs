//! Reads a phrase record from standard input and prints its listing, as listing.c does.

mod tikuwero;

use std::io::Read;

fn print_entries(entries: tikuwero::Entries) {
    println!("decoded {}", entries.len());
    for entry in entries {
        let (id, llr, pass) = (entry.id(), entry.llr().to_bits(), entry.pass().word());
        println!("candidate {id} {llr:08x} {pass} {}", entry.units().len());
        for unit in entry.units() {
            let row = unit.row.map_or("-".to_string(), |row| row.to_string());
            println!("{} {} {row}", unit.start, unit.end);
        }
    }
}

fn main() {
    // One byte more than a record may have, so that a longer one is refused and not cut.
    let mut record = Vec::new();
    std::io::stdin()
        .take(tikuwero::MAX_RECORD as u64 + 1)
        .read_to_end(&mut record)
        .expect("standard input can be read");
    let mut desk = tikuwero::Desk::new();
    match desk.decode(&record) {
        Ok(entries) => print_entries(entries),
        Err(refusal) => println!("refused {}", refusal.number()),
    }
}
