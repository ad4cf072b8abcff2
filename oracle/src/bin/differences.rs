//! The inputs of docs/DIFFERENCES.md: what the original answers for them as listed, and given only frames within the mask.
use oracle::{
    entry::entries,
    phrase::Phrase,
    reference::{decode, Given},
};

fn base(f: usize) -> Phrase {
    Phrase {
        mask: vec![true; f],
        nuclei: vec![],
        boundaries: vec![],
        anchors: vec![],
        added: vec![],
        columns: 1,
        scores: vec![],
        candidates: vec![(1, vec![0])],
        per_frame: 0.0,
        insertion_llr: 0.0,
        unvoiced: 0.0,
        speech: Some((0, f as u32)),
        durations: [[0.0; 75]; 2],
    }
}

fn show(name: &str, mut p: Phrase) {
    p.scores = vec![vec![0.0]; p.nuclei.len() + p.anchors.len()];
    let words = |given| {
        let first = entries(&decode(&p, given)).next().unwrap();
        format!(
            "pass {} llr {} units {:?}",
            first.pass, first.llr, first.units
        )
    };
    println!(
        "{name}\n  within the mask: {}\n  as listed:       {}",
        words(Given::WithinMask),
        words(Given::AsListed)
    );
}

fn main() {
    let mut p = base(6);
    p.mask[2] = false;
    (p.nuclei, p.boundaries) = (vec![2, 3], vec![0, 6]);
    show("F = 6, byte 0 at frame 2, nuclei 2, 3, boundaries 0, 6", p);
    let mut p = base(1);
    p.mask[0] = false;
    p.nuclei = vec![0];
    show("mask of one 0, nucleus 0, no boundaries", p);
    let mut p = base(12);
    p.mask[0] = false;
    (p.nuclei, p.boundaries, p.insertion_llr) = (vec![0, 6], vec![6, 12], -5.0);
    show(
        "F = 12, byte 0 at frame 0, nuclei 0, 6, boundaries 6, 12, insertion -5",
        p,
    );
    let mut p = base(12);
    p.mask[2] = false;
    (p.nuclei, p.anchors, p.added) = (vec![11], vec![2], vec![0, 6]);
    show(
        "F = 12, nucleus 11, anchor 2 on a 0 byte, added boundaries 0, 6",
        p,
    );
    let mut p = base(8);
    (p.nuclei, p.anchors, p.added) = (vec![7], vec![7], vec![2, 8]);
    show(
        "F = 8, nucleus 7, no boundaries, anchor 7, added boundaries 2, 8",
        p,
    );
    let mut p = base(100);
    p.mask = (0..100).map(|f| (70..87).contains(&f)).collect();
    (p.nuclei, p.boundaries, p.per_frame, p.candidates) =
        (vec![75], vec![0, 6, 70, 87], 1.0, vec![(1, vec![0, 0])]);
    show(
        "boundaries 0, 6, 70, 87, speech 70..87 only, per_frame 1, two units, nucleus 75",
        p,
    );
    let mut p = base(10);
    (p.nuclei, p.boundaries) = (vec![7, 12], vec![4, 18]);
    show("F = 10, nuclei 7, 12, boundaries 4, 18", p);
}
