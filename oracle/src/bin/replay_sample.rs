//! replay_sample COUNT SEED: writes to standard output the cases that `crates/replay` replays, with the original's answers. For each of
//! COUNT phrases, tiny to maximal, there is its record, a damaged copy that is refused by the number whose turn it is, for every second
//! one a damaged copy as it comes, and three calls of the other entries. After each of these records come two calls for the most units in
//! it, and after all of them the four calls on each of some phrases in which many units fit. The end was added later, so that what stands
//! before it stayed as it was: records of phrases whose sums llr does not tell apart, and the sample phrase with outputs from 52 words for
//! each entry on; after that rates of every number of frames that has gaps, in several orders, and their refusals on long ascending
//! lists; and after those records whose sums are hard to round. On standard error stands what `crates/replay` is to print, and what the
//! records and those rates hold.

use oracle::arguments::count_and_seed;
use oracle::bad;
use oracle::calls::Call;
use oracle::damage::{damage, lengths};
use oracle::entry::ENTRY_WORDS;
use oracle::generate::{alike, many_units, phrase, share_stages, Kind};
use oracle::hard::hard;
use oracle::maker::{encode, encode_shared, sample};
use oracle::most_units::{self, word_pairs};
use oracle::ours::{Decoded, WORK_CELLS};
use oracle::phrase::Phrase;
use oracle::random::Random;
use oracle::rates::{frames, Order, Sizes, ACCEPTED_DEFAULTS, REFUSED_DEFAULTS};
use oracle::replay::Sample;
use oracle::tally::{Answers, MostUnits, Rates};
use oracle::wanted::{self, LAST_FRAME, MOST_FRAMES};
use std::io::Write;

/// How often a damaged copy is drawn for one refusal, and the longest copy that is stored.
const TRIES: usize = 2000;
const LONGEST_COPY: usize = 40_000;

/// How many phrases there are in which many units fit, and whose sums llr does not tell apart.
const MANY: usize = 200;
const ALIKE: usize = 150;

/// How many phrases are drawn whose sums lie far from the exact ones, and whose figures are hard to round.
const BAD: usize = 40;
const HARD: usize = 100;

/// The words of an entry before the halves of the sum were added: an output that is lent by them is too short.
const FORMER_WORDS: usize = 52;

struct Writer {
    sample: Sample,
    answers: Answers,
    most_units: MostUnits,
    rates: Rates,
    /// what the calls for the most units are drawn with: a generator of their own, so that they leave all else that is drawn as it is
    words: Random,
}

impl Writer {
    fn decoded(&mut self, record: &[u8], lent: (usize, usize, usize), decoded: &Decoded) {
        self.answers.count(record, decoded);
        self.sample.record(record, lent, decoded);
    }

    fn record(&mut self, record: &[u8], lent: (usize, usize, usize), decoded: &Decoded) {
        self.decoded(record, lent, decoded);
        for _ in 0..2 {
            let pairs = word_pairs(&mut self.words);
            let drawn = self.words.pick(&pairs);
            self.most_units(record, drawn);
        }
    }

    fn most_units(&mut self, record: &[u8], (stage, strict): (u32, u32)) {
        let answer = most_units::wanted(record, stage, strict);
        self.most_units.count(stage, strict, &answer);
        self.sample.most_units(record, (stage, strict), &answer);
    }

    fn good(&mut self, r: &mut Random, record: &[u8], words: usize) {
        let (best, back, out) = lent(r, words);
        let decoded = wanted::decode(record, best, back, out);
        self.record(record, (best, back, out), &decoded);
    }

    /// A damaged copy whose answer fits, if one of so many tries gives it.
    fn damaged(
        &mut self,
        r: &mut Random,
        record: &[u8],
        words: usize,
        tries: usize,
        fits: impl Fn(&Decoded) -> bool,
    ) {
        for _ in 0..tries {
            let mut copy = record.to_vec();
            damage(r, &mut copy);
            let (best, back, out) = lent(r, words);
            if copy.len() > LONGEST_COPY {
                continue;
            }
            let decoded = wanted::decode(&copy, best, back, out);
            if fits(&decoded) {
                return self.record(&copy, (best, back, out), &decoded);
            }
        }
    }

    fn call(&mut self, call: Call) {
        self.sample.call(&call, &call.wanted());
    }

    /// Everything for one phrase. Every fourth record has sections that share bytes.
    fn phrase(&mut self, r: &mut Random, i: usize) {
        let kind = if i % 150 == 75 {
            Kind::Maximal
        } else {
            [Kind::Tiny, Kind::Tiny, Kind::Typical][i % 3]
        };
        let mut p = phrase(r, kind);
        let record = if i % 4 == 3 {
            share_stages(&mut p);
            encode_shared(&p)
        } else {
            encode(&p)
        };
        let words = ENTRY_WORDS * p.candidates.len();
        self.good(r, &record, words);
        let number = 1 + (i % 11) as i32;
        self.damaged(r, &record, words, TRIES, |d| *d == Err(number));
        if i % 2 == 0 {
            self.damaged(r, &record, words, 1, |_| true);
        }
        (0..3).for_each(|_| self.call(Call::draw(r)));
    }

    /// The longest record that is accepted, and a byte more, by bytes that are in no section.
    fn longest(&mut self, r: &mut Random) {
        let p = phrase(r, Kind::Typical);
        for len in [65_536, 65_537] {
            let tail = encode(&p);
            let record = [vec![7; len - tail.len()], tail].concat();
            self.good(r, &record, ENTRY_WORDS * p.candidates.len());
        }
    }

    /// A phrase in which many units fit, for the four pairs of stage and strictness.
    fn many_units(&mut self) {
        let record = encode(&many_units(&mut self.words));
        for pair in word_pairs(&mut self.words) {
            self.most_units(&record, pair);
        }
    }

    /// The record of a phrase, for decoding alone.
    fn decoding(&mut self, r: &mut Random, p: &Phrase) {
        let (record, lent) = (encode(p), lent(r, ENTRY_WORDS * p.candidates.len()));
        let decoded = wanted::decode(&record, lent.0, lent.1, lent.2);
        self.decoded(&record, lent, &decoded);
    }

    fn alike(&mut self, r: &mut Random) {
        let p = alike(r);
        self.decoding(r, &p);
    }

    /// The three that were built for the largest distances first.
    fn hard_to_round(&mut self, r: &mut Random) {
        let mut phrases = vec![bad::long(), bad::returned(), bad::passed_over()];
        phrases.extend((0..BAD).map(|_| bad::drawn(r)));
        phrases.extend((0..HARD).map(|_| hard(r)));
        phrases.iter().for_each(|p| self.decoding(r, p));
    }

    fn outputs(&mut self) {
        let record = encode(&sample());
        for out in 2 * FORMER_WORDS..=2 * ENTRY_WORDS + 1 {
            let decoded = wanted::decode(&record, WORK_CELLS, WORK_CELLS, out);
            self.decoded(&record, (WORK_CELLS, WORK_CELLS, out), &decoded);
        }
    }

    fn rate(&mut self, frames: &[u32], default_s: f64) {
        self.rates.count(frames, &wanted::rate_s(frames, default_s));
        self.call(Call::Rate(frames.to_vec(), default_s));
    }

    /// So many frames: as speech has them, shuffled, with repeats, with a median gap that has another size right beside it, and any.
    fn rates(&mut self, r: &mut Random, count: usize) {
        let kinds = [
            (Sizes::Syllables, Order::Ascending),
            (Sizes::Any, Order::Shuffled),
            (Sizes::Repeats, Order::any(r)),
            (Sizes::Halves, Order::any(r)),
            (Sizes::any(r), Order::any(r)),
        ];
        for (sizes, order) in kinds {
            let frames = frames(r, count, sizes, order);
            self.rate(&frames, r.pick(&ACCEPTED_DEFAULTS));
        }
    }

    /// The most frames in each order, accepted, and refused for the highest of them.
    fn orders(&mut self, r: &mut Random) {
        for order in Order::ALL {
            let mut frames = frames(r, MOST_FRAMES, Sizes::Any, order);
            self.rate(&frames, 0.2);
            *frames.iter_mut().max().unwrap() = LAST_FRAME + 1;
            self.rate(&frames, 0.2);
        }
    }

    /// Every default with the most frames, which give a rate, and with as many equal ones, which do not.
    fn defaults(&mut self, r: &mut Random) {
        for sizes in [Sizes::Syllables, Sizes::Zero] {
            let frames = frames(r, MOST_FRAMES, sizes, Order::Ascending);
            for default_s in [&ACCEPTED_DEFAULTS[..], &REFUSED_DEFAULTS].concat() {
                self.rate(&frames, default_s);
            }
        }
    }

    /// Up to two frames too many, each time with the last of them at its limit or above, and with a default that is refused too, for
    /// the lowest number is given.
    fn long_lists(&mut self, r: &mut Random) {
        for count in MOST_FRAMES - 2..=MOST_FRAMES + 2 {
            let mut frames = frames(r, count, Sizes::Syllables, Order::Ascending);
            for last in [frames[count - 1], LAST_FRAME, LAST_FRAME + 1, u32::MAX] {
                frames[count - 1] = last;
                for default_s in [0.2, f64::NAN] {
                    self.rate(&frames, default_s);
                }
            }
        }
    }
}

/// Lengths as damage draws them, and the long ones a little longer.
fn lent(r: &mut Random, words: usize) -> (usize, usize, usize) {
    let (best, back, out) = lengths(r, words);
    let mut more = |len: usize, needed: usize| len + if len > needed { r.below(8) } else { 0 };
    (
        more(best, WORK_CELLS),
        more(back, WORK_CELLS),
        more(out, words),
    )
}

fn main() {
    let (count, mut r) = count_and_seed("replay_sample");
    let mut w = Writer {
        sample: Sample::default(),
        answers: Answers::default(),
        most_units: MostUnits::default(),
        rates: Rates::default(),
        words: Random(!r.0),
    };
    // their own too, so that the lists may change and what is drawn for the records does not
    let mut lists = Random(r.0.rotate_left(32));
    w.good(&mut r, &encode(&sample()), 2 * ENTRY_WORDS);
    w.longest(&mut r);
    (0..count).for_each(|i| w.phrase(&mut r, i));
    (0..MANY).for_each(|_| w.many_units());
    (0..ALIKE).for_each(|_| w.alike(&mut r));
    w.outputs();
    (2..=MOST_FRAMES).for_each(|frames| w.rates(&mut lists, frames));
    w.orders(&mut lists);
    w.defaults(&mut lists);
    w.long_lists(&mut lists);
    w.hard_to_round(&mut lists);
    eprint!("{}", w.sample.printed());
    eprintln!("records {}", w.answers);
    eprintln!("calls for the most units {}", w.most_units);
    eprintln!("rates at the end {}", w.rates);
    std::io::stdout().write_all(&w.sample.bytes).unwrap();
}
