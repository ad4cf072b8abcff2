//! `rate_s` of the two sides on the same lists of frames: the ratios of their times as a table, and one side alone, for a
//! profiler.

use crate::timing::{Rounds, Times};
use crate::usage;
use oracle::parts::original_rate_s;
use oracle::random::Random;
use std::hint::black_box;
use std::iter::successors;
use Order::{Ascending, Shuffled};

#[derive(Clone, Copy, PartialEq)]
enum Order {
    /// as a coach lends them
    Ascending,
    Shuffled,
}

impl Order {
    fn name(self) -> &'static str {
        match self {
            Ascending => "ascending",
            Shuffled => "shuffled",
        }
    }
}

/// The sets of lists: how many frames each list has, their order, and the part of the original's time that ours takes at
/// most.
const SETS: [(usize, Order, f64); 10] = [
    (2, Ascending, 0.6),
    (2, Shuffled, 1.0),
    (8, Ascending, 0.9),
    (8, Shuffled, 1.0),
    (16, Ascending, 0.9),
    (16, Shuffled, 1.0),
    (32, Ascending, 0.6),
    (32, Shuffled, 1.0),
    (64, Ascending, 0.6),
    (64, Shuffled, 1.0),
];

/// How many different lists a set has, and how few of them the processor learns by heart.
const LISTS: usize = 256;
const FEW: usize = 16;
const ROUNDS: usize = 1_000;
const DEFAULT_S: f64 = 0.2;
const LAST_FRAME: u32 = 4_095;

/// The lists of a set; shuffled they are the same ones, each in an order that is as likely as any other, the ascending one too.
fn lists(frames: usize, order: Order) -> Vec<Vec<u32>> {
    let mut r = Random(7);
    let mut lists: Vec<_> = (0..LISTS).map(|_| nuclei(&mut r, frames)).collect();
    if order == Shuffled {
        for list in &mut lists {
            r.shuffle(list);
        }
    }
    lists
}

/// Nuclei of syllables as a coach has them, 80 to 470 ms apart.
fn nuclei(r: &mut Random, count: usize) -> Vec<u32> {
    let first = r.below(30) as u32;
    let next = |frame: &u32| Some(frame + r.between(8, 47) as u32);
    let list: Vec<u32> = successors(Some(first), next).take(count).collect();
    assert!(list[count - 1] <= LAST_FRAME, "{list:?}");
    list
}

/// Through the C interface with its checks, since that is what a coach calls. Both sides are kept out of the loop of `turn`,
/// or else the compiler would spare the original a call that ours always takes.
#[inline(never)]
fn ours(list: &[u32]) -> f64 {
    oracle::ours::rate_s(list, DEFAULT_S).expect("a list is refused")
}

/// Without checks.
#[inline(never)]
fn original(list: &[u32]) -> f64 {
    original_rate_s(list, DEFAULT_S)
}

/// A call for each list: one alone is too short for a clock.
fn turn(lists: &[Vec<u32>], rate: impl Fn(&[u32]) -> f64) {
    for list in lists {
        black_box(rate(black_box(list)));
    }
}

fn assert_same_bits(lists: &[Vec<u32>]) {
    for list in lists {
        assert_eq!(
            ours(list).to_bits(),
            original(list).to_bits(),
            "{list:?}: the two sides differ"
        );
    }
}

/// The times of ours and of the original for each set.
///
/// Where the same few hundred lists come over and over, the processor learns by heart which way each branch goes, and a call
/// takes as little as half the time that it takes on a list that is new, as a coach's are. So there are many different lists,
/// and each round goes over all the sets: before a list comes again, thousands of others have come.
fn times(sets: &[Vec<Vec<u32>>]) -> Vec<(Times, Times)> {
    let mut rounds: Vec<Rounds> = sets.iter().map(|_| Rounds::default()).collect();
    for _ in 0..ROUNDS {
        for (lists, rounds) in sets.iter().zip(&mut rounds) {
            rounds.run(|| turn(lists, ours), || turn(lists, original));
        }
    }
    rounds.into_iter().map(Rounds::times).collect()
}

/// The same of a few lists that come over and over, which is the best case for a side that branches on what the frames are.
fn learnt_times(lists: &[Vec<u32>]) -> (Times, Times) {
    let mut rounds = Rounds::default();
    for _ in 0..ROUNDS {
        rounds.run(|| turn(lists, ours), || turn(lists, original));
    }
    rounds.times()
}

fn ratio_of_minima((ours, original): &(Times, Times)) -> f64 {
    ours.least() / original.least()
}

/// Prints the ratios; whether each is within its target on lists that are new.
pub fn ratios() -> bool {
    let sets: Vec<_> = SETS.iter().map(|set| lists(set.0, set.1)).collect();
    sets.iter().for_each(|lists| assert_same_bits(lists));
    println!("| Frames | Order | Ours, ns | Original, ns | Ratio of the minima | of the medians | learnt by heart | Target |");
    println!("|---|---|---|---|---|---|---|---|");
    let mut met = true;
    for ((times, lists), (frames, order, target)) in times(&sets).iter().zip(&sets).zip(SETS) {
        let (ours, original) = times;
        let nanoseconds_of_a_call = |turn: f64| turn / LISTS as f64 * 1e9;
        println!(
            "| {frames} | {} | {:.1} | {:.1} | {:.2} | {:.2} | {:.2} | {target:.1} |",
            order.name(),
            nanoseconds_of_a_call(ours.least()),
            nanoseconds_of_a_call(original.least()),
            ratio_of_minima(times),
            ours.median() / original.median(),
            ratio_of_minima(&learnt_times(&lists[..FEW])),
        );
        met &= ratio_of_minima(times) <= target;
    }
    met
}

/// Runs one side alone, `count` turns on a set; prints how many calls these were.
pub fn repeat(side: &str, order: &str, frames: usize, count: usize) {
    let named = |set: &(usize, Order, f64)| set.0 == frames && set.1.name() == order;
    let Some((frames, order, _)) = SETS.into_iter().find(named) else {
        usage();
    };
    let rate: fn(&[u32]) -> f64 = match side {
        "ours" => ours,
        "original" => original,
        _ => usage(),
    };
    let lists = lists(frames, order);
    for _ in 0..count {
        turn(&lists, rate);
    }
    println!("{}", count * lists.len());
}
