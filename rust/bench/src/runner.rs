//! Alternating timed runs and their summary.

use crate::clock::thread_time;
use std::hint::black_box;
use std::time::Duration;

/// The fewest alternating runs of each side.
const LEAST_RUNS: usize = 9;

/// How long the runs of a measure take at least, so that short ones are many.
const LEAST_TIME: Duration = Duration::from_millis(400);

/// One line of the output: what is timed, how many of them a run has, and the
/// ratio library / plain that it should not pass.
pub struct Measure<'a> {
    /// What is timed.
    pub name: &'a str,
    /// How many operations a run has.
    pub operations: usize,
    /// The bar, where there is one.
    pub bar: Option<f64>,
}

/// The time of one operation in nanoseconds.
fn timed(clock: fn() -> Duration, operations: usize, run: &mut dyn FnMut() -> u64) -> f64 {
    let start = clock();
    black_box(run());
    let time = (clock() - start).as_nanos() as f64;
    time / operations as f64
}

/// The lower quartile, the median and the upper quartile.
pub fn quartiles(mut values: Vec<f64>) -> [f64; 3] {
    values.sort_by(f64::total_cmp);
    [1, 2, 3].map(|quarters| values[quarters * values.len() / 4])
}

/// The median.
fn median(values: Vec<f64>) -> f64 {
    let [_, middle, _] = quartiles(values);
    middle
}

/// Prints the head of the table.
pub fn print_head() {
    println!("| measure | library ns | plain Rust ns | ratio (middle half) | bar | limit ns | library / limit |");
    println!("|---|---|---|---|---|---|---|");
}

/// What the bar's column says.
fn bar_text(bar: Option<f64>, ratio: f64) -> String {
    match bar {
        Some(bar) if ratio <= bar => format!("{bar}"),
        Some(bar) => format!("{bar} (not met)"),
        None => String::new(),
    }
}

impl Measure<'_> {
    /// Times both sides in turn and prints the line. Panics where the two do
    /// not give the same answer. The first run of each side, which has the
    /// caches and the pages to fill, is not timed.
    pub fn run(&self, library: impl FnMut() -> u64, plain: impl FnMut() -> u64) {
        self.run_by(thread_time, library, plain, None);
    }

    /// The same beside the least that the memory allows: a pass of loads, a
    /// copy.
    pub fn run_beside(
        &self,
        library: impl FnMut() -> u64,
        plain: impl FnMut() -> u64,
        mut limit: impl FnMut() -> u64,
    ) {
        self.run_by(thread_time, library, plain, Some(&mut limit));
    }

    /// The same by another clock.
    pub fn run_by(
        &self,
        clock: fn() -> Duration,
        mut library: impl FnMut() -> u64,
        mut plain: impl FnMut() -> u64,
        mut limit: Option<&mut dyn FnMut() -> u64>,
    ) {
        assert_eq!(library(), plain(), "{}: the answers", self.name);
        let (mut ours, mut theirs, mut least) = (Vec::new(), Vec::new(), Vec::new());
        let start = clock();
        while ours.len() < LEAST_RUNS || clock() - start < LEAST_TIME {
            ours.push(timed(clock, self.operations, &mut library));
            theirs.push(timed(clock, self.operations, &mut plain));
            if let Some(limit) = &mut limit {
                least.push(timed(clock, self.operations, limit));
            }
        }
        self.print(ours, theirs, least);
    }

    /// Prints the line.
    fn print(&self, ours: Vec<f64>, theirs: Vec<f64>, least: Vec<f64>) {
        let ratios = |others: &[f64]| ours.iter().zip(others).map(|(a, b)| a / b).collect();
        let [low, ratio, high] = quartiles(ratios(&theirs));
        let bar = bar_text(self.bar, ratio);
        let limit = if least.is_empty() {
            " | ".to_string()
        } else {
            let times = median(ratios(&least));
            format!("{:.2} | {times:.2}", median(least))
        };
        println!(
            "| {} | {:.2} | {:.2} | {ratio:.2} ({low:.2} to {high:.2}) | {bar} | {limit} |",
            self.name,
            median(ours),
            median(theirs),
        );
    }
}

/// The next number of a fixed random sequence (splitmix64).
fn next(state: &mut u64) -> u64 {
    *state = state.wrapping_add(0x9e37_79b9_7f4a_7c15);
    let mut z = *state;
    z = (z ^ (z >> 30)).wrapping_mul(0xbf58_476d_1ce4_e5b9);
    z = (z ^ (z >> 27)).wrapping_mul(0x94d0_49bb_1331_11eb);
    z ^ (z >> 31)
}

/// This many numbers of a fixed random sequence.
pub fn numbers(count: usize) -> Vec<u64> {
    let mut state = 1;
    (0..count).map(|_| next(&mut state)).collect()
}

/// This many bytes of a fixed random sequence.
pub fn bytes(length: usize) -> Vec<u8> {
    numbers(length.div_ceil(8))
        .into_iter()
        .flat_map(u64::to_le_bytes)
        .take(length)
        .collect()
}

/// An output of this length whose pages are all in memory: the kernel hands
/// out zeroed ones only when they are first written.
pub fn touched(length: usize) -> Vec<u8> {
    vec![0xa5; length]
}

/// One pass of loads over the bytes.
pub fn pass(bytes: &[u8]) -> u64 {
    let word = |word: &[u8]| u64::from_le_bytes(word.try_into().expect("8 bytes"));
    black_box(bytes)
        .chunks_exact(8)
        .fold(0, |all, bytes| all ^ word(bytes))
}
