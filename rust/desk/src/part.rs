//! One of the parts of a run: which it is, and which shards are its own.

use std::cmp::Reverse;
use std::collections::BinaryHeap;
use std::path::Path;

use crate::args::Args;
use crate::fault::Fault;
use crate::options::PART;
use crate::text::shown;

/// The most parts that a run can have.
pub const MOST: u64 = 1_000_000;

/// What a shard costs beside its bytes, in bytes: it is opened, judged and told.
const COST: u64 = 1 << 16;

/// One of several parts.
#[derive(Clone, Copy, Debug, PartialEq, Eq)]
pub struct Part {
    /// Which one, from 1.
    pub number: u64,
    /// Of how many.
    pub of: u64,
}

impl Part {
    /// What `--part K/N` says.
    pub fn asked(args: &Args) -> Result<Option<Part>, Fault> {
        let Some(word) = args.value(PART) else {
            return Ok(None);
        };
        let digits = |text: &str| text.bytes().all(|byte| byte.is_ascii_digit());
        let number = |text: &str| text.parse().ok().filter(|_| digits(text));
        let part = word
            .to_str()
            .and_then(|word| word.split_once('/'))
            .and_then(|(part, of)| Some((number(part)?, number(of)?)))
            .map(|(number, of)| Part { number, of })
            .filter(|part| (1..=part.of).contains(&part.number) && part.of <= MOST);
        part.map(Some).ok_or_else(|| {
            Fault::wrong_use(format!(
                "{PART}: '{}' is not K/N with K from 1 to N and N at most {MOST}",
                shown(Path::new(word))
            ))
        })
    }

    /// The places of this part's jobs among all, in their order. The heaviest jobs
    /// are dealt out first, each to the part that has least so far; of equal ones
    /// the first goes first, to the first part. So it depends on nothing but the
    /// weights and their order.
    pub fn places(self, weights: &[u64]) -> Vec<usize> {
        let mut order: Vec<usize> = (0..weights.len()).collect();
        order.sort_by_key(|place| Reverse(weights[*place]));
        let mut loads: BinaryHeap<Reverse<(u128, u64)>> =
            (1..=self.of).map(|part| Reverse((0, part))).collect();
        let mut places = Vec::new();
        for place in order {
            let Some(Reverse((load, part))) = loads.pop() else {
                break;
            };
            if part == self.number {
                places.push(place);
            }
            let weight = u128::from(weights[place]) + u128::from(COST);
            loads.push(Reverse((load + weight, part)));
        }
        places.sort_unstable();
        places
    }
}

#[cfg(test)]
mod tests {
    use super::*;

    fn parts(of: u64, weights: &[u64]) -> Vec<Vec<usize>> {
        let part = |number| Part { number, of }.places(weights);
        (1..=of).map(part).collect()
    }

    #[test]
    fn each_place_is_in_one_part() {
        for count in [0, 1, 2, 7, 50, 333] {
            let weights: Vec<u64> = (0..count).map(|place| place * 7919 % 1000).collect();
            for of in 1..=50 {
                let mut all: Vec<usize> = parts(of, &weights).concat();
                all.sort_unstable();
                assert_eq!(all, (0..weights.len()).collect::<Vec<_>>());
            }
        }
    }

    #[test]
    fn parts_are_balanced_by_weight() {
        // One that is as heavy as all others has a part of its own.
        let gib = 1 << 30;
        assert_eq!(
            parts(2, &[gib, 4 * gib, gib, gib, gib]),
            [vec![1], vec![0, 2, 3, 4]]
        );
        // Equal ones go round, also empty ones.
        assert_eq!(parts(3, &[0; 7]), [vec![0, 3, 6], vec![1, 4], vec![2, 5]]);
        let weights: Vec<u64> = (0..1000).map(|place| place * place * 1000).collect();
        let loads: Vec<u64> = parts(7, &weights)
            .iter()
            .map(|places| places.iter().map(|place| weights[*place]).sum())
            .collect();
        let (least, most) = (loads.iter().min().unwrap(), loads.iter().max().unwrap());
        assert!(most - least < most / 100, "{loads:?}");
    }

    #[test]
    fn the_ends_of_the_weights() {
        let all: Vec<usize> = parts(2, &[u64::MAX; 4]).concat();
        assert_eq!(all, [0, 2, 1, 3]);
    }
}
