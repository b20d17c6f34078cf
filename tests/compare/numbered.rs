//! All that is made from a seed, in one order: so many of each random kind, then the limits. What has a number is always the same.

use crate::random::Random;

/// How many there are of a kind, and how one is made.
pub type Kinds<T> = [(usize, fn(&mut Random) -> T)];

pub struct Numbered<T: 'static, L> {
    seed: u64,
    kinds: &'static Kinds<T>,
    limits: Vec<L>,
    at_limit: fn(&mut Random, &L) -> T,
}

impl<T, L> Numbered<T, L> {
    pub fn of(seed: u64, kinds: &'static Kinds<T>, limits: Vec<L>, at_limit: fn(&mut Random, &L) -> T) -> Numbered<T, L> {
        Numbered { seed, kinds, limits, at_limit }
    }

    pub fn len(&self) -> usize {
        self.kinds.iter().map(|(count, _)| count).sum::<usize>() + self.limits.len()
    }

    pub fn make(&self, number: usize) -> T {
        let mut random = Random::of(self.seed, number as u64);
        let mut left = number;
        for (count, make) in self.kinds {
            if left < *count {
                return make(&mut random);
            }
            left -= count;
        }
        (self.at_limit)(&mut random, &self.limits[left])
    }
}
