//! Sets of facts, and the words that stand for them.

use std::collections::BTreeSet;

/// Words of a mask, low word first.
pub const MASK: usize = 2;

/// A set of facts: a state, a goal, or a part of an action.
#[derive(Clone, Debug, Default, PartialEq, Eq, PartialOrd, Ord)]
pub struct Facts(BTreeSet<u64>);

impl Facts {
    /// The facts whose bits stand in two words, low word first: bit f of the first stands for fact
    /// f, bit f of the second for fact 64 + f.
    pub fn of_words(words: &[u64]) -> Facts {
        let mut facts = BTreeSet::new();
        let [low, high] = words else { panic!("a mask is two words") };
        for (word, first) in [(low, 0), (high, 64)] {
            let mut rest = *word;
            let mut fact = first;
            while rest > 0 {
                if rest % 2 == 1 {
                    facts.insert(fact);
                }
                rest /= 2;
                fact += 1;
            }
        }
        Facts(facts)
    }

    /// The set of these facts; one that is repeated counts once.
    pub fn of_numbers(numbers: impl Iterator<Item = u64>) -> Facts {
        Facts(numbers.collect())
    }

    /// Its facts, rising.
    pub fn numbers(&self) -> impl Iterator<Item = u64> + '_ {
        self.0.iter().copied()
    }

    /// The two words that stand for the set.
    pub fn words(&self) -> [u64; MASK] {
        let sum = |facts: &mut dyn Iterator<Item = u64>| {
            facts.map(|fact| 2u64.pow(fact as u32)).sum::<u64>()
        };
        let low = sum(&mut self.numbers().filter(|&fact| fact < 64));
        let high = sum(&mut self.numbers().filter(|&fact| fact >= 64).map(|fact| fact - 64));
        [low, high]
    }

    /// Every fact of this set is in the other.
    pub fn within(&self, other: &Facts) -> bool {
        self.0.iter().all(|fact| other.0.contains(fact))
    }

    /// Those that are not in the other.
    pub fn without(&self, other: &Facts) -> Facts {
        Facts(self.0.iter().copied().filter(|fact| !other.0.contains(fact)).collect())
    }

    /// The set without `del`, then with `add`.
    pub fn after(&self, add: &Facts, del: &Facts) -> Facts {
        let mut facts = self.0.clone();
        for fact in &del.0 {
            facts.remove(fact);
        }
        for &fact in &add.0 {
            facts.insert(fact);
        }
        Facts(facts)
    }

    /// Some fact is at or above the number of facts.
    pub fn exceeds(&self, facts: u64) -> bool {
        self.0.iter().any(|&fact| fact >= facts)
    }
}
