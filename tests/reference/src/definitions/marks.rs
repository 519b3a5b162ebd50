//! Marks to search: words of them and the place that is asked from, at the limits of a word and of all words.

use super::tally::Tally;
use crate::generate::Random;

/// Words of marks, the first place the lowest bit, and the place that is asked from.
pub(super) struct Marks {
    pub(super) words: Vec<u64>,
    pub(super) from: usize,
}

impl Marks {
    /// The places that are marked, rising.
    pub(super) fn places(&self) -> Vec<usize> {
        let mut places = Vec::new();
        for (number, word) in self.words.iter().enumerate() {
            for bit in 0..64 {
                if word & (1 << bit) != 0 {
                    places.push(64 * number + bit);
                }
            }
        }
        places
    }

    /// The smallest marked place at or above the one asked from.
    pub(super) fn next(&self) -> Option<usize> {
        self.places().into_iter().find(|&place| self.from <= place)
    }
}

/// So many searches, of one word and of four: few marks and many, often at a word's ends.
pub(super) fn marks(random: &mut Random, cases: usize, tally: &mut Tally) -> Vec<Marks> {
    let case = |_| {
        let count = random.pick(&[1, 1, 4]);
        let words: Vec<u64> = (0..count).map(|_| some_word(random)).collect();
        let last = 64 * count - 1;
        let from = match random.below(3) {
            0 => random.pick(&[0, 1, 62, 63, 64, 65]),
            1 => random.pick(&[last - 1, last, last + 1, 255, 1_000]),
            _ => random.below(64 * count as u64) as usize,
        };
        Marks { words, from }
    };
    let searches: Vec<Marks> = (0..cases).map(case).collect();
    for search in &searches {
        tally.note(match search.next() {
            None if search.places().is_empty() => "nothing marked",
            None => "none left",
            Some(place) if place == search.from => "the given one",
            Some(_) => "a later one",
        });
    }
    searches
}

fn some_word(random: &mut Random) -> u64 {
    let any = u64::from(random.word()) << 32 | u64::from(random.word());
    let one = 1 << random.below(64);
    random.pick(&[0, 0, 1, 1 << 63, 1 | 1 << 63, u64::MAX, one, one, any])
}
