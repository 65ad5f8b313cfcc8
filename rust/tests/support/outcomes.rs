//! Counts what came of the calls of a test.

use super::assert_met;

/// How often each outcome came up.
#[derive(Default, Debug)]
pub struct Outcomes {
    /// Refusals by number.
    pub refusals: [usize; 15],
    /// Those of them at a place past 0.
    pub later: [usize; 15],
    /// Successes by value. Values from 2 on are noted together.
    pub values: [usize; 3],
}

impl Outcomes {
    pub fn note(&mut self, answer: u64) {
        if answer >> 63 == 1 {
            let number = (answer >> 32) as u8 as usize;
            self.refusals[number] += 1;
            self.later[number] += (answer as u32 > 0) as usize;
        } else {
            self.values[((answer >> 32) as usize).min(2)] += 1;
        }
    }

    pub fn done(&self) -> usize {
        self.values.iter().sum()
    }

    /// Asserts that these refusals, and no others, came up, each once in `every` rounds.
    pub fn assert_refusals(&self, name: &str, numbers: &[usize], rounds: usize, every: usize) {
        for number in 1..15 {
            let times = self.refusals[number];
            if numbers.contains(&number) {
                assert_met(&format!("{name} refused {number}"), times, rounds, every);
            } else {
                assert_eq!(times, 0, "{name} refused {number}");
            }
        }
    }

    /// Asserts that these refusals came up at places past 0.
    pub fn assert_later(&self, name: &str, numbers: &[usize], rounds: usize, every: usize) {
        for &number in numbers {
            let times = self.later[number];
            assert_met(
                &format!("{name} refused {number} past 0"),
                times,
                rounds,
                every,
            );
        }
    }

    /// Asserts that none, one and more came up as values.
    pub fn assert_values(&self, name: &str, rounds: usize, every: usize) {
        for (value, &times) in self.values.iter().enumerate() {
            assert_met(&format!("{name} value {value}"), times, rounds, every);
        }
    }
}

/// A refusal as the library answers it.
pub fn refusal(number: u64, place: u64) -> u64 {
    1 << 63 | number << 32 | place
}
