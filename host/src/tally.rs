//! Counts how often each code was answered, so that a test can ask that each really occurred.

use crate::network::Answer;

pub struct Tally {
    name: String,
    counts: [u64; 19],
}

impl Tally {
    pub fn new(name: impl Into<String>) -> Self {
        Tally {
            name: name.into(),
            counts: [0; 19],
        }
    }

    pub fn add(&mut self, answer: impl Into<Answer>) {
        self.counts[answer.into().code as usize] += 1;
    }

    /// Prints the counts; each of `codes` must have occurred `least` times, and no other at all.
    pub fn require(&self, least: u64, codes: &[u32]) {
        let total: u64 = self.counts.iter().sum();
        let counts = (0u32..).zip(self.counts).filter(|&(_, count)| count > 0);
        let list: Vec<String> = counts
            .clone()
            .map(|(code, count)| format!("{code}: {count}"))
            .collect();
        println!("{}: {total} cases; {}", self.name, list.join(", "));
        let seen: Vec<u32> = counts.map(|(code, _)| code).collect();
        assert_eq!(seen, codes, "{}: codes that occurred", self.name);
        for &code in codes {
            let count = self.counts[code as usize];
            assert!(count >= least, "{}: code {code} only {count}", self.name);
        }
    }
}
