//! What a driver is asked for: `SEED COUNT`, and words that name another sort of list.

/// The arguments of a driver.
pub struct Request {
    pub seed: u64,
    pub count: u64,
    words: Vec<String>,
}

impl Request {
    /// The program's arguments, if they are two numbers and then no words but these, in their order.
    #[must_use]
    pub fn read(known: &[&str]) -> Option<Self> {
        let mut arguments = std::env::args().skip(1);
        let seed = arguments.next()?.parse().ok()?;
        let count = arguments.next()?.parse().ok()?;
        let words: Vec<String> = arguments.collect();
        let mut left = known.iter();
        let all_known = words.iter().all(|word| left.any(|other| other == word));
        all_known.then_some(Self { seed, count, words })
    }

    #[must_use]
    pub fn asks(&self, word: &str) -> bool {
        self.words.iter().any(|other| other == word)
    }
}
