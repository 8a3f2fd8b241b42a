//! Counts of the numbers that a call gave, so that a test shows that it met each of them.

/// How often each number was given.
pub struct Counts {
    name: &'static str,
    pub seen: [usize; 26],
    total: usize,
}

impl Counts {
    pub fn new(name: &'static str) -> Self {
        Counts { name, seen: [0; 26], total: 0 }
    }

    pub fn count(&mut self, number: u64) {
        self.seen[number as usize] += 1;
        self.total += 1;
    }

    /// Each of the numbers was seen often enough, and no other but 0.
    pub fn assert_seen(&self, numbers: &[usize]) {
        println!("{}: of {} inputs, by number: {:?}", self.name, self.total, self.seen);
        for number in 1..26 {
            let seen = self.seen[number];
            if numbers.contains(&number) {
                assert!(seen >= 20, "{}: number {number} was seen only {seen} times", self.name);
            } else {
                assert_eq!(seen, 0, "{}: number {number} is not one of this call's", self.name);
            }
        }
    }

    /// At least a quarter of the inputs was accepted.
    pub fn assert_accepted(&self) {
        assert!(self.seen[0] * 4 >= self.total, "{}: only {} of {} accepted", self.name, self.seen[0], self.total);
    }
}
