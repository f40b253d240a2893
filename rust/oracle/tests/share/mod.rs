//! How often random cases tell a right answer from another.

use pierstride_oracle::Refusal;

/// In how many of how many cases the answers differ.
#[derive(Clone, Copy, Debug, Default)]
pub struct Share {
    pub differ: usize,
    pub of: usize,
}

impl Share {
    /// Counts a case, unless it is refused.
    pub fn count(&mut self, case: Result<bool, Refusal>) {
        self.differ += usize::from(case == Ok(true));
        self.of += usize::from(case.is_ok());
    }

    /// At least so many percent, of cases enough to tell.
    pub fn require(self, percent: usize, what: &str) {
        println!("{what}: {} of {} differ", self.differ, self.of);
        assert!(self.of >= 20, "{what}: only {} cases", self.of);
        assert!(100 * self.differ >= percent * self.of, "{what}: fewer than {percent} percent");
    }
}
