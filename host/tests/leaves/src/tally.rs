// The count that each comparison prints.

use std::io::{self, Write};

/// How many cases were compared, how many differed, and the first of those.
#[derive(Debug)]
pub struct Tally {
    subject: &'static str,
    cases: u64,
    differ: u64,
    first: Option<String>,
}

impl Tally {
    /// Nothing compared yet.
    #[must_use]
    pub fn new(subject: &'static str) -> Self {
        Self {
            subject,
            cases: 0,
            differ: 0,
            first: None,
        }
    }

    /// Counts one case; `case` says what it was, if it is the first that differs.
    pub fn count(&mut self, same: bool, case: impl FnOnce() -> String) {
        self.cases += 1;
        if !same {
            self.differ += 1;
            self.first.get_or_insert_with(case);
        }
    }

    /// Prints the counts, past the capture of the test harness, and returns whether none differed.
    ///
    /// # Panics
    /// If standard output cannot be written.
    pub fn report(self) -> bool {
        let Self {
            subject,
            cases,
            differ,
            first,
        } = self;
        let mut line = format!("{subject}: {cases} cases, {differ} differ\n");
        if let Some(case) = first {
            line += &format!("  the first: {case}\n");
        }
        io::stdout()
            .write_all(line.as_bytes())
            .expect("standard output takes a line");
        differ == 0
    }
}
