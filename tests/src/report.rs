//! The count of tests, and the names of those that fail.

use std::process::ExitCode;

#[derive(Default)]
pub struct Report {
    passed: usize,
    failed: usize,
}

impl Report {
    /// Counts one test. A failure is printed with its name.
    pub fn test(&mut self, name: &str, outcome: Result<(), String>) {
        match outcome {
            Ok(()) => self.passed += 1,
            Err(why) => {
                self.failed += 1;
                println!("FAILED {}: {}", name, why);
            }
        }
    }

    /// Counts one test: that there were as many of something as there are to be.
    pub fn at_least(&mut self, name: &str, least: usize, count: usize) {
        let outcome = if count >= least {
            Ok(())
        } else {
            Err(format!("{}, and not {} or more", count, least))
        };
        self.test(name, outcome);
    }

    /// Prints the counts in one line, and counts a test for each: that it is not below the least.
    pub fn counts(&mut self, title: &str, least: usize, counts: &[(String, usize)]) {
        let mut shown = Vec::new();
        for (name, count) in counts {
            shown.push(format!("{}: {}", name, count));
            self.at_least(&format!("{}: {}", title, name), least, *count);
        }
        println!("{}: {}", title, shown.join(", "));
    }

    /// Prints the last line.
    pub fn finish(self) -> ExitCode {
        println!("{} passed, {} failed", self.passed, self.failed);
        if self.failed == 0 {
            ExitCode::SUCCESS
        } else {
            ExitCode::FAILURE
        }
    }
}
