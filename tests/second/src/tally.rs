//! What passed and what failed.

#[derive(Default)]
pub struct Tally {
    pub passed: u64,
    pub failed: u64,
}

/// Failures beyond this many are only counted: a broken library would fill the disk.
const TOLD: u64 = 50;

impl Tally {
    /// Whether another failure would still be told.
    pub fn tells(&self) -> bool {
        self.failed < TOLD
    }

    /// Counts one test; a failure is told at once.
    pub fn check(&mut self, name: &str, outcome: Result<(), String>) {
        match outcome {
            Ok(()) => self.passed += 1,
            Err(why) => {
                if self.tells() {
                    println!("FAILED {name}: {why}");
                }
                self.failed += 1;
            }
        }
    }
}

/// Leaves a check with a message if something isn't so.
#[macro_export]
macro_rules! ensure {
    ($condition:expr, $($message:tt)+) => {
        if !$condition {
            return Err(format!($($message)+));
        }
    };
}
