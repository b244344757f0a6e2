//! Faults in what the user wrote: a file, a line, what is wrong and what to do.

use std::fmt;

/// One fault; line 0 is the file as a whole.
#[derive(Clone, Debug, PartialEq, Eq)]
pub struct Fault {
    pub file: String,
    pub line: usize,
    pub sentence: String,
}

impl fmt::Display for Fault {
    fn fmt(&self, out: &mut fmt::Formatter<'_>) -> fmt::Result {
        if self.line == 0 {
            write!(out, "{}: {}", self.file, self.sentence)
        } else {
            write!(out, "{}, line {}: {}", self.file, self.line, self.sentence)
        }
    }
}

/// The faults of one source file, gathered so that all of them can be told at once.
pub struct Faults {
    file: String,
    pub list: Vec<Fault>,
}

impl Faults {
    pub fn of(file: &str) -> Faults {
        Faults { file: file.to_string(), list: Vec::new() }
    }

    pub fn add(&mut self, line: usize, sentence: impl Into<String>) {
        self.list.push(Fault { file: self.file.clone(), line, sentence: sentence.into() });
    }

    /// The value if there was no fault.
    pub fn unless_any<T>(self, value: T) -> Result<T, Vec<Fault>> {
        if self.list.is_empty() {
            Ok(value)
        } else {
            Err(self.list)
        }
    }
}
