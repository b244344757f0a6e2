//! check_tables as a user runs it: arguments, output, exit status.

mod bits;
mod checksums;
mod damaged;
mod folders;
mod json;
mod options;
mod places;
#[path = "../running/mod.rs"]
mod running;
mod verdicts;
mod versions;
mod warnings;
