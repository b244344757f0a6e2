//! names as a user runs it, and say with a store: arguments, output, exit status, and the file. The values were written
//! by hand, from the words of the request.

mod exact;
mod files;
mod kills;
mod options;
mod refusals;
#[path = "../running/mod.rs"]
mod running;
mod saying;
mod shelves;
mod tasks;
mod texts;
