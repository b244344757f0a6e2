//! rack_settings as a user runs it: arguments, output, exit status, and the file. The values were written by hand, from the
//! words of the request.

mod files;
mod numbers;
mod options;
mod racks;
mod refusals;
#[path = "../running/mod.rs"]
mod running;
mod showing;
mod writing;
