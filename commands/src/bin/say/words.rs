//! Where words come from: arguments, or standard input.

use std::ffi::OsString;
use std::io::{self, BufRead, IsTerminal, Read, Write};
use std::os::unix::ffi::OsStrExt;

use commands::program::{tell, Fault};
use commands::typed::fields;

use crate::desk::Desk;
use crate::tally::Tally;

/// A longer line of standard input is not read.
const LINE_BYTES: u64 = 1 << 20;

/// The words of each text.
pub fn from_texts(desk: &Desk, texts: &[OsString], out: &mut dyn Write) -> Result<Tally, Fault> {
    let mut tally = Tally::default();
    for text in texts {
        tally += said(desk, text.as_bytes(), out)?;
    }
    Ok(tally)
}

/// The words of standard input: each line is answered before the next is waited for.
pub fn from_input(desk: &Desk, out: &mut dyn Write) -> Result<Tally, Fault> {
    let mut input = io::stdin().lock();
    if input.is_terminal() {
        tell("say: type words, a line at a time; Ctrl-D ends");
    }
    let mut tally = Tally::default();
    let mut line = Vec::new();
    while read_line(&mut input, &mut line)? {
        tally += said(desk, &line, out)?;
        out.flush()?;
    }
    Ok(tally)
}

/// The next line; whether there is one.
fn read_line(input: &mut impl BufRead, line: &mut Vec<u8>) -> Result<bool, Fault> {
    line.clear();
    let read = input.take(LINE_BYTES).read_until(b'\n', line);
    match read {
        Ok(count) if count as u64 == LINE_BYTES && !line.ends_with(b"\n") => Err(Fault::Told(
            format!("a line of standard input has {LINE_BYTES} bytes or more; part it"),
        )),
        Ok(count) => Ok(count > 0),
        Err(error) => Err(Fault::Told(format!("cannot read standard input: {error}"))),
    }
}

/// The words of one text, parted by blanks.
fn said(desk: &Desk, text: &[u8], out: &mut dyn Write) -> Result<Tally, Fault> {
    let mut tally = Tally::default();
    for field in fields(text) {
        tally += desk.say(field, out)?;
    }
    Ok(tally)
}
