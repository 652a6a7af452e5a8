//! Reads a response from standard input and prints it.
#![forbid(unsafe_code)]

use std::io::{copy, sink, stdin, stdout, Read, Result, Write};

/// One byte more than a response may have decides the answer, so no more is kept.
const KEPT_MOST: u64 = 65_535;

fn main() -> Result<()> {
    let mut input = stdin().lock();
    let mut received = Vec::new();
    input.by_ref().take(KEPT_MOST).read_to_end(&mut received)?;
    // The rest is read too, so that whoever writes it isn't stopped.
    copy(&mut input, &mut sink())?;
    let mut output = stdout().lock();
    output.write_all(&second::lister::list(&received))?;
    output.flush()
}
