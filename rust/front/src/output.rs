//! The two outputs.

use std::io::{self, Write};

/// Writes all of it to standard output.
pub fn print(text: impl AsRef<[u8]>) -> io::Result<()> {
    let mut out = io::stdout().lock();
    out.write_all(text.as_ref())?;
    out.flush()
}

/// Writes lines to standard error. There is nobody to tell where that fails.
pub fn say(words: &str) {
    let _ = writeln!(io::stderr(), "{words}");
}
