//! What is printed. A reader that went away ends the command at once and in silence.

use std::io::{self, ErrorKind, Write};
use std::process::exit;

/// What a file came to: bytes for standard output, sentences for standard error, and whether all is well.
pub struct Said {
    pub out: Vec<u8>,
    pub err: Vec<String>,
    pub good: bool,
}

impl Said {
    pub fn good(out: impl Into<Vec<u8>>) -> Said {
        Said { out: out.into(), err: Vec::new(), good: true }
    }

    pub fn bad(out: impl Into<Vec<u8>>, sentence: String) -> Said {
        Said { out: out.into(), err: vec![sentence], good: false }
    }

    /// Prints it; gives back whether all is well.
    pub fn print(&self, quiet: bool) -> bool {
        print(&self.out);
        if !quiet {
            self.err.iter().for_each(|sentence| complain(sentence));
        }
        self.good
    }
}

/// Writes to standard output, all of it.
pub fn print(bytes: &[u8]) {
    let mut out = io::stdout().lock();
    if let Err(error) = out.write_all(bytes).and_then(|()| out.flush()) {
        if error.kind() != ErrorKind::BrokenPipe {
            complain(&format!("standard output cannot be written: {error}"));
        }
        exit(1);
    }
}

/// A sentence on standard error; there is nobody to tell where that fails.
pub fn complain(sentence: &str) {
    let _ = writeln!(io::stderr(), "{sentence}");
}
