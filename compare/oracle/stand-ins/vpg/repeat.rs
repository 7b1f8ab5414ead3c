//! STAND-IN for merc's `Repeat`: a text said several times over.

use std::fmt;

pub struct Repeat<'a> {
    text: &'a str,
    times: usize,
}

impl<'a> Repeat<'a> {
    pub fn new(text: &'a str, times: usize) -> Repeat<'a> {
        Repeat { text, times }
    }
}

impl fmt::Display for Repeat<'_> {
    fn fmt(&self, f: &mut fmt::Formatter<'_>) -> fmt::Result {
        (0..self.times).try_for_each(|_| f.write_str(self.text))
    }
}
