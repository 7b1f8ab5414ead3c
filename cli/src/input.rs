//! Files and standard input, as far as the library reads.

use reckonbough::MAX_READ;
use std::fs::File;
use std::io::{self, Read};
use std::path::Path;

/// What is read from.
pub struct Source {
    pub reader: Box<dyn Read>,
    /// How many bytes a file says that it has; 0 where nothing says so.
    length: u64,
}

/// The file to read from; `-` is standard input.
pub fn open(path: &Path) -> io::Result<Source> {
    if is_stdin(path) {
        return Ok(Source { reader: Box::new(io::stdin()), length: 0 });
    }
    let file = File::open(path)?;
    let length = file.metadata().map_or(0, |said| said.len());
    Ok(Source { reader: Box::new(file), length })
}

pub fn is_stdin(path: &Path) -> bool {
    path.as_os_str() == "-"
}

/// One byte more than the library takes: it refuses that byte, and no byte behind it changes the answer.
pub fn front(source: &mut Source) -> io::Result<Vec<u8>> {
    // room for all that is said to come, and for seeing that nothing comes behind it
    let mut text = Vec::with_capacity(source.length.min(MAX_READ) as usize + 1);
    source.reader.by_ref().take(MAX_READ + 1).read_to_end(&mut text)?;
    Ok(text)
}

/// The text, or a sentence that says why there is none.
pub fn read(path: &Path) -> Result<Vec<u8>, String> {
    open(path).and_then(|mut source| front(&mut source)).map_err(|error| unreadable(path, &error))
}

pub fn unreadable(path: &Path, error: &io::Error) -> String {
    format!("{}: the file cannot be read: {error}", name(path))
}

/// The name to print: what would break a line is shown as a replacement character.
pub fn name(path: &Path) -> String {
    let shown = path.display().to_string();
    shown.chars().map(|c| if c.is_control() { char::REPLACEMENT_CHARACTER } else { c }).collect()
}
