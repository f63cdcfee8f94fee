//! Reading an input, within reason.

use std::ffi::OsStr;
use std::fs::File;
use std::io::{self, IsTerminal, Read, Write};

use crate::trouble::Trouble;

/// The most bytes of an input: some hundred times what the largest graph needs.
const MOST_BYTES: usize = 1 << 20;

/// An input that was read.
#[derive(Debug)]
pub struct Source {
    /// Its name, for messages.
    pub name: String,
    /// Its text.
    pub text: String,
}

/// Reads a file, or standard input where there is none.
pub fn read(file: Option<&OsStr>) -> Result<Source, Trouble> {
    let name = match file {
        Some(file) => file.to_string_lossy().into_owned(),
        None => "standard input".to_string(),
    };
    let bytes = match file {
        Some(file) => File::open(file).and_then(read_some),
        None => read_standard_input(),
    };
    match bytes {
        Ok(bytes) => text_of(name, bytes),
        Err(error) => Err(Trouble::Source {
            source: name,
            error,
        }),
    }
}

/// Reads standard input, and says so where somebody would have to type it.
fn read_standard_input() -> io::Result<Vec<u8>> {
    let input = io::stdin();
    if input.is_terminal() {
        let _ = writeln!(io::stderr(), "pedal: reading standard input up to Ctrl-D");
    }
    read_some(input.lock())
}

/// Reads all bytes, or one more than are wanted.
fn read_some(source: impl Read) -> io::Result<Vec<u8>> {
    let mut bytes = Vec::new();
    let limit = MOST_BYTES as u64 + 1;
    source.take(limit).read_to_end(&mut bytes)?;
    Ok(bytes)
}

/// The line on which some bytes end, counted from 1.
fn line_after(bytes: &[u8]) -> usize {
    1 + bytes.iter().filter(|&&byte| byte == b'\n').count()
}

/// The bytes as text, without a byte order mark, or the line from which they are none.
fn text_of(source: String, bytes: Vec<u8>) -> Result<Source, Trouble> {
    if bytes.len() > MOST_BYTES {
        let reason = format!("the input is longer than {MOST_BYTES} bytes");
        let line = line_after(&bytes[..MOST_BYTES]);
        return Err(Trouble::Line {
            source,
            line,
            reason,
        });
    }
    match std::str::from_utf8(&bytes) {
        Ok(text) => Ok(Source {
            name: source,
            text: text.strip_prefix('\u{feff}').unwrap_or(text).to_string(),
        }),
        Err(error) => Err(Trouble::Line {
            source,
            line: line_after(&bytes[..error.valid_up_to()]),
            reason: "these bytes are not UTF-8 text".to_string(),
        }),
    }
}
