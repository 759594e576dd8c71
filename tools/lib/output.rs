//! What a tool prints.

use std::io::Write;

/// An error says that standard output did not take it all.
pub fn print(bytes: &[u8]) -> Result<(), String> {
    let mut output = std::io::stdout();
    let written = output.write_all(bytes).and_then(|()| output.flush());
    written.map_err(|error| format!("standard output: {error}"))
}
