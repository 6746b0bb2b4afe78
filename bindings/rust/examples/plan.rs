//! Plans the scene on standard input, shortens the path, and writes the report.

use std::io::{self, Read, Write};

fn main() -> Result<(), Box<dyn std::error::Error>> {
    let mut text = Vec::new();
    io::stdin().read_to_end(&mut text)?;
    let report = kimorefo::smooth(&text)?;
    io::stdout().write_all(&report.text)?;
    Ok(())
}
