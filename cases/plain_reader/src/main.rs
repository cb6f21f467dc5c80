//! Reads the file that is its argument as a JSON value, and does no more: what `taskgraph check` is measured by.

use std::{env, error, fs};

fn main() -> Result<(), Box<dyn error::Error>> {
    let name = env::args().nth(1).ok_or("no file")?;
    let value: serde_json::Value = serde_json::from_slice(&fs::read(name)?)?;
    drop(value);
    Ok(())
}
