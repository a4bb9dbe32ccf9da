//! The running sum of an inputs text's line `i`, as plain Rust: what `bench/sum` measures `kahnrun` against.

use std::error::Error;
use std::fmt::Write;

fn main() -> Result<(), Box<dyn Error>> {
    let name = std::env::args().nth(1).ok_or("usage: plain_sum INPUTS")?;
    let text = std::fs::read_to_string(name)?;
    let items = text.lines().find_map(|line| line.strip_prefix("i:"));
    let mut sum: i64 = 0;
    let mut line = String::from("o:");
    for item in items.ok_or("no line of i")?.split_ascii_whitespace() {
        sum = sum.wrapping_add(item.parse()?);
        write!(line, " {sum}")?;
    }
    println!("{line}");
    Ok(())
}
