//! The table that is printed.

use crate::journals::Levels;

/// The names of what the proved library is compared with, in the order in which they are timed.
const OTHERS: [&str; 4] = ["(a)", "(a')", "(b)", "(c)"];

/// What stands above the table, for so many others.
pub fn print_head(others: usize) {
    println!("load of the machine: {}", std::fs::read_to_string("/proc/loadavg").unwrap_or_default().trim());
    println!("nanoseconds for one call, or for the load of one journal: median, and the lower and upper quartile");
    println!("ratio: the proved library's median over another's; below 1 the proved library is faster\n");
    print!("{:8} {:>6} {:6} {:>9} {:>17} {:>9} {:>17}", "call", "blocks", "levels", "proved", "quartiles", "(a)", "quartiles");
    for name in &OTHERS[..others] {
        print!(" {:>7}", format!("/{name}"));
    }
    println!();
}

pub fn print_line(name: &str, blocks: u32, levels: Levels, found: &[[f64; 3]]) {
    let kind = match levels {
        Levels::Drawn => "drawn",
        Levels::Zero => "zero",
    };
    print!("{name:8} {blocks:6} {kind:6}");
    for [low, middle, high] in &found[..2] {
        print!(" {middle:9.0} {:>17}", format!("{low:.0}-{high:.0}"));
    }
    for other in &found[1..] {
        print!(" {:7.2}", found[0][1] / other[1]);
    }
    println!();
}
