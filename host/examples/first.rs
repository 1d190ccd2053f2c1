//! first: the line of a slip. README.md shows it.
use uskelzar::{Bundle, Map, Printer};

fn main() -> Result<(), Box<dyn std::error::Error>> {
    let printer = Printer::new(Map::read("examples/world-9.plb")?, Bundle::read("examples/zones.tzdata")?);
    match printer.stamp(52.52, 13.40, 1_782_907_199) {
        Ok(slip) => println!("{slip}"),
        Err(why) => println!("not stamped: {why}"),
    }
    Ok(())
}
