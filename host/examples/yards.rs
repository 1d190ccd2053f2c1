//! yards: the file of example-yards.c, by the builder that is given all yards at once, to standard output. A draft of the same yards must come to the same file.

use std::io::{self, Write};
use uskelzar::{Builder, Table};

const NAMES: [&str; 3] = ["Name", "TimezoneIdPrefix", "TimezoneId"];

fn main() -> Result<(), Box<dyn std::error::Error>> {
    let builder = Builder::new(Table::TimeZones, 16, &NAMES)
        .notice("drawn by hand")
        .yard(&[(2, 19900), (12, 19900), (12, 19910), (2, 19910)], &["Gate", "Asia/", "Pontianak"])
        .yard(&[(12, 19900), (42, 19900), (42, 19940), (12, 19940)], &["Tanks", "Asia/", "Pontianak"])
        .yard(&[(22, 19910), (22, 19930), (32, 19930), (32, 19910)], &["Tanks", "Asia/", "Pontianak"])
        .yard(&[(-20, 19940), (-4, 19940), (-4, 19980), (-20, 19980)], &["Berths", "Asia/", "Jakarta"]);
    let file = builder.build()?;
    if builder.begin()?.finish()? != file {
        return Err("the draft's file is another one".into());
    }
    io::stdout().write_all(&file)?;
    Ok(())
}
