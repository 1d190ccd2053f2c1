//! stamp MAP ZONES REQUEST: the slip that a request asks for, or why there is none: number, cause, detail, words. ZONES is a bundle, or a folder of TZif files, which becomes one.
//! Exit status: 0 stamped, 1 not stamped, 2 not run. example-stamp.c prints the same, but for the words.

use std::path::Path;
use std::process::ExitCode;
use uskelzar::{Bundle, Error, Map, Printer};

fn printer(map: &str, zones: &str) -> Result<Printer<Vec<u8>>, Error> {
    let zones = if Path::new(zones).is_dir() { Bundle::of_folder(zones)?.bundle } else { Bundle::read(zones)? };
    Ok(Printer::new(Map::read(map)?, zones))
}

fn main() -> ExitCode {
    let words: Vec<String> = std::env::args().skip(1).collect();
    let [map, zones, request] = words.as_slice() else {
        eprintln!("usage: stamp MAP ZONES REQUEST");
        return ExitCode::from(2);
    };
    let printer = match printer(map, zones) {
        Ok(printer) => printer,
        Err(error) => {
            eprintln!("stamp: {map} or {zones}: {error}");
            return ExitCode::from(2);
        }
    };
    match printer.stamp_request(request) {
        Ok(slip) => {
            println!("{slip}");
            ExitCode::SUCCESS
        }
        Err(why) => {
            println!("not stamped: {why}");
            ExitCode::from(1)
        }
    }
}
