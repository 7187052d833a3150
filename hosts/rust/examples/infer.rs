//! Infers the unit on standard input, in this process, and says from where to where each value may be written.
use std::error::Error;
use std::io::{self, Read};

fn main() -> Result<(), Box<dyn Error>> {
    let mut unit = Vec::new();
    io::stdin().read_to_end(&mut unit)?;
    let inference = jirrambeo::infer(&unit)?;
    for entry in &inference.ranges {
        let range = entry.range;
        println!(
            "{}: from {} to before {}",
            entry.identifier, range.start, range.end
        );
    }
    for lint in jirrambeo::lint(&unit)?.lints {
        println!(
            "{} at {} of block {}",
            lint.report.message, lint.place, lint.block
        );
    }
    Ok(())
}
