//! Says whether a certificate is accepted for a unit, in this process: check UNIT.json CERTIFICATE
use jirrambeo::{CheckFault, Refusal};
use std::error::Error;
use std::{env, fs};

fn main() -> Result<(), Box<dyn Error>> {
    let paths: Vec<String> = env::args().skip(1).collect();
    let [unit, certificate] = &paths[..] else {
        return Err("usage: check UNIT.json CERTIFICATE".into());
    };
    match jirrambeo::check(&fs::read(unit)?, &fs::read(certificate)?) {
        Ok(accepted) => println!("accepted; functions: {}", accepted.functions),
        Err(Refusal::BadLine { number }) => println!("line {number} is none of a certificate"),
        Err(Refusal::Rejected(CheckFault::Effects { function, block })) => {
            println!("function {function}, block {block}: the effects are others");
        }
        Err(Refusal::Rejected(fault)) => println!("not accepted: fault {fault}"),
        Err(refusal) => return Err(refusal.into()),
    }
    Ok(())
}
