//! Makes every call on the unit of standard input from four threads, so often as the first argument says.
use jirrambeo::{FunctionName, IdentifierId, Refusal};
use std::error::Error;
use std::io::{self, Read};
use std::{env, thread};

/// Every call once. Answers how many there were.
fn all(unit: &[u8]) -> usize {
    let mut count = 11;
    let inference = jirrambeo::infer(unit).expect("an inference");
    let certificate = jirrambeo::certify(unit).expect("a certificate");
    for entry in &inference.ranges {
        let why = jirrambeo::explain(unit, FunctionName::Root, entry.identifier);
        assert_eq!(why.expect("an explanation").range, entry.range);
        count += 1;
    }
    let all = jirrambeo::explain_function(unit, FunctionName::Root).expect("explanations");
    assert!(all.identifiers.windows(2).all(|two| two[0].0 < two[1].0));
    let text = certificate.to_string();
    let accepted = jirrambeo::check(unit, text.as_bytes()).expect("an accepted certificate");
    assert_eq!(accepted.functions, inference.functions.len() as u64);
    let broken = jirrambeo::check(unit, &text.as_bytes()[1..]);
    assert_eq!(broken, Err(Refusal::BadLine { number: 1 }));
    let brief = jirrambeo::brief(unit).expect("a brief certificate");
    let text = brief.to_string();
    let verified = jirrambeo::verify(unit, text.as_bytes()).expect("a text that follows");
    assert_eq!(verified, accepted);
    let cut = jirrambeo::verify(unit, &text.as_bytes()[..text.len() - 1]);
    assert!(matches!(cut, Err(Refusal::Differs { .. })));
    let lints = jirrambeo::lint(unit).expect("lints");
    assert_eq!(lints.lints.len(), inference.reports.len());
    jirrambeo::plain(unit).expect("an answer");
    assert!(
        jirrambeo::explain(unit, FunctionName::Root, IdentifierId(u32::MAX)).is_err(),
        "no identifier has this number"
    );
    assert!(inference == certificate.into());
    assert_eq!(inference.functions.len(), brief.functions.len());
    count
}

fn main() -> Result<(), Box<dyn Error>> {
    let rounds: usize = env::args().nth(1).unwrap_or_default().parse()?;
    let mut unit = Vec::new();
    io::stdin().read_to_end(&mut unit)?;
    let each = || (0..rounds).map(|_| all(&unit)).sum::<usize>();
    let calls: usize = thread::scope(|scope| {
        let threads = [(); 4].map(|()| scope.spawn(each));
        threads
            .map(|thread| thread.join().expect("a thread's end"))
            .iter()
            .sum()
    });
    println!("hosts: Rust: {calls} calls from four threads");
    Ok(())
}
