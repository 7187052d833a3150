//! Jirrambeo in the caller's own process: what the code of a React component may alias, freeze and write, proved right.
//!
//! A unit is the JSON that docs/FORMAT.md describes. [`infer`] gives what is inferred of it as plain types, and [`certify`], [`check`], [`brief`],
//! [`verify`], [`lint`], [`explain`], [`explain_function`] and [`plain`] do what the program's commands of these names do. Each call stands alone: nothing is kept between calls, and calls may
//! run side by side in any number of threads.
//!
//! ```no_run
//! let unit = std::fs::read("unit.json")?;
//! let inference = jirrambeo::infer(&unit)?;
//! for entry in &inference.ranges {
//!     println!("{} may be written from {} to {}", entry.identifier, entry.range.start, entry.range.end);
//! }
//! # Ok::<(), Box<dyn std::error::Error>>(())
//! ```
//!
//! Every result's text (`to_string`) is the program's own, and reads back (`parse`) as the same result.
//!
//! No call panics: where the archive writes what this crate can't read, which is an error of one of the two, the answer is
//! [`Refusal::Unreadable`]. That the archive's text is as docs/FORMAT.md says is proved, and that this crate reads all of that is tested.
//!
//! # The licence
//!
//! MIT. The rules of the inference are ported from `oxc_react_compiler` and the React Compiler, which are under the same licence: Copyright (c) Meta
//! Platforms, Inc. and affiliates; Copyright (c) 2026-present `VoidZero` Inc. & Contributors.
//!
//! # The stack
//!
//! A call runs on the caller's stack: hosts/README.md says how much it takes.
#![warn(missing_docs)]

mod answers;
mod archive;
mod brief;
mod certificate;
mod check_fault;
mod effect;
mod faults;
mod ids;
mod inference;
mod lines;
mod refusal;
mod report;
mod site;
mod words;

pub use answers::{
    Accepted, Cause, Counts, Explanation, FunctionExplanation, PathStep, Plainness,
};
pub use brief::{Brief, BriefBlock, BriefFunction};
pub use certificate::{
    Certificate, CertifiedBlock, CertifiedFunction, State, Temporary, TemporaryKey,
};
pub use check_fault::CheckFault;
pub use effect::Effect;
pub use faults::{Holder, InferError, PlainFault, UnitFault};
pub use ids::{BlockId, FunctionId, FunctionName, IdentifierId, InstructionId, Order};
pub use inference::{
    Block, Function, IdentifierRange, Inference, InstructionEffects, MutableRange,
};
pub use lines::TextError;
pub use refusal::Refusal;
pub use report::{Label, Lint, Lints, Place, Report, Span};
pub use site::{Site, SiteValue, Variable};
pub use words::{Category, Counter, FormatRule, Table, ValueKind, ValueReason};

use std::str::{self, FromStr};

/// What is inferred of a unit.
///
/// # Errors
///
/// Where the unit is none, breaks a rule, is refused or is too long, and where memory runs out.
pub fn infer(unit: &[u8]) -> Result<Inference, Refusal> {
    answer("infer", unit)
}

/// What is inferred of a unit, with what it can be checked by.
///
/// # Errors
///
/// As of [`infer`].
pub fn certify(unit: &[u8]) -> Result<Certificate, Refusal> {
    answer("certify", unit)
}

/// Whether a certificate is accepted for a unit, without inferring anything anew. The certificate is the text of a [`Certificate`], or what anybody
/// says in its place, in that format: docs/FORMAT.md, Certificates.
///
/// ```no_run
/// let unit = std::fs::read("unit.json")?;
/// let claimed = std::fs::read("unit.certificate")?;
/// match jirrambeo::check(&unit, &claimed) {
///     Ok(accepted) => println!("accepted; functions: {}", accepted.functions),
///     Err(jirrambeo::Refusal::BadLine { number }) => println!("line {number} isn't one of a certificate"),
///     Err(jirrambeo::Refusal::Rejected(fault)) => println!("not accepted: fault {fault}"),
///     Err(refusal) => return Err(refusal.into()),
/// }
/// # Ok::<(), Box<dyn std::error::Error>>(())
/// ```
///
/// # Errors
///
/// Where the unit is none, breaks a rule or is too long together with the certificate; where the certificate isn't in its grammar
/// ([`Refusal::BadLine`]) or isn't accepted ([`Refusal::Rejected`]), and where memory runs out.
pub fn check(unit: &[u8], certificate: &[u8]) -> Result<Accepted, Refusal> {
    answer("check", &with_certificate(unit, certificate))
}

/// What is inferred of a unit, with what [`verify`] needs of its loops: the text is that of [`infer`], and longer where a function has edges back.
///
/// # Errors
///
/// As of [`infer`].
pub fn brief(unit: &[u8]) -> Result<Brief, Refusal> {
    answer("brief", unit)
}

/// Whether each line of a text is the one that follows for a unit, by one step of each block. The text is that of a [`Brief`], or what anybody says in its
/// place. A yes means that the effects, summaries, ranges and reports are those of entry states that solve each function, which the text tells where it has
/// edges back, and which are those of [`infer`] where it has none.
///
/// # Errors
///
/// Where the unit is none, breaks a rule or is too long together with the text; where the text isn't in its grammar ([`Refusal::BadLine`]), can't be
/// followed ([`Refusal::Rejected`]) or has another line than follows ([`Refusal::Differs`]), and where memory runs out.
pub fn verify(unit: &[u8], text: &[u8]) -> Result<Accepted, Refusal> {
    answer("verify", &with_certificate(unit, text))
}

/// A unit and its certificate in one input, as `check` and `verify` read it. The first newline ends the unit, so those of the unit become carriage returns, which
/// mean the same in JSON.
fn with_certificate(unit: &[u8], certificate: &[u8]) -> Vec<u8> {
    let mut input: Vec<u8> = unit
        .iter()
        .map(|byte| if *byte == b'\n' { b'\r' } else { *byte })
        .collect();
    input.push(b'\n');
    input.extend_from_slice(certificate);
    input
}

/// The reports on a unit, each with the place that it comes from.
///
/// # Errors
///
/// As of [`infer`].
pub fn lint(unit: &[u8]) -> Result<Lints, Refusal> {
    answer("lint", unit)
}

/// Why the range of an identifier ends where it does.
///
/// # Errors
///
/// As of [`infer`], and where the identifier doesn't stand in the function.
pub fn explain(
    unit: &[u8],
    function: FunctionName,
    identifier: IdentifierId,
) -> Result<Explanation, Refusal> {
    answer(&format!("explain {function} {identifier}"), unit)
}

/// Why the range of each identifier of a function ends where it does.
///
/// # Errors
///
/// As of [`infer`], and where the function isn't there.
pub fn explain_function(
    unit: &[u8],
    function: FunctionName,
) -> Result<FunctionExplanation, Refusal> {
    answer(&format!("explain {function}"), unit)
}

/// Whether a unit is plain, so that nothing in it leads the inference to refuse it where its functions settle.
///
/// # Errors
///
/// Where the unit is none, breaks a rule or is too long; where it isn't known whether it is plain, and where memory runs out.
pub fn plain(unit: &[u8]) -> Result<Plainness, Refusal> {
    answer("plain", unit)
}

/// How much is inferred of the unit of a seed and a size, which is from 1 to 1,000.
///
/// # Errors
///
/// Where the size is another, where the inference refuses the unit, and where memory runs out.
pub fn made(seed: u64, size: u32) -> Result<Counts, Refusal> {
    answer(&format!("made {seed} {size}"), b"")
}

/// The status and the text of a run of the program with these words, which single spaces part, on this input. The text is empty where memory ran out; it
/// is UTF-8, which is tested.
#[must_use]
pub fn run(words: &str, input: &[u8]) -> (u8, Vec<u8>) {
    archive::run(words.as_bytes(), input)
}

/// What a run's text says, or its refusal.
fn answer<T: FromStr<Err = TextError>>(words: &str, input: &[u8]) -> Result<T, Refusal> {
    let (status, text) = run(words, input);
    told(status, &text)
}

/// What the text of a run says that ended with this status.
fn told<T: FromStr<Err = TextError>>(status: u8, text: &[u8]) -> Result<T, Refusal> {
    let unreadable = |line| Refusal::Unreadable { status, line };
    let text = str::from_utf8(text).map_err(|error| {
        let front = &text[..error.valid_up_to()];
        unreadable(1 + front.iter().filter(|byte| **byte == b'\n').count())
    })?;
    if status == 0 {
        return text
            .parse()
            .map_err(|error: TextError| unreadable(error.line));
    }
    Err(Refusal::read(status, text).unwrap_or_else(|error| unreadable(error.line)))
}

#[cfg(test)]
mod tests {
    use super::{Inference, Lints, Refusal, told};

    #[test]
    fn a_text_that_cannot_be_read_is_a_refusal() {
        let unreadable = |status, line| Refusal::Unreadable { status, line };
        for (status, text, line) in [
            (
                0,
                b"function root\nblock 0\n0 Crate 1 Mutable Other\n".as_slice(),
                3,
            ),
            (0, b"function root\nblock \xff\n", 2),
            (5, b"refused Unfit 99 root\n", 1),
            (3, b"refused Words\n", 1),
            (77, b"refused Words\n", 1),
            (4, b"", 1),
        ] {
            let told: Result<Inference, Refusal> = told(status, text);
            assert_eq!(told.err(), Some(unreadable(status, line)), "{status}");
        }
        let told: Result<Lints, Refusal> = told(0, b"lints one\n");
        assert_eq!(
            told.err().map(|refusal| refusal.line()),
            Some(String::new())
        );
        assert_eq!(
            unreadable(0, 3).to_string(),
            "line 3 of the archive's text of status 0 isn't one that this crate reads"
        );
    }
}
