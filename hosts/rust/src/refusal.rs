//! Why there is no result.
use crate::check_fault::CheckFault;
use crate::faults::{InferError, PlainFault, UnitFault};
use crate::lines::{Line, Lines, Quoted, TextError};
use crate::words::FormatRule;
use std::error::Error;
use std::fmt;

/// Why there is no result: a status of the program but 0, with what its line says.
#[derive(Clone, Debug, PartialEq, Eq, Hash)]
#[non_exhaustive]
pub enum Refusal {
    /// 2: the words are no command.
    Words,
    /// 3: the unit is no JSON, or nests deeper than 127 levels.
    NotJson,
    /// 4: the unit is JSON of another form.
    NotUnit {
        /// The JSON Pointer (RFC 6901) of the first value that breaks a rule of the format.
        pointer: String,
        /// The rule.
        rule: FormatRule,
    },
    /// 5: the unit breaks a rule.
    Unfit(UnitFault),
    /// 6: the inference refuses the unit.
    Refused(InferError),
    /// 9: the input has more than 16,777,216 bytes.
    TooLong,
    /// 10: memory ran out.
    Memory,
    /// 12: a line of the certificate isn't in its grammar.
    BadLine {
        /// The number of the first such line, from 1.
        number: u64,
    },
    /// 13: the certificate isn't one of the unit: the first fault.
    Rejected(CheckFault),
    /// 14: the identifier doesn't stand in the function that it was asked of.
    NotHere,
    /// 15: it isn't known whether the unit is plain.
    PlainRefused(PlainFault),
    /// 16: a line of the certificate isn't the one that follows.
    Differs {
        /// The number of the first such line, from 1.
        number: u64,
        /// The line that follows there: none where the text that follows ends before it.
        follows: Option<String>,
    },
    /// The archive wrote what this crate can't read, which is an error of one of the two: not of the unit.
    Unreadable {
        /// The status of the run.
        status: u8,
        /// The number of the first line of its text that can't be read, from 1.
        line: usize,
    },
}

impl Refusal {
    /// The refusal that a run tells which ended with this status, but 0, and wrote this text.
    ///
    /// # Errors
    ///
    /// Where the program doesn't write the text at this status.
    pub fn read(status: u8, text: &str) -> Result<Refusal, TextError> {
        if (status, text) == (10, "") {
            return Ok(Refusal::Memory);
        }
        let mut lines = Lines::new(text);
        let mut line = lines.need("refused")?;
        lines.end()?;
        let unfit = line.error();
        let refusal = Refusal::read_line(status, &mut line)?;
        if refusal.status() == status {
            Ok(refusal)
        } else {
            Err(unfit)
        }
    }

    /// The refusal of a line, behind its first word. An error of the inference is named by itself.
    fn read_line(status: u8, line: &mut Line<'_>) -> Result<Refusal, TextError> {
        if status == 6 {
            return InferError::read(*line).map(Refusal::Refused);
        }
        let name = line.word()?;
        let refusal = match name {
            "Unfit" => return UnitFault::read(*line).map(Refusal::Unfit),
            "PlainRefused" => return PlainFault::read(*line).map(Refusal::PlainRefused),
            "Rejected" => return CheckFault::read(*line).map(Refusal::Rejected),
            "Differs" => return Refusal::read_difference(line),
            "Words" => Refusal::Words,
            "NotJson" => Refusal::NotJson,
            "TooLong" => Refusal::TooLong,
            "NotHere" => Refusal::NotHere,
            "NotUnit" => Refusal::NotUnit {
                pointer: line.text()?,
                rule: line.named()?,
            },
            "BadLine" => Refusal::BadLine {
                number: line.number()?,
            },
            _ => return Err(line.error()),
        };
        line.end()?;
        Ok(refusal)
    }

    /// The number of the line that differs, and the line that follows there, to the end.
    fn read_difference(line: &mut Line<'_>) -> Result<Refusal, TextError> {
        let number = line.number()?;
        let follows = line.rest().map(str::to_owned);
        if follows.as_deref() == Some("") {
            return Err(line.error());
        }
        Ok(Refusal::Differs { number, follows })
    }

    /// The status with which the program ends.
    #[must_use]
    pub fn status(&self) -> u8 {
        match self {
            Refusal::Words => 2,
            Refusal::NotJson => 3,
            Refusal::NotUnit { .. } => 4,
            Refusal::Unfit(_) => 5,
            Refusal::Refused(_) => 6,
            Refusal::TooLong => 9,
            Refusal::Memory => 10,
            Refusal::BadLine { .. } => 12,
            Refusal::Rejected(_) => 13,
            Refusal::NotHere => 14,
            Refusal::PlainRefused(_) => 15,
            Refusal::Differs { .. } => 16,
            Refusal::Unreadable { status, .. } => *status,
        }
    }

    /// The line that the program writes, with its end: nothing where memory ran out, and where its text can't be read.
    #[must_use]
    pub fn line(&self) -> String {
        match self {
            Refusal::Words => "refused Words\n".to_owned(),
            Refusal::NotJson => "refused NotJson\n".to_owned(),
            Refusal::NotUnit { pointer, rule } => {
                format!("refused NotUnit {} {rule}\n", Quoted(pointer))
            }
            Refusal::Unfit(fault) => format!("refused Unfit {fault}\n"),
            Refusal::Refused(error) => format!("refused {error}\n"),
            Refusal::TooLong => "refused TooLong\n".to_owned(),
            Refusal::Memory | Refusal::Unreadable { .. } => String::new(),
            Refusal::BadLine { number } => format!("refused BadLine {number}\n"),
            Refusal::Rejected(fault) => format!("refused Rejected {fault}\n"),
            Refusal::NotHere => "refused NotHere\n".to_owned(),
            Refusal::PlainRefused(fault) => format!("refused PlainRefused {fault}\n"),
            Refusal::Differs {
                number,
                follows: Some(line),
            } => format!("refused Differs {number} {line}\n"),
            Refusal::Differs {
                number,
                follows: None,
            } => format!("refused Differs {number}\n"),
        }
    }

    /// What is wrong, for a person.
    fn explanation(&self) -> &'static str {
        match self {
            Refusal::Words => "the words are no command",
            Refusal::NotJson => "the unit is no JSON, or nests deeper than 127 levels",
            Refusal::NotUnit { .. } => {
                "the unit is JSON, and the value at this JSON Pointer doesn't fit a unit"
            }
            Refusal::Unfit(_) => "the unit breaks the rule of this number",
            Refusal::Refused(_) => "the unit can't be inferred",
            Refusal::TooLong => "the input has more than 16,777,216 bytes",
            Refusal::Memory => "memory ran out",
            Refusal::BadLine { .. } => {
                "the line of this number of the certificate isn't in the grammar"
            }
            Refusal::Rejected(_) => "the certificate isn't one of the unit",
            Refusal::NotHere => {
                "the identifier doesn't stand in that function, or is of its context"
            }
            Refusal::PlainRefused(_) => "it isn't known whether the unit is plain",
            Refusal::Differs { .. } => {
                "the line of this number of the certificate isn't the one that follows"
            }
            Refusal::Unreadable { .. } => "the archive's text can't be read",
        }
    }
}

/// What is wrong, and the line that the program writes.
impl fmt::Display for Refusal {
    fn fmt(&self, f: &mut fmt::Formatter<'_>) -> fmt::Result {
        if let Refusal::Unreadable { status, line } = self {
            return write!(
                f,
                "line {line} of the archive's text of status {status} isn't one that this crate reads"
            );
        }
        f.write_str(self.explanation())?;
        match self.line().trim_end() {
            "" => Ok(()),
            line => write!(f, ": {line}"),
        }
    }
}

impl Error for Refusal {}

#[cfg(test)]
mod tests {
    use super::Refusal;

    /// A line of each form that docs/FORMAT.md has, with its status.
    const LINES: [(u8, &str); 56] = [
        (2, "Words"),
        (3, "NotJson"),
        (4, "NotUnit \"/root/a~1b\\\"\" Missing"),
        (4, "NotUnit \"\" Kind"),
        (4, "NotUnit \"/a\" Unknown"),
        (4, "NotUnit \"/a\" Float"),
        (4, "NotUnit \"/a\" Range"),
        (4, "NotUnit \"/a\" Name"),
        (4, "NotUnit \"/a\" Twice"),
        (5, "Unfit 1 Identifiers 7"),
        (5, "Unfit 2 root"),
        (5, "Unfit 3 0 1 2"),
        (5, "Unfit 4 3"),
        (5, "Unfit 5 64"),
        (5, "Unfit 6 0"),
        (5, "Unfit 7 root 4"),
        (5, "Unfit 8 root 4"),
        (5, "Unfit 9 root 2"),
        (5, "Unfit 10 root 2 1"),
        (5, "Unfit 11 root 4294967295"),
        (5, "Unfit 12"),
        (5, "Unfit 13 root 5"),
        (5, "Unfit 14 5 0"),
        (5, "Unfit 15 root 1025"),
        (5, "Unfit 15 signature 65"),
        (5, "Unfit 17 0"),
        (6, "Reinitialized root 1 3"),
        (6, "AliasBeforeCreate root 1 3"),
        (6, "IncompatibleLibrary root 1"),
        (6, "SpreadArgument 2 1"),
        (6, "TooMany Identifiers"),
        (6, "Uninitialized root 1 3"),
        (6, "NotSettled root 4294967296"),
        (6, "UnreplacedApply 3"),
        (6, "EffectsNotInferred 3"),
        (9, "TooLong"),
        (12, "BadLine 3"),
        (13, "Rejected 1 0"),
        (13, "Rejected 2 root"),
        (13, "Rejected 3 root 1"),
        (13, "Rejected 4 2"),
        (13, "Rejected 5 root"),
        (13, "Rejected 6 root 0"),
        (13, "Rejected 7 0 3"),
        (13, "Rejected 8 root 0"),
        (13, "Rejected 9 root 0 1"),
        (13, "Rejected 10 root 1"),
        (13, "Rejected 11 4"),
        (13, "Rejected 12 GraphPositions"),
        (14, "NotHere"),
        (15, "PlainRefused NotSettled root"),
        (15, "PlainRefused TooMany Diagnostics"),
        (16, "Differs 19 range 1 1 7"),
        (16, "Differs 23 reports 0"),
        (16, "Differs 24"),
        (16, "Differs 9 report Purity \"a  b \" - 1..2 -"),
    ];

    #[test]
    fn lines_read_back() {
        for (status, rest) in LINES {
            let line = format!("refused {rest}\n");
            let refusal = Refusal::read(status, &line).unwrap_or_else(|_| panic!("{line}"));
            assert_eq!((refusal.status(), refusal.line()), (status, line));
        }
        assert_eq!(Refusal::read(10, ""), Ok(Refusal::Memory));
    }

    #[test]
    fn other_lines_are_none() {
        for (status, text) in [
            (3, "refused Words\n"),
            (2, "refused Words"),
            (2, "refused  Words\n"),
            (2, "refused Words \n"),
            (2, "refused Words\nrefused Words\n"),
            (5, "refused Unfit 16 root\n"),
            (5, "refused Unfit 2 root 1\n"),
            (5, "refused Unfit 02 root\n"),
            (4, "refused NotUnit \"/a Kind\n"),
            (7, "refused ReadFault\n"),
            (12, "refused BadLine\n"),
            (12, "refused BadLine 3 1\n"),
            (12, "refused Rejected 2 root\n"),
            (13, "refused BadLine 3\n"),
            (13, "refused Rejected 0 root\n"),
            (13, "refused Rejected 13 root 0\n"),
            (13, "refused Rejected 1 root\n"),
            (13, "refused Rejected 3 root\n"),
            (13, "refused Rejected 9 root 0\n"),
            (13, "refused Rejected 11 root 0\n"),
            (13, "refused Rejected 12 Functions\n"),
            (16, "refused Differs\n"),
            (16, "refused Differs x\n"),
            (16, "refused Differs 3 \n"),
            (13, "refused Differs 3\n"),
            (2, ""),
        ] {
            assert!(Refusal::read(status, text).is_err(), "{text}");
        }
    }
}
